/* The stack that the calls take: a thread makes them on a stack that was painted before, and then looks how far down it was touched. */
#include <pthread.h>
#include <stdlib.h>
#include <string.h>
#include "tulbazhik.h"

enum { SIZE = 1 << 20, PAINT = 0xA5 };

struct job {
    const uint8_t *source;
    size_t length;
    uint32_t width;
    unsigned char *stack, *top;
};

static uint8_t table[1 << 20], text[1 << 20];
static tulbazhik_print_state printing;

/* an edition and a width */
static const uint8_t settings[] = {8, 0, 0, 0, 1, 0, 4, 0, 10, 0, 0, 0, 2, 0, 100, 0, 0, 0};

/* Lexes, feeds, reads and prints the source, whole and through windows, and looks settings up and writes them; `top` is where the
   calls' part of the stack begins. */
static void *calls(void *of) {
    struct job *job = of;
    tulbazhik_answer answer = {.kind = TULBAZHIK_END};
    tulbazhik_state state;
    job->top = (unsigned char *)&answer;
    memset(job->stack, PAINT, (size_t)(job->top - job->stack) - 4096);
    tulbazhik_edition(settings, sizeof settings, settings, sizeof settings, &answer);
    tulbazhik_width(settings, sizeof settings, settings, sizeof settings, &answer);
    tulbazhik_style(settings, sizeof settings, settings, sizeof settings, &answer);
    tulbazhik_write_width(settings, sizeof settings, 80, text, sizeof text, &answer);
    tulbazhik_write_style(settings, sizeof settings, job->source, 1, text, sizeof text, &answer);
    tulbazhik_next_token(job->source, job->length, 0, &answer);
    tulbazhik_fresh(&state);
    tulbazhik_feed(&state, job->source, job->length, &answer);
    tulbazhik_close(&state, &answer);
    tulbazhik_read(job->source, job->length, table, sizeof table, &answer);
    size_t length = answer.length;
    if (answer.kind == TULBAZHIK_DONE)
        tulbazhik_print(table, length, job->width, text, sizeof text, &answer);
    memset(&printing, 0, sizeof printing);
    while (answer.kind == TULBAZHIK_DONE)
        tulbazhik_fill(table, length, job->width, &printing, text, 512, &answer);
    return answer.kind == TULBAZHIK_END ? job : NULL;
}

/* Bytes of stack, or 0 if the source was not read and printed. */
size_t stack_taken(const uint8_t *source, size_t length, uint32_t width) {
    struct job job = {.source = source, .length = length, .width = width, .stack = aligned_alloc(4096, SIZE)};
    pthread_attr_t attributes;
    pthread_t thread;
    void *done = NULL;
    pthread_attr_init(&attributes);
    if (job.stack != NULL && pthread_attr_setstack(&attributes, job.stack, SIZE) == 0 &&
        pthread_create(&thread, &attributes, calls, &job) == 0)
        pthread_join(thread, &done);
    size_t below = 0;
    while (done != NULL && job.stack[below] == PAINT)
        below++;
    size_t taken = done == NULL ? 0 : (size_t)(job.top - (job.stack + below));
    free(job.stack);
    return taken;
}
