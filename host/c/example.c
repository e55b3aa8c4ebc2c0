/* Prints an ISLE source at width 100, with rooms that grow: cc -I ../include example.c ../../target/staticlib/libtulbazhik_trees.a
   Its status is 1 after a refusal, and 2 where its input or its output fails. */
#include <stdio.h>
#include <stdlib.h>
#include "tulbazhik.h"

/* whether a call is still to be made, with a room of so many bytes as the place says */
static int wants_room(const tulbazhik_answer *answer, uint64_t number) {
    return answer->kind == TULBAZHIK_REFUSED && answer->number == number;
}

int format(const uint8_t *source, size_t length, FILE *out) {
    tulbazhik_answer read = {.kind = TULBAZHIK_REFUSED, .number = TULBAZHIK_TABLE_ROOM, .place = 2 * length + 1};
    tulbazhik_answer print = {.kind = TULBAZHIK_REFUSED, .number = TULBAZHIK_PRINT_ROOM, .place = 2 * length + 1};
    uint8_t *table = NULL, *text = NULL;
    while (wants_room(&read, TULBAZHIK_TABLE_ROOM) && (table = realloc(table, read.place)) != NULL)
        tulbazhik_read(source, length, table, read.place, &read);
    if (read.kind != TULBAZHIK_DONE)
        print = read;
    while (wants_room(&print, TULBAZHIK_PRINT_ROOM) && (text = realloc(text, print.place)) != NULL)
        tulbazhik_print(table, read.length, 100, text, print.place, &print);
    if (print.kind == TULBAZHIK_DONE)
        fwrite(text, 1, print.length, out);
    else
        fprintf(out, "refusal %d at %zu\n", (int)print.number, (size_t)print.place);
    free(table);
    free(text);
    return print.kind != TULBAZHIK_DONE;
}

int main(void) {
    static uint8_t source[TULBAZHIK_SOURCE_LIMIT + 1]; /* a longer one is refused, not cut */
    size_t length = fread(source, 1, sizeof source, stdin);
    int refused = !ferror(stdin) && format(source, length, stdout);
    if (ferror(stdin) || fflush(stdout) != 0 || ferror(stdout)) { /* a part of a source or of a text passes for none */
        perror("example");
        return 2;
    }
    return refused;
}
