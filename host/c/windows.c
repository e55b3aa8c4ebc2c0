/* Prints an ISLE source at width 100 as example.c does, but through a window of 512 bytes, with no room for a text:
   cc -I ../include windows.c ../../target/staticlib/libtulbazhik_trees.a ../../target/staticlib/libtulbazhik_windows.a */
#include <stdio.h>
#include "tulbazhik.h"

static uint8_t source[TULBAZHIK_SOURCE_LIMIT + 1], table[TULBAZHIK_TABLE_LIMIT];

static int format(size_t length) {
    tulbazhik_answer answer;
    tulbazhik_print_state state = {{0}}; /* zeros are the fresh state */
    uint8_t window[512];
    tulbazhik_read(source, length, table, sizeof table, &answer);
    length = answer.length;
    while (answer.kind == TULBAZHIK_DONE) {
        tulbazhik_fill(table, length, 100, &state, window, sizeof window, &answer);
        fwrite(window, 1, answer.kind == TULBAZHIK_DONE ? answer.length : 0, stdout);
    }
    if (answer.kind == TULBAZHIK_REFUSED)
        printf("refusal %d at %zu\n", (int)answer.number, (size_t)answer.place);
    return answer.kind == TULBAZHIK_REFUSED;
}

int main(void) {
    size_t length = fread(source, 1, sizeof source, stdin);
    int refused = !ferror(stdin) && format(length);
    if (ferror(stdin) || fflush(stdout) != 0 || ferror(stdout)) {
        perror("windows");
        return 2;
    }
    return refused;
}
