/* The example without its main, for a comparison in one process: what it writes goes to memory. */
#define main example_main
#include "example.c"
#undef main

int example_format(const uint8_t *source, size_t length, char **text, size_t *size) {
    FILE *out = open_memstream(text, size);
    int refused = format(source, length, out);
    fclose(out);
    return refused;
}
