/* Shows the settings of a project's file with a house file behind it: settings PROJECT HOUSE
   cc -I ../include settings.c ../../target/staticlib/libtulbazhik_settings.a
   A project that has no file names the house's twice. Its status is 1 after a refusal, and 2 where a file is not read. */
#include <stdio.h>
#include "tulbazhik.h"

static uint8_t project[TULBAZHIK_SETTINGS_LIMIT + 1], house[TULBAZHIK_SETTINGS_LIMIT + 1]; /* a longer one is refused, not cut */

/* whether the file was read */
static int load(const char *name, uint8_t *file, size_t *length) {
    FILE *in = fopen(name, "rb");
    if (in == NULL)
        return 0;
    *length = fread(file, 1, TULBAZHIK_SETTINGS_LIMIT + 1, in);
    int read = !ferror(in);
    fclose(in);
    return read;
}

/* A line for an answer; 1 for a refusal. */
static int show(const char *name, const tulbazhik_answer *answer) {
    static const char *const sides[] = {"", "the project", "the house", "neither"};
    const char *side = sides[answer->side];
    if (answer->kind == TULBAZHIK_REFUSED)
        printf("%s: refusal %d at %zu of %s\n", name, (int)answer->number, (size_t)answer->place, side);
    else if (answer->length > 0) /* a style name: a part of the file that the side names */
        printf("%s %.*s of %s\n", name, (int)answer->length,
               (const char *)(answer->side == TULBAZHIK_PROJECT ? project : house) + answer->place, side);
    else
        printf("%s %lu of %s\n", name, (unsigned long)answer->low, side);
    return answer->kind == TULBAZHIK_REFUSED;
}

int main(int count, char **names) {
    size_t of_project, of_house;
    if (count != 3 || !load(names[1], project, &of_project) || !load(names[2], house, &of_house)) {
        perror("settings");
        return 2;
    }
    tulbazhik_answer answer;
    tulbazhik_edition(project, of_project, house, of_house, &answer);
    int refused = show("edition", &answer);
    tulbazhik_width(project, of_project, house, of_house, &answer);
    refused |= show("width", &answer);
    tulbazhik_style(project, of_project, house, of_house, &answer);
    refused |= show("style", &answer);
    if (fflush(stdout) != 0 || ferror(stdout))
        return 2;
    return refused;
}
