/* Marks a paper against a sheet, two files, by the static library, and ends as ./mark does: 0 right, 1 wrong, 2 refused, 3 not read,
   64 called otherwise. README, 'From C and Rust', says how it is built. */
#include <stdio.h>

#include "simplify_ordering.h"

static uint8_t sheet[SIMPLIFY_ORDERING_LONGEST_SHEET + 1]; /* one byte more, by which too long a sheet is known */
static uint8_t paper[SIMPLIFY_ORDERING_LEAST_OUTPUT + 1];  /* a longer paper is wrong: no finished sheet has as much */
static uint8_t out[SIMPLIFY_ORDERING_LEAST_OUTPUT];

static int read_file(const char *path, uint8_t *bytes, size_t room, size_t *length) {
    FILE *file = fopen(path, "rb");
    int whole;

    if (file == NULL) {
        perror(path);
        return 0;
    }
    *length = fread(bytes, 1, room, file);
    whole = !ferror(file);
    if (!whole)
        perror(path);
    fclose(file);
    return whole;
}

int main(int count, char **words) {
    size_t sheet_length, paper_length;
    uint8_t mark;

    if (count != 3) {
        fputs("usage: mark SHEET PAPER\n", stderr);
        return 64;
    }
    if (!read_file(words[1], sheet, sizeof sheet, &sheet_length) || !read_file(words[2], paper, sizeof paper, &paper_length))
        return 3;

    mark = simplify_ordering_mark(sheet, sheet_length, paper, paper_length, out, sizeof out);
    if (mark == SIMPLIFY_ORDERING_RIGHT)
        puts("right");
    else if (mark == SIMPLIFY_ORDERING_WRONG)
        puts("wrong");
    else
        printf("R,%d\n", mark);

    if (fflush(stdout) != 0 || ferror(stdout)) {
        perror("standard output");
        return 3;
    }
    return mark == SIMPLIFY_ORDERING_RIGHT ? 0 : mark == SIMPLIFY_ORDERING_WRONG ? 1 : 2;
}
