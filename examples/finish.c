/* Finishes the sheet on standard input by the static library, and ends as ./finish does: 0 finished, 2 refused, 3 not read.
   README, 'From C and Rust', says how it is built. */
#include <stdio.h>

#include "simplify_ordering.h"

static uint8_t sheet[SIMPLIFY_ORDERING_LONGEST_SHEET + 1]; /* one byte more, by which too long a sheet is known */
static uint8_t out[SIMPLIFY_ORDERING_LEAST_OUTPUT];

int main(void) {
    size_t length, finished;
    uint8_t number;

    length = fread(sheet, 1, sizeof sheet, stdin);
    if (ferror(stdin)) {
        perror("standard input");
        return 3;
    }

    number = simplify_ordering_finish(sheet, length, out, sizeof out, &finished);
    if (number == SIMPLIFY_ORDERING_FINISHED)
        fwrite(out, 1, finished, stdout);
    else
        printf("R,%d\n", number);

    if (fflush(stdout) != 0 || ferror(stdout)) {
        perror("standard output");
        return 3;
    }
    return number == SIMPLIFY_ORDERING_FINISHED ? 0 : 2;
}
