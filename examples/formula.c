/* Converts the formula on standard input by the static library, and ends as ./formula does: 0 converted, 2 refused, 3 not read.
   README, 'From C and Rust', says how it is built. */
#include <stdio.h>

#include "simplify_ordering.h"

/* A line end, which is no part of the formula, and one byte more, by which too long a formula is known. */
static uint8_t formula[SIMPLIFY_ORDERING_LONGEST_FORMULA + 2];
static uint8_t out[SIMPLIFY_ORDERING_LEAST_OUTPUT];

int main(void) {
    size_t length, converted;
    uint8_t number;

    length = fread(formula, 1, sizeof formula, stdin);
    if (ferror(stdin)) {
        perror("standard input");
        return 3;
    }
    if (length > 0 && formula[length - 1] == '\n')
        length--;

    number = simplify_ordering_formula(formula, length, out, sizeof out, &converted);
    if (number == SIMPLIFY_ORDERING_CONVERTED)
        fwrite(out, 1, converted, stdout);
    else
        printf("R,%d\n", number);

    if (fflush(stdout) != 0 || ferror(stdout)) {
        perror("standard output");
        return 3;
    }
    return number == SIMPLIFY_ORDERING_CONVERTED ? 0 : 2;
}
