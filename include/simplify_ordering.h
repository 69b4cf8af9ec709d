/* Three calls: a sheet of bytes in, its finished sheet or the number of a refusal out; a paper marked against a sheet; and a formula
   in, its E lines or the number of a refusal out. */
#ifndef SIMPLIFY_ORDERING_H
#define SIMPLIFY_ORDERING_H

#include <stddef.h>
#include <stdint.h>

#ifdef __cplusplus
extern "C" {
#endif

/* The longest sheet and the longest formula that are read, and the least output that has to be lent. */
#define SIMPLIFY_ORDERING_LONGEST_SHEET 16384
#define SIMPLIFY_ORDERING_LONGEST_FORMULA 16384
#define SIMPLIFY_ORDERING_LEAST_OUTPUT 16384

/* What is answered: 0, or the number of the refusal. The first fault decides. They are looked for in the order in which they
   stand here; 3, 4 and 5 line by line, and so are 8 and 12, in E lines before P lines. */
enum simplify_ordering_answer {
    SIMPLIFY_ORDERING_FINISHED = 0,          /* the finished sheet stands at the front of the output */
    SIMPLIFY_ORDERING_OUTPUT = 1,            /* the output lent is shorter than the least */
    SIMPLIFY_ORDERING_LENGTH = 2,            /* the sheet is longer than the longest */
    SIMPLIFY_ORDERING_FORM = 3,              /* not the form of a line, or an E line after a P line */
    SIMPLIFY_ORDERING_TABLE = 4,             /* a kind, an option or a count outside its table */
    SIMPLIFY_ORDERING_ROOM = 5,              /* more P lines or more expressions than there is room for */
    SIMPLIFY_ORDERING_NO_STEP = 6,           /* no P line */
    SIMPLIFY_ORDERING_REFERENCE = 7,         /* a child, an input or an expression that may not be named there */
    SIMPLIFY_ORDERING_UNUSED = 8,            /* an E line, or a P line that is no Sink, that nothing names */
    SIMPLIFY_ORDERING_REUSED = 12,           /* an E line, or a P line neither Sink nor Cache, named more than once */
    SIMPLIFY_ORDERING_CACHE_ID = 13,         /* two Cache lines with one id */
    SIMPLIFY_ORDERING_STRUCT_FIELD = 9,      /* a StructField outside the evaluation of every StructEval */
    SIMPLIFY_ORDERING_JOIN = 10,             /* the assertions on a Join's keys fail */
    SIMPLIFY_ORDERING_PARTITIONED_SINK = 11  /* the assertions on a partitioned Sink's keys fail */
};

/* Finishes the sheet. For 0, *finished is the length of the finished sheet, which stands at the front of `out`; the bytes
   behind it are as they were. For a refusal, *finished is 0 and every byte of `out` is as it was.
   No pointer may be null, not even with a length of 0. `out` and *finished overlap neither each other nor the sheet, and
   nobody else writes to any of the three before the call returns. It keeps no pointer and no state.
   It takes at most 64 KiB of stack. */
uint8_t simplify_ordering_finish(const uint8_t *sheet, size_t sheet_length, uint8_t *out, size_t out_length,
                                 size_t *finished);

/* What marking answers, besides the number of a refusal: those are never 0 and never 255. The right paper is all P lines of the
   finished sheet and then its G lines but for those whose consumer is a sort that was removed, each ended by byte 10. */
enum simplify_ordering_verdict {
    SIMPLIFY_ORDERING_RIGHT = 0,   /* the paper's bytes are those of the right paper */
    SIMPLIFY_ORDERING_WRONG = 255  /* the sheet is finished, and the paper is anything else */
};

/* Marks the paper against the sheet. For right and wrong the finished sheet stands at the front of `out`, and the bytes behind
   it are as they were. Its length is not told: it ends with the byte 10 of its T line, the only line that begins with T.
   For a refusal, with the numbers of simplify_ordering_answer, every byte of `out` is as it was; the paper has no part in it.
   No pointer may be null, not even with a length of 0. The sheet and the paper are only read, and may overlap; `out` overlaps
   neither, and nobody else writes to any of the three before the call returns. It keeps no pointer and no state.
   It takes at most 64 KiB of stack. */
uint8_t simplify_ordering_mark(const uint8_t *sheet, size_t sheet_length, const uint8_t *paper, size_t paper_length,
                               uint8_t *out, size_t out_length);

/* What converting a formula answers, besides two numbers of simplify_ordering_answer, which come first: SIMPLIFY_ORDERING_OUTPUT, and
   SIMPLIFY_ORDERING_LENGTH for a formula that is longer than the longest. 15 is looked for last. */
enum simplify_ordering_conversion {
    SIMPLIFY_ORDERING_CONVERTED = 0,   /* the formula's E lines stand at the front of the output */
    SIMPLIFY_ORDERING_NO_FORMULA = 14, /* not a formula: docs/GUIDE.md says what one is. A line end is no part of one */
    SIMPLIFY_ORDERING_MANY_LINES = 15  /* a formula of 65 or more operands, whose E lines are more than 128 */
};

/* Converts the formula. For 0, *converted is the length of its E lines, which stand at the front of `out` and name one another from
   line 0 on; the bytes behind them are as they were. For a refusal, *converted is 0 and every byte of `out` is as it was.
   No pointer may be null, not even with a length of 0. `out` and *converted overlap neither each other nor the formula, and
   nobody else writes to any of the three before the call returns. It keeps no pointer and no state.
   It takes at most 64 KiB of stack. */
uint8_t simplify_ordering_formula(const uint8_t *formula, size_t formula_length, uint8_t *out, size_t out_length,
                                  size_t *converted);

#ifdef __cplusplus
}
#endif

#endif
