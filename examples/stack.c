/* How much stack the three calls take: each file named is finished, marked against its own bytes, and converted as a formula, on a
   thread whose stack was filled beforehand. Prints the bytes from the frame of the caller down to the lowest byte that was changed, of
   each file and call, and the most of each call. With --batch the files hold many sheets, each followed by three dashes and byte 10, as
   oracle's gen prints them, and only the most is printed. examples/try.sh builds and runs it. POSIX threads; the stack grows downwards. */
#include <pthread.h>
#include <stdio.h>
#include <stdlib.h>
#include <string.h>

#include "simplify_ordering.h"

#define STACK (1024 * 1024)
#define FILL 0xA5

enum kind { FINISH, MARK, CONVERT, KINDS };

struct call {
    enum kind kind;
    const uint8_t *bytes;
    size_t length;
    uint8_t *lowest; /* of the thread's stack */
    size_t taken;
};

static uint8_t out[SIMPLIFY_ORDERING_LEAST_OUTPUT];

static void *run(void *given) {
    struct call *call = (struct call *)given;
    uint8_t here = 0;
    size_t written, untouched = 0;

    switch (call->kind) {
    case FINISH:
        simplify_ordering_finish(call->bytes, call->length, out, sizeof out, &written);
        break;
    case MARK:
        simplify_ordering_mark(call->bytes, call->length, call->bytes, call->length, out, sizeof out);
        break;
    default:
        simplify_ordering_formula(call->bytes, call->length, out, sizeof out, &written);
    }
    while (call->lowest[untouched] == FILL)
        untouched++;
    call->taken = (size_t)((uintptr_t)&here - (uintptr_t)call->lowest) - untouched;
    return NULL;
}

static size_t most[KINDS];

static size_t taken_by(enum kind kind, const uint8_t *bytes, size_t length) {
    struct call call;
    pthread_attr_t attributes;
    pthread_t thread;
    void *stack = NULL;

    if (posix_memalign(&stack, 4096, STACK) != 0)
        exit(1);
    memset(stack, FILL, STACK);
    call.kind = kind;
    call.bytes = bytes;
    call.length = length;
    call.lowest = (uint8_t *)stack;
    call.taken = 0;
    pthread_attr_init(&attributes);
    if (pthread_attr_setstack(&attributes, stack, STACK) != 0 || pthread_create(&thread, &attributes, run, &call) != 0)
        exit(1);
    pthread_join(thread, NULL);
    pthread_attr_destroy(&attributes);
    free(stack);
    if (call.taken > most[kind])
        most[kind] = call.taken;
    return call.taken;
}

static void print(const char *name, size_t finish, size_t mark, size_t formula) {
    printf("%s: finish %lu, mark %lu, formula %lu\n", name, (unsigned long)finish, (unsigned long)mark, (unsigned long)formula);
}

/* Without a name only the most is kept. */
static void measure(const char *name, const uint8_t *bytes, size_t length) {
    size_t finish = taken_by(FINISH, bytes, length), mark = taken_by(MARK, bytes, length);
    size_t formula = taken_by(CONVERT, bytes, length);

    if (name != NULL)
        print(name, finish, mark, formula);
}

static void measure_batch(uint8_t *text, size_t length) {
    size_t from = 0, at = 0;

    for (; at + 4 <= length; at++)
        if (memcmp(text + at, "---\n", 4) == 0) {
            measure(NULL, text + from, at - from);
            from = at + 4;
        }
}

static void measure_file(const char *path, int batch) {
    static uint8_t text[64 * 1024 * 1024];
    FILE *file = fopen(path, "rb");
    size_t length;

    if (file == NULL) {
        perror(path);
        exit(3);
    }
    length = fread(text, 1, sizeof text, file);
    fclose(file);
    if (batch)
        measure_batch(text, length);
    else
        measure(path, text, length);
}

int main(int count, char **words) {
    int batch = count > 1 && strcmp(words[1], "--batch") == 0, i;

    for (i = 1 + batch; i < count; i++)
        measure_file(words[i], batch);
    print("the most", most[FINISH], most[MARK], most[CONVERT]);
    return 0;
}
