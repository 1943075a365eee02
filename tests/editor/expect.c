/* Checks that can fail: each says file, line, what was looked at and what was wanted, and ends the program. */
#include "editor.h"

#include <inttypes.h>
#include <stdio.h>
#include <stdlib.h>

void expect(const char *file, int line, bool holds, const char *what) {
    if (holds) return;
    fprintf(stderr, "%s:%d: does not hold: %s\n", file, line, what);
    exit(1);
}

void expect_same(const char *file, int line, const char *what, uint64_t is, uint64_t wanted) {
    if (is == wanted) return;
    fprintf(stderr, "%s:%d: %s is %" PRIu64 ", not %" PRIu64 "\n", file, line, what, is, wanted);
    exit(1);
}

void expect_answer(const char *file, int line, const char *what, uint64_t is, uint32_t number, uint32_t place) {
    if (NOCTELVIA_NUMBER(is) == number && NOCTELVIA_PLACE(is) == place) return;
    fprintf(stderr, "%s:%d: %s answers number %" PRIu32 ", place %" PRIu32, file, line, what, NOCTELVIA_NUMBER(is),
            NOCTELVIA_PLACE(is));
    fprintf(stderr, ", not number %" PRIu32 ", place %" PRIu32 "\n", number, place);
    exit(1);
}
