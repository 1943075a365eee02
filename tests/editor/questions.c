/* Ages and repetitions of single signals, asked while a user still edits: the scope's cases 1 to 9. */
#include "editor.h"

/* Unless said otherwise: cycle 2,500, slot 16, 93 slots, packing 0, payload 8; "T/O/D" is period, offset, bound. */
static uint32_t repetition(uint32_t slots, uint32_t packing, uint32_t period, uint32_t offset, uint32_t bound) {
    return noctelvia_repetition(2500, 16, slots, packing, 8, 1, period, offset, 16, bound);
}

static uint32_t age(uint32_t packing, uint32_t period, uint32_t offset, /* the frame: */
                    uint32_t slot, uint32_t repetition, uint32_t base) {
    return noctelvia_age(2500, 16, 93, packing, 8, 1, period, offset, 16, period, slot, repetition, base);
}

void ask_repetitions(void) {
    EXPECT_SAME(repetition(93, 0, 2500, 0, 2500), 1);          /* case 1 */
    EXPECT_SAME(repetition(93, 0, 2500, 16, 2500), 1);         /* case 2 */
    EXPECT_SAME(repetition(93, 0, 2500, 15, 2500), 0);         /* case 3: one macrotick too old in slot 1 */
    EXPECT_SAME(repetition(93, 1, 2500, 0, 2500), 0);          /* case 4 */
    EXPECT_SAME(repetition(93, 100, 10000, 2000, 9488), 4);    /* case 5 */
    EXPECT_SAME(repetition(93, 100, 10000, 2000, 9487), 2);    /* case 6 */
    EXPECT_SAME(repetition(93, 100, 50000, 2000, 50000), 16);  /* case 7 */
    EXPECT_SAME(repetition(93, 100, 50000, 2000, 15000), 4);   /* case 8 */
    EXPECT_SAME(repetition(29, 0, 2500, 472, 2500), 1);        /* case 9 */
    EXPECT_SAME(repetition(30, 0, 2500, 472, 2500), 0);        /* case 9: slot 30 is a bad place */
    EXPECT_SAME(repetition(157, 0, 2500, 0, 2500), 0);         /* over 128 slots: out of range */
    EXPECT_SAME(repetition(93, 0, 2500, 2500, 2500), 0);       /* the offset is not below the period */
    EXPECT_SAME(repetition(93, 0, 0, 0, 0), 0);
}

void ask_ages(void) {
    EXPECT_SAME(age(0, 2500, 0, 93, 1, 0), 1488);              /* case 1 */
    EXPECT_SAME(age(0, 2500, 16, 1, 1, 0), 2500);              /* case 2 */
    EXPECT_SAME(age(0, 2500, 15, 1, 1, 0), 2501);              /* case 3 */
    EXPECT_SAME(age(1, 2500, 0, 1, 1, 0), 2516);               /* case 4 */
    uint32_t largest = 0;                                      /* case 7 */
    for (uint32_t slot = 1; slot <= 93; slot++)
        for (uint32_t base = 0; base < 16; base++) {
            uint32_t here = age(100, 50000, 2000, slot, 16, base);
            if (largest < here) largest = here;
        }
    EXPECT_SAME(largest, 39488);
    EXPECT_SAME(age(0, 2500, 0, 94, 1, 0), 0);                 /* no such slot, repetition or base */
    EXPECT_SAME(age(0, 2500, 0, 0, 1, 0), 0);
    EXPECT_SAME(age(0, 2500, 0, 1, 3, 0), 0);
    EXPECT_SAME(age(0, 2500, 0, 1, 4, 4), 0);
    EXPECT_SAME(age(16001, 2500, 0, 1, 1, 0), 0);
}
