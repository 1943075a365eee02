/* What a user of the editor would see: the plan as a table, the slots with their signals, a refusal in words. */
#include "editor.h"

#include <inttypes.h>
#include <stdio.h>

void show_plan(const struct list *list, uint32_t slots_used, const uint32_t *results) {
    printf("%zu signals in %" PRIu32 " of %" PRIu32 " slots\n", list->signals, slots_used, list->settings[SLOTS]);
    puts("  signal  unit  slot  base  repetition     age   bound");
    for (size_t i = 0; i < list->signals; i++) {
        const uint32_t *signal = list->words + SIGNAL_WORDS * i, *result = results + RESULT_WORDS * i;
        printf("  %6zu  %4" PRIu32 "  %4" PRIu32 "  %4" PRIu32 "  %10" PRIu32 "  %6" PRIu32 "  %6" PRIu32 "\n", i + 1,
               signal[0], result[0], result[1], result[2], result[3], signal[4]);
    }
}

/* The signals in the first eight cycles of each slot that is used; a dot where the slot is free. */
void show_slots(uint32_t slots_used, const uint32_t *cells) {
    for (uint32_t slot = 1; slot <= slots_used; slot++) {
        printf("  slot %" PRIu32 ":", slot);
        for (int cycle = 0; cycle < 8; cycle++) {
            uint32_t signal = cells[CYCLES * (slot - 1) + cycle];
            if (signal == 0) printf(" .");
            else printf(" %" PRIu32, signal);
        }
        puts(" ..");
    }
}

static const char *reason(uint32_t number) {
    switch (number) {
    case NOCTELVIA_LENGTH: return "the book's length is no book's";
    case NOCTELVIA_CHECK: return "the check is wrong of block";
    case NOCTELVIA_KIND: return "the number or kind is wrong of block";
    case NOCTELVIA_COUNT: return "a signal count is wrong";
    case NOCTELVIA_ZERO: return "a word that must be zero is not, in block";
    case NOCTELVIA_SETTING: return "out of range is the setting of word";
    case NOCTELVIA_FIELD: return "out of range is signal";
    case NOCTELVIA_BOUND: return "no repetition keeps the bound of signal";
    case NOCTELVIA_SLOTS: return "too few slots, for the plan needs";
    case NOCTELVIA_ROOM: return "too little was lent, for there are needed";
    }
    return NULL;
}

/* A number without a sentence is none that the header lists, and fails. */
void show_refusal(uint64_t answer) {
    uint32_t number = NOCTELVIA_NUMBER(answer), place = NOCTELVIA_PLACE(answer);
    EXPECT(reason(number) != NULL);
    printf("  %2" PRIu32 ": %s", number, reason(number));
    if (number == NOCTELVIA_LENGTH || number == NOCTELVIA_COUNT) puts("");
    else printf(" %" PRIu32 "\n", place);
}
