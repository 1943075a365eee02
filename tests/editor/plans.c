/* Planning as an editor does it: by a book, and by a list at hand as words, which also gives the table's cells.
 * Then reading back what a book holds: settings, list, and the part of each signal. */
#include "editor.h"

#include <string.h>

enum { BEHIND = 7 }; /* bytes or words lent behind what is needed: they must stay */

/* Plans a list by its book. The results come back as words; all that was lent is looked at. */
static uint64_t plan_by_book(const struct list *list, uint32_t *results) {
    struct room book = new_room(MOST_BOOK), before = new_room(MOST_BOOK);
    size_t book_bytes = write_book(list, book.bytes, book.length);
    EXPECT(untouched_from(book, book_bytes));
    memcpy(before.bytes, book.bytes, book.length);

    size_t bytes = 4 * RESULT_WORDS * list->signals;
    struct room room = new_room(bytes + BEHIND);
    uint64_t answer = noctelvia_plan(book.bytes, book_bytes, room.bytes, room.length);
    EXPECT(untouched_from(room, bytes));
    EXPECT(guards_stand(book) && memcmp(before.bytes, book.bytes, book.length) == 0);
    for (size_t i = 0; i < RESULT_WORDS * list->signals; i++) results[i] = word_in(room.bytes, i);
    end_room(book);
    end_room(before);
    end_room(room);
    return answer;
}

/* Plans a list as words, into the first cells and results of the lent rooms. */
static uint64_t plan_by_list(const struct list *list, struct room cells, struct room results) {
    const uint32_t *s = list->settings;
    struct list before = *list;
    uint64_t answer = noctelvia_plan_list(s[CYCLE_LENGTH], s[SLOT_LENGTH], s[SLOTS], s[PACKING_TIME], s[PAYLOAD],
                                          list->words, SIGNAL_WORDS * list->signals, words_in(cells), cells.length / 4,
                                          words_in(results), results.length / 4);
    EXPECT(untouched_from(cells, 4 * CYCLES * s[SLOTS]));
    EXPECT(untouched_from(results, 4 * RESULT_WORDS * list->signals));
    EXPECT(memcmp(&before, list, sizeof before) == 0);
    return answer;
}

/* The signal whose frame goes out in a slot and cycle by the results, or 0. */
static uint32_t signal_at(const struct list *list, const uint32_t *results, uint32_t slot, uint32_t cycle) {
    for (size_t i = 0; i < list->signals; i++) {
        const uint32_t *result = results + RESULT_WORDS * i; /* slot, base, repetition, age */
        if (result[0] == slot && cycle % result[2] == result[1]) return (uint32_t)i + 1;
    }
    return 0;
}

/* The cells show the frames of the results and nothing else, and each age is what asking for it gives. */
static void expect_one_plan(const struct list *list, const uint32_t *cells, const uint32_t *results) {
    const uint32_t *s = list->settings;
    for (uint32_t slot = 1; slot <= s[SLOTS]; slot++)
        for (uint32_t cycle = 0; cycle < CYCLES; cycle++)
            EXPECT_SAME(cells[CYCLES * (slot - 1) + cycle], signal_at(list, results, slot, cycle));
    for (size_t i = 0; i < list->signals; i++) {
        const uint32_t *x = list->words + SIGNAL_WORDS * i, *r = results + RESULT_WORDS * i;
        EXPECT_SAME(r[2], noctelvia_repetition(s[0], s[1], s[2], s[3], s[4], x[0], x[1], x[2], x[3], x[4]));
        EXPECT_SAME(r[3], noctelvia_age(s[0], s[1], s[2], s[3], s[4], x[0], x[1], x[2], x[3], x[4], r[0], r[2], r[1]));
        EXPECT(r[3] <= x[4]);
    }
}

/* Both ways to plan a list that is accepted give one plan; its results are handed out, and its first slots shown. */
static void plan_both_ways(const struct list *list, uint32_t slots_used, uint32_t *results, bool shown) {
    EXPECT_ANSWER(plan_by_book(list, results), NOCTELVIA_DONE, slots_used);
    struct room cells = new_room(4 * (CYCLES * list->settings[SLOTS] + BEHIND));
    struct room words = new_room(4 * (RESULT_WORDS * list->signals + BEHIND));
    EXPECT_ANSWER(plan_by_list(list, cells, words), NOCTELVIA_DONE, slots_used);
    EXPECT(memcmp(words_in(words), results, 4 * RESULT_WORDS * list->signals) == 0);
    expect_one_plan(list, words_in(cells), results);
    if (shown) {
        show_plan(list, slots_used, results);
        show_slots(slots_used, words_in(cells));
    }
    end_room(cells);
    end_room(words);
}

void plan_the_example(void) {
    static const uint32_t wanted[] = {2, 1, 4, 532, 2, 0, 2, 3032, 1, 0, 1, 516};
    struct list list = example();
    uint32_t results[RESULT_WORDS * 3];
    plan_both_ways(&list, 2, results, true);
    for (size_t i = 0; i < sizeof wanted / sizeof *wanted; i++) EXPECT_SAME(results[i], wanted[i]);

    list.signals = 0; /* case 12: an empty list is planned, into no slot */
    plan_both_ways(&list, 0, results, false);
}

/* 600 signals of one unit at the most slots there are: 75 of them filled to the last cycle. */
void plan_the_largest(void) {
    static uint32_t results[RESULT_WORDS * MOST_SIGNALS];
    struct list list = {.settings = {2500, 16, MOST_SLOTS, 100, 8}, .signals = 1, .words = {255, 23000, 0, 128, 23000}};
    list = repeated(list, MOST_SIGNALS);
    plan_both_ways(&list, 75, results, false);
}

static void read_settings_and_list(const struct list *list, const uint8_t *book, size_t bytes) {
    size_t words = SIGNAL_WORDS * list->signals;
    struct room room = new_room(4 * (words + BEHIND));
    uint64_t answer = noctelvia_read(book, bytes, words_in(room), room.length / 4);
    EXPECT_ANSWER(answer, NOCTELVIA_DONE, (uint32_t)list->signals);
    EXPECT(untouched_from(room, 4 * words));
    EXPECT(memcmp(words_in(room), list->words, 4 * words) == 0);
    end_room(room);
    for (uint32_t i = 0; i < SETTINGS; i++) EXPECT_SAME(noctelvia_setting(book, bytes, 2 + i), list->settings[i]);
    EXPECT_SAME(noctelvia_setting(book, bytes, 1), 0);
    EXPECT_SAME(noctelvia_setting(book, bytes, 7), 0);
}

/* A part is the twenty bytes of a signal where they stand in the book. */
static void read_parts(const struct list *list, const uint8_t *book, size_t bytes) {
    for (uint32_t i = 1; i <= list->signals; i++) {
        uint64_t part = noctelvia_part(book, bytes, i);
        EXPECT_SAME(part, BLOCK_BYTES * (1 + (i - 1) / FULL_BLOCK) + 12 + 20 * ((i - 1) % FULL_BLOCK));
        for (size_t w = 0; w < SIGNAL_WORDS; w++)
            EXPECT_SAME(word_in(book + part, w), list->words[SIGNAL_WORDS * (i - 1) + w]);
    }
    EXPECT_SAME(noctelvia_part(book, bytes, 0), 0);
    EXPECT_SAME(noctelvia_part(book, bytes, (uint32_t)list->signals + 1), 0);
}

/* Lists of no block, of a full one, of one more, and of the most there are. */
void read_back(void) {
    static const size_t times[] = {0, 1, 8, 9, 200};
    for (size_t i = 0; i < sizeof times / sizeof *times; i++) {
        struct list list = repeated(example(), times[i]);
        for (size_t w = 0; w < SIGNAL_WORDS * list.signals; w++) list.words[w] += (uint32_t)w << 20; /* each its own */
        struct room book = new_room(MOST_BOOK);
        size_t bytes = write_book(&list, book.bytes, book.length);
        EXPECT(untouched_from(book, bytes));
        read_settings_and_list(&list, book.bytes, bytes);
        read_parts(&list, book.bytes, bytes);
        book.bytes[bytes - 1] ^= 1; /* a damaged book has no settings and no parts */
        EXPECT_SAME(noctelvia_setting(book.bytes, bytes, 2), 0);
        EXPECT_SAME(noctelvia_part(book.bytes, bytes, 1), 0);
        end_room(book);
    }
}
