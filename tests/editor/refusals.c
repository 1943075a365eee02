/* Every refusal that a C program can get, through every call that gives it, and their order.
 *
 * The faults of each call stand in a list, in the order in which the scope judges them, each with the answer it must
 * get alone. Then every two are made at once: the earlier one must answer. A refusal changes nothing that was lent. */
#include "editor.h"

#include <stdio.h>
#include <string.h>

/* What is handed to a call: a list of 30 signals, its book of three blocks, and the lengths that are lent. */
struct asked {
    struct list list;
    size_t list_words, room; /* room: bytes of results, words of a list read, or bytes of a book written */
    size_t cells;
    uint8_t book[MOST_BOOK + BLOCK_BYTES];
    size_t book_bytes;
};

struct fault {
    void (*make)(struct asked *);
    uint32_t number, place;
};

enum { SIGNALS = 30, NEEDED_SLOTS = 18, BLOCKS = 3 };

static void wrong_length(struct asked *a) { a->book_bytes -= 1; }
static void wrong_kind(struct asked *a) { put_word(a->book, 2, 1, 1); }
static void wrong_count(struct asked *a) { put_word(a->book, 1, 2, 23); }
static void not_zero(struct asked *a) { put_word(a->book, 2, 126, 1); }
static void wrong_setting(struct asked *a) { a->list.settings[PAYLOAD] = 0, put_word(a->book, 0, 6, 0); }
static void short_room(struct asked *a) { a->room -= 1; }
static void short_cells(struct asked *a) { a->cells -= 1; }
static void wrong_list(struct asked *a) { a->list_words += 1; }
static void few_slots(struct asked *a) {
    a->list.settings[SLOTS] = NEEDED_SLOTS - 1;
    put_word(a->book, 0, 4, NEEDED_SLOTS - 1);
}

static void put_field(struct asked *a, size_t signal, size_t field, uint32_t value) {
    a->list.words[SIGNAL_WORDS * (signal - 1) + field] = value;
    put_word(a->book, 1, 3 + SIGNAL_WORDS * (signal - 1) + field, value);
}
static void wrong_field(struct asked *a) { put_field(a, 5, 0, 256); }  /* unit */
static void tight_bound(struct asked *a) { put_field(a, 3, 4, 1); }

/* Made last of all, behind the seals. */
static void wrong_check(struct asked *a) { a->book[BLOCK_BYTES + 508] ^= 1; }

static struct asked sound(void) {
    struct asked a = {.list = repeated(example(), SIGNALS / 3), .list_words = SIGNAL_WORDS * SIGNALS};
    a.book_bytes = write_book(&a.list, a.book, sizeof a.book);
    return a;
}

/* The faults made, each in its book, and every block sealed but the one whose check is the fault. */
static struct asked with(struct asked a, const struct fault *one, const struct fault *other) {
    if (one->make != wrong_check) one->make(&a);
    if (other->make != wrong_check && other != one) other->make(&a);
    for (size_t block = 0; block < BLOCKS; block++) seal(a.book, block);
    if (one->make == wrong_check || other->make == wrong_check) wrong_check(&a);
    return a;
}

/* What is lent to be read stays as it is, and so does what lies behind it. */
static void expect_as_before(const struct asked *before, const struct asked *a) {
    EXPECT(memcmp(before->book, a->book, sizeof a->book) == 0);
    EXPECT(memcmp(before->list.words, a->list.words, sizeof a->list.words) == 0);
}

/* Each call on what is asked, in rooms of the lengths asked; that a refusal changed nothing is looked at here. */
static uint64_t planning_a_book(const struct asked *a) {
    struct asked before = *a;
    struct room results = new_room(a->room);
    uint64_t answer = noctelvia_plan(a->book, a->book_bytes, results.bytes, results.length);
    EXPECT(untouched_from(results, NOCTELVIA_NUMBER(answer) ? 0 : results.length));
    expect_as_before(&before, a);
    end_room(results);
    return answer;
}

static uint64_t reading(const struct asked *a) {
    struct asked before = *a;
    struct room list = new_room(4 * a->room);
    uint64_t answer = noctelvia_read(a->book, a->book_bytes, words_in(list), a->room);
    EXPECT(untouched_from(list, NOCTELVIA_NUMBER(answer) ? 0 : list.length));
    expect_as_before(&before, a);
    end_room(list);
    return answer;
}

static uint64_t writing(const struct asked *a) {
    const uint32_t *s = a->list.settings;
    struct asked before = *a;
    struct room book = new_room(a->room);
    uint64_t answer = noctelvia_write(s[CYCLE_LENGTH], s[SLOT_LENGTH], s[SLOTS], s[PACKING_TIME], s[PAYLOAD],
                                      a->list.words, a->list_words, book.bytes, book.length);
    EXPECT(untouched_from(book, NOCTELVIA_NUMBER(answer) ? 0 : book.length));
    expect_as_before(&before, a);
    end_room(book);
    return answer;
}

static uint64_t planning_a_list(const struct asked *a) {
    const uint32_t *s = a->list.settings;
    struct asked before = *a;
    struct room cells = new_room(4 * a->cells), results = new_room(4 * a->room);
    uint64_t answer = noctelvia_plan_list(s[CYCLE_LENGTH], s[SLOT_LENGTH], s[SLOTS], s[PACKING_TIME], s[PAYLOAD],
                                          a->list.words, a->list_words, words_in(cells), a->cells, words_in(results),
                                          a->room);
    expect_as_before(&before, a);
    EXPECT(untouched_from(cells, NOCTELVIA_NUMBER(answer) ? 0 : cells.length));
    EXPECT(untouched_from(results, NOCTELVIA_NUMBER(answer) ? 0 : results.length));
    end_room(cells);
    end_room(results);
    return answer;
}

/* Every fault alone and every two, through one call; none at all is done. */
static void in_order(uint64_t (*call)(const struct asked *), struct asked sound, uint32_t done,
                     const struct fault *faults, size_t count) {
    EXPECT_ANSWER(call(&sound), NOCTELVIA_DONE, done);
    for (size_t i = 0; i < count; i++)
        for (size_t j = i; j < count; j++) {
            struct asked a = with(sound, &faults[i], &faults[j]);
            uint64_t answer = call(&a);
            EXPECT_ANSWER(answer, faults[i].number, faults[i].place);
            if (call == planning_a_book && j == i) show_refusal(answer);
        }
}
#define IN_ORDER(call, sound, done, faults) in_order(call, sound, done, faults, sizeof(faults) / sizeof *(faults))

/* Reading: 1 to 5, then 10. */
static void refused_readings(void) {
    static const struct fault faults[] = {
        {wrong_length, NOCTELVIA_LENGTH, 0}, {wrong_check, NOCTELVIA_CHECK, 1}, {wrong_kind, NOCTELVIA_KIND, 2},
        {wrong_count, NOCTELVIA_COUNT, 0},   {not_zero, NOCTELVIA_ZERO, 2},
        {short_room, NOCTELVIA_ROOM, SIGNAL_WORDS * SIGNALS},
    };
    struct asked a = sound();
    a.room = SIGNAL_WORDS * SIGNALS;
    IN_ORDER(reading, a, SIGNALS, faults);
}

/* From the editor: reading, then planning. */
static void refused_plans(void) {
    static const struct fault faults[] = {
        {wrong_length, NOCTELVIA_LENGTH, 0},   {wrong_check, NOCTELVIA_CHECK, 1},
        {wrong_kind, NOCTELVIA_KIND, 2},       {wrong_count, NOCTELVIA_COUNT, 0},
        {not_zero, NOCTELVIA_ZERO, 2},         {wrong_setting, NOCTELVIA_SETTING, 6},
        {short_room, NOCTELVIA_ROOM, 16 * SIGNALS}, {wrong_field, NOCTELVIA_FIELD, 5},
        {tight_bound, NOCTELVIA_BOUND, 3},     {few_slots, NOCTELVIA_SLOTS, NEEDED_SLOTS},
    };
    struct asked a = sound();
    a.room = 4 * RESULT_WORDS * SIGNALS;
    IN_ORDER(planning_a_book, a, NEEDED_SLOTS, faults);
}

/* Planning: 6, 4, 10 for the cells before the results, 7, 8, 9. Too few slots need fewer cells. */
static void refused_lists(void) {
    static const struct fault faults[] = {
        {wrong_setting, NOCTELVIA_SETTING, 6}, {wrong_list, NOCTELVIA_COUNT, 0},
        {short_cells, NOCTELVIA_ROOM, CYCLES * NEEDED_SLOTS}, {short_room, NOCTELVIA_ROOM, RESULT_WORDS * SIGNALS},
        {wrong_field, NOCTELVIA_FIELD, 5},     {tight_bound, NOCTELVIA_BOUND, 3},
    };
    static const struct fault too_few = {few_slots, NOCTELVIA_SLOTS, NEEDED_SLOTS};
    struct asked a = sound();
    a.list.settings[SLOTS] = NEEDED_SLOTS;
    a.cells = CYCLES * NEEDED_SLOTS;
    a.room = RESULT_WORDS * SIGNALS;
    IN_ORDER(planning_a_list, a, NEEDED_SLOTS, faults);
    struct asked few = with(a, &too_few, &too_few);
    EXPECT_ANSWER(planning_a_list(&few), too_few.number, too_few.place);
    for (size_t i = 0; i < sizeof faults / sizeof *faults; i++) {
        few = with(a, &faults[i], &too_few);
        if (faults[i].make == short_cells) few.cells = CYCLES * (NEEDED_SLOTS - 1) - 1;
        uint32_t place = faults[i].make == short_cells ? CYCLES * (NEEDED_SLOTS - 1) : faults[i].place;
        EXPECT_ANSWER(planning_a_list(&few), faults[i].number, place);
    }
}

/* Writing: 4, then 10. */
static void refused_writings(void) {
    static const struct fault faults[] = {
        {wrong_list, NOCTELVIA_COUNT, 0}, {short_room, NOCTELVIA_ROOM, BLOCK_BYTES * BLOCKS},
    };
    struct asked a = sound();
    a.room = BLOCK_BYTES * BLOCKS;
    IN_ORDER(writing, a, BLOCKS, faults);
    a.list_words = SIGNAL_WORDS * (MOST_SIGNALS + 1);
    EXPECT_ANSWER(writing(&a), NOCTELVIA_COUNT, 0);
}

void refusals(void) {
    puts("refusals of a book with one fault, by number:");
    refused_readings();
    refused_writings();
    refused_lists();
    refused_plans();
}
