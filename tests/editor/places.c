/* The place that comes with each refusal, wherever in a book the fault is: the first block, the lowest signal, the
 * lowest setting. The book is the largest there is, 600 signals in 26 blocks, and is planned by its bytes. */
#include "editor.h"

#include <string.h>

enum { BLOCKS = 26, RESULTS = 4 * RESULT_WORDS * MOST_SIGNALS };

/* 600 signals of one unit and of repetition 64: they need ten slots, one more than nine full ones. */
static struct list largest(void) {
    struct list list = {.settings = {2500, 16, 10, 100, 8}, .signals = 1, .words = {7, 200000, 0, 16, 200000}};
    return repeated(list, MOST_SIGNALS);
}

/* The answer of planning a book into so many bytes; where it is a refusal, no byte may have changed. */
static uint64_t planned(const uint8_t *book, size_t book_bytes, size_t result_bytes) {
    struct room results = new_room(result_bytes);
    uint64_t answer = noctelvia_plan(book, book_bytes, results.bytes, results.length);
    EXPECT(untouched_from(results, NOCTELVIA_NUMBER(answer) ? 0 : RESULTS));
    end_room(results);
    return answer;
}

/* The answer for the largest book with one word of a block changed and the block sealed again. */
static uint64_t changed(size_t block, size_t index, uint32_t value) {
    struct list list = largest();
    uint8_t book[MOST_BOOK];
    write_book(&list, book, sizeof book);
    put_word(book, block, index, value);
    seal(book, block);
    return planned(book, sizeof book, RESULTS);
}

static void lengths(void) {
    static const size_t none[] = {0, 1, 511, 513, MOST_BOOK - 1, MOST_BOOK + 1, MOST_BOOK + BLOCK_BYTES};
    struct list list = largest();
    uint8_t book[MOST_BOOK + BLOCK_BYTES] = {0};
    write_book(&list, book, sizeof book);
    put_word(book, BLOCKS, 0, BLOCKS);
    put_word(book, BLOCKS, 1, 2);
    seal(book, BLOCKS);
    EXPECT_ANSWER(planned(book, MOST_BOOK, RESULTS), NOCTELVIA_DONE, 10);
    for (size_t i = 0; i < sizeof none / sizeof *none; i++)
        EXPECT_ANSWER(planned(book, none[i], RESULTS), NOCTELVIA_LENGTH, 0);
    EXPECT_ANSWER(planned(book, BLOCK_BYTES, RESULTS), NOCTELVIA_COUNT, 0); /* a block alone lacks the others */
}

/* Each block damaged, and the last one too: the first is named. */
static void blocks(void) {
    struct list list = largest();
    for (size_t block = 0; block < BLOCKS; block++) {
        uint8_t book[MOST_BOOK];
        write_book(&list, book, sizeof book);
        book[BLOCK_BYTES * (BLOCKS - 1) + 300] ^= 1;
        book[BLOCK_BYTES * block + 301] ^= 1;
        EXPECT_ANSWER(planned(book, sizeof book, RESULTS), NOCTELVIA_CHECK, (uint32_t)block);
        EXPECT_ANSWER(changed(block, 0, (uint32_t)block + 1), NOCTELVIA_KIND, (uint32_t)block);
        EXPECT_ANSWER(changed(block, 1, 3), NOCTELVIA_KIND, (uint32_t)block);
        EXPECT_ANSWER(changed(block, 126, 1), NOCTELVIA_ZERO, (uint32_t)block);
        if (block > 0) EXPECT_ANSWER(changed(block, 2, 23), NOCTELVIA_COUNT, 0);
    }
    EXPECT_ANSWER(changed(0, 7, 601), NOCTELVIA_COUNT, 0);
    EXPECT_ANSWER(changed(0, 7, 599), NOCTELVIA_COUNT, 0);
    EXPECT_ANSWER(changed(0, 7, 576), NOCTELVIA_COUNT, 0);
}

/* Each setting beyond its ends; word 4 also where the slots are too long for the cycle. */
static void settings(void) {
    static const struct { uint32_t word, value; } out[] = {
        {2, 9}, {2, 16001}, {3, 0}, {3, 16001}, {4, 1}, {4, 129}, {4, 157}, {5, 16001}, {6, 0}, {6, 128},
        {2, UINT32_MAX}, {3, UINT32_MAX}, {4, UINT32_MAX}, {5, UINT32_MAX}, {6, UINT32_MAX},
    };
    struct list list = largest();
    for (size_t i = 0; i < sizeof out / sizeof *out; i++) {
        EXPECT_ANSWER(changed(0, out[i].word, out[i].value), NOCTELVIA_SETTING, out[i].word);
        uint8_t book[MOST_BOOK]; /* the payload is out too: the lowest word is named */
        write_book(&list, book, sizeof book);
        put_word(book, 0, 6, 0);
        put_word(book, 0, out[i].word, out[i].value);
        seal(book, 0);
        EXPECT_ANSWER(planned(book, sizeof book, RESULTS), NOCTELVIA_SETTING, out[i].word);
    }
    EXPECT_ANSWER(changed(0, 3, 251), NOCTELVIA_SETTING, 4); /* ten slots of 251 are longer than 2,500 */
}

/* Each field beyond its ends, and a bound that nothing keeps, in the first, some and the last signal. */
static void signals(void) {
    static const struct { size_t field; uint32_t value, number; } out[] = {
        {0, 0, NOCTELVIA_FIELD}, {0, 256, NOCTELVIA_FIELD}, {1, 0, NOCTELVIA_FIELD}, {1, 100000001, NOCTELVIA_FIELD},
        {2, 200000, NOCTELVIA_FIELD}, {3, 0, NOCTELVIA_FIELD}, {3, 129, NOCTELVIA_FIELD}, {4, 0, NOCTELVIA_FIELD},
        {4, 200001, NOCTELVIA_FIELD}, {4, 1, NOCTELVIA_BOUND}, {4, 2516, NOCTELVIA_BOUND},
    };
    static const uint32_t numbered[] = {1, 24, 25, 600};
    for (size_t i = 0; i < sizeof out / sizeof *out; i++)
        for (size_t j = 0; j < sizeof numbered / sizeof *numbered; j++) {
            size_t before = numbered[j] - 1;
            size_t block = 1 + before / FULL_BLOCK, index = 3 + SIGNAL_WORDS * (before % FULL_BLOCK) + out[i].field;
            EXPECT_ANSWER(changed(block, index, out[i].value), out[i].number, numbered[j]);
        }
}

/* Slots and room: just enough, and one too few. */
static void needs(void) {
    struct list list = largest();
    uint8_t book[MOST_BOOK];
    write_book(&list, book, sizeof book);
    EXPECT_ANSWER(planned(book, sizeof book, RESULTS), NOCTELVIA_DONE, 10);
    EXPECT_ANSWER(planned(book, sizeof book, RESULTS - 1), NOCTELVIA_ROOM, RESULTS);
    EXPECT_ANSWER(planned(book, sizeof book, 0), NOCTELVIA_ROOM, RESULTS);
    EXPECT_ANSWER(changed(0, 4, 9), NOCTELVIA_SLOTS, 10);
    EXPECT_ANSWER(changed(0, 4, 2), NOCTELVIA_SLOTS, 10);
}

void places(void) {
    lengths();
    blocks();
    settings();
    signals();
    needs();
}
