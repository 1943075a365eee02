/* Lists, and the books of them. An editor writes a book by noctelvia_write; what is done by hand here, a word put
 * into a block and the block sealed again, is how a damaged book comes about. */
#include "editor.h"

#include <string.h>

/* The example at the end of the scope: packing 100, two signals of unit 3 and one of unit 1. */
struct list example(void) {
    return (struct list){
        .settings = {2500, 16, 93, 100, 8},
        .signals = 3,
        .words = {3, 10000, 2000, 16, 10000, /* unit, period, offset, size, bound */
                  3, 5000, 2000, 64, 5000,
                  1, 2500, 2000, 8, 2500},
    };
}

struct list repeated(struct list list, size_t times) {
    size_t words = SIGNAL_WORDS * list.signals;
    EXPECT(list.signals * times <= MOST_SIGNALS);
    for (size_t i = 1; i < times; i++) memcpy(list.words + i * words, list.words, words * sizeof *list.words);
    list.signals *= times;
    return list;
}

/* Writes the book of a list, and gives back its length in bytes. */
size_t write_book(const struct list *list, uint8_t *book, size_t room_bytes) {
    const uint32_t *s = list->settings;
    uint64_t answer = noctelvia_write(s[CYCLE_LENGTH], s[SLOT_LENGTH], s[SLOTS], s[PACKING_TIME], s[PAYLOAD],
                                      list->words, SIGNAL_WORDS * list->signals, book, room_bytes);
    size_t blocks = 1 + (list->signals + FULL_BLOCK - 1) / FULL_BLOCK;
    EXPECT_ANSWER(answer, NOCTELVIA_DONE, (uint32_t)blocks);
    return BLOCK_BYTES * blocks;
}

/* Words of a book and of results are little-endian, whatever the machine. */
uint32_t word_in(const uint8_t *bytes, size_t index) {
    const uint8_t *b = bytes + 4 * index;
    return b[0] | (uint32_t)b[1] << 8 | (uint32_t)b[2] << 16 | (uint32_t)b[3] << 24;
}

void put_word(uint8_t *book, size_t block, size_t index, uint32_t value) {
    uint8_t *b = book + BLOCK_BYTES * block + 4 * index;
    for (int i = 0; i < 4; i++) b[i] = (uint8_t)(value >> 8 * i);
}

/* The check is the sum of words 0 to 126 plus 1, kept to 32 bits. */
void seal(uint8_t *book, size_t block) {
    uint32_t sum = 1;
    for (size_t i = 0; i < 127; i++) sum += word_in(book + BLOCK_BYTES * block, i);
    put_word(book, block, 127, sum);
}
