/* A configuration editor in small: what its files share.
 *
 * Read main.c first, then plans.c for the calls as an editor makes them, and refusals.c for what can come back.
 */
#ifndef EDITOR_H
#define EDITOR_H

#include "noctelvia.h"

#include <stdbool.h>

enum {
    SETTINGS = 5,
    SIGNAL_WORDS = 5,
    RESULT_WORDS = 4,
    CYCLES = 64,
    BLOCK_BYTES = 512,
    FULL_BLOCK = 24,     /* signals in a full block */
    MOST_SIGNALS = 600,
    MOST_SLOTS = 128,
    MOST_BOOK = 26 * BLOCK_BYTES
};

/* A setting's place among the five; its word of the settings block is two more. */
enum { CYCLE_LENGTH, SLOT_LENGTH, SLOTS, PACKING_TIME, PAYLOAD };

/* A list with its settings, as an editor holds it. */
struct list {
    uint32_t settings[SETTINGS];
    size_t signals;
    uint32_t words[SIGNAL_WORDS * (MOST_SIGNALS + 1)];
};

/* expect.c: a check that does not hold says where, and ends the program with status 1. */
void expect(const char *file, int line, bool holds, const char *what);
void expect_same(const char *file, int line, const char *what, uint64_t is, uint64_t wanted);
void expect_answer(const char *file, int line, const char *what, uint64_t is, uint32_t number, uint32_t place);
#define EXPECT(holds) expect(__FILE__, __LINE__, (holds), #holds)
#define EXPECT_SAME(is, wanted) expect_same(__FILE__, __LINE__, #is, (is), (wanted))
#define EXPECT_ANSWER(is, number, place) expect_answer(__FILE__, __LINE__, #is, (is), (number), (place))

/* room.c: room to lend, between guards, and filled so that any byte written to it shows. */
struct room {
    uint8_t *bytes; /* what is lent */
    size_t length;
};
struct room new_room(size_t bytes);
void end_room(struct room room);
bool guards_stand(struct room room);
bool untouched_from(struct room room, size_t first); /* the bytes from `first` on, and both guards */
uint32_t *words_in(struct room room);

/* books.c: lists, and books made of them or changed by hand. */
struct list example(void);
struct list repeated(struct list list, size_t times);
size_t write_book(const struct list *list, uint8_t *book, size_t room_bytes);
uint32_t word_in(const uint8_t *bytes, size_t index);
void put_word(uint8_t *book, size_t block, size_t index, uint32_t value);
void seal(uint8_t *book, size_t block);

/* show.c: what a user of the editor would see. */
void show_plan(const struct list *list, uint32_t slots_used, const uint32_t *results);
void show_slots(uint32_t slots_used, const uint32_t *cells);
void show_refusal(uint64_t answer);

/* The parts of the test. */
void plan_the_example(void);
void plan_the_largest(void);
void read_back(void);
void ask_ages(void);
void ask_repetitions(void);
void refusals(void); /* each number, and their order */
void places(void);   /* each number's place, wherever the fault is */

#endif
