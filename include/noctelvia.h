/* Noctelvia: the planner for the static segment of one FlexRay channel, as a C program calls it.
 *
 * Link target/staticlib/libeditor.a (made by `tests/native library`, for x86-64).
 *
 * Every call answers every input: there is nothing to check beforehand. Nothing is kept between calls, no memory
 * is allocated, and calls may be made from several threads at once. All numbers are those of the book of blocks:
 * times in whole macroticks, words of 32 bits. What is lent belongs to the caller: the bytes or words from a pointer
 * on, as many as the length behind it says. The two lent to one call do not overlap. A pointer is never null, also
 * where the length is 0.
 *
 * Stack needed: less than 128 KiB. noctelvia_plan takes most; every other call takes less than 32 KiB.
 *
 * Example: the repetition of a signal, and its age in slot 7 at base 0.
 *
 *     uint32_t r = noctelvia_repetition(2500, 16, 93, 100, 8,   3, 10000, 2000, 16, 10000);
 *     uint32_t a = noctelvia_age(2500, 16, 93, 100, 8,   3, 10000, 2000, 16, 10000,   7, r, 0);
 *
 * Example: a book of one signal, made and planned. Its result is 16 bytes: slot, base, repetition, age.
 *
 *     uint32_t list[5] = {3, 10000, 2000, 16, 10000};
 *     uint8_t book[1024], results[16];
 *     uint64_t made = noctelvia_write(2500, 16, 93, 100, 8, list, 5, book, sizeof book);
 *     uint64_t plan = noctelvia_plan(book, 512 * NOCTELVIA_PLACE(made), results, sizeof results);
 *     if (NOCTELVIA_NUMBER(plan) == NOCTELVIA_DONE)
 *         printf("%u slots\n", (unsigned)NOCTELVIA_PLACE(plan));
 *     else
 *         printf("refused with %u at %u\n", (unsigned)NOCTELVIA_NUMBER(plan), (unsigned)NOCTELVIA_PLACE(plan));
 */
#ifndef NOCTELVIA_H
#define NOCTELVIA_H

#include <stddef.h>
#include <stdint.h>

#ifdef __cplusplus
extern "C" {
#endif

/* The age of one signal in one frame: the largest, over all releases for ever, from a release to the end of the
 * first frame that starts at least the packing time later. It is 0 exactly where a setting, the signal or the frame
 * (slot 1 to slots; repetition 1, 2, 4, 8, 16, 32 or 64; base below it) is out of range. */
uint32_t noctelvia_age(uint32_t cycle_length, uint32_t slot_length, uint32_t slots, uint32_t packing_time,
                       uint32_t payload, uint32_t unit, uint32_t period, uint32_t offset, uint32_t size,
                       uint32_t bound, uint32_t slot, uint32_t repetition, uint32_t base);

/* The repetition that one signal gets: the largest that keeps its bound in every slot and at every base. It is 0
 * exactly where a setting or the signal is out of range or no repetition keeps the bound. */
uint32_t noctelvia_repetition(uint32_t cycle_length, uint32_t slot_length, uint32_t slots, uint32_t packing_time,
                              uint32_t payload, uint32_t unit, uint32_t period, uint32_t offset, uint32_t size,
                              uint32_t bound);

/* An answer about a book is one number: the answer's number times 4,294,967,296, plus its place. */
#define NOCTELVIA_NUMBER(answer) ((uint32_t)((answer) >> 32))
#define NOCTELVIA_PLACE(answer) ((uint32_t)(answer))

enum {
    NOCTELVIA_DONE = 0,   /* place: signals read, blocks written, or slots used */
    NOCTELVIA_LENGTH = 1, /* the book's length is 0, not a multiple of 512, or over 26 blocks; place 0 */
    NOCTELVIA_CHECK = 2,  /* a check word is wrong; place: the first such block, from 0 */
    NOCTELVIA_KIND = 3,   /* a block's number or kind is wrong; place: the first such block */
    NOCTELVIA_COUNT = 4,  /* over 600 signals, a list not of five words a signal, or a wrong count in a book; place 0 */
    NOCTELVIA_ZERO = 5,   /* a word that must be zero is not; place: the first such block */
    NOCTELVIA_SETTING = 6, /* a setting is out of range; place: its word, 2 to 6, the lowest; slots too long: word 4 */
    NOCTELVIA_FIELD = 7,  /* a signal is out of range; place: the lowest such signal, from 1 */
    NOCTELVIA_BOUND = 8,  /* no repetition keeps a signal's bound; place: the lowest such signal */
    NOCTELVIA_SLOTS = 9,  /* more slots are needed than there are; place: the slots needed */
    NOCTELVIA_ROOM = 10   /* what was lent is too short; place: the words, cells or bytes needed */
};

/* Reads a book: its signals, five words each (unit, period, offset, size, bound), into the first words of the lent
 * list; words behind stay. Answers DONE with the signals read, or LENGTH, CHECK, KIND, COUNT, ZERO or ROOM; then no
 * word of the list is changed. 3,000 words are always enough. Any 32-bit values are accepted in the signals. */
uint64_t noctelvia_read(const uint8_t *book, size_t book_bytes, uint32_t *list, size_t list_words);

/* A setting of a book that reading does not refuse with numbers 1 to 5: word 2 is the cycle length, 3 the slot
 * length, 4 the number of slots, 5 the packing time, 6 the payload. 0 for any other book or word. */
uint32_t noctelvia_setting(const uint8_t *book, size_t book_bytes, uint32_t word);

/* Writes the book of the settings and the list, 512 bytes a block, into the first bytes of the lent room; bytes
 * behind stay. Answers DONE with the blocks written, or COUNT or ROOM; then no byte of the room is changed. 13,312
 * bytes are always enough. */
uint64_t noctelvia_write(uint32_t cycle_length, uint32_t slot_length, uint32_t slots, uint32_t packing_time,
                         uint32_t payload, const uint32_t *list, size_t list_words, uint8_t *room, size_t room_bytes);

/* The byte of the book at which the twenty bytes of a signal (numbered from 1) start, or 0 where the book is refused
 * by numbers 1 to 5 or has no such signal. */
uint64_t noctelvia_part(const uint8_t *book, size_t book_bytes, uint32_t signal);

/* Plans a book: reads it, gives each signal the largest repetition that keeps its bound everywhere, and fills the
 * shortest table. The results are four little-endian words a signal, 16 bytes, in list order: slot, base, repetition,
 * age; bytes behind stay. Answers DONE with the slots used, what reading refuses (LENGTH to ZERO), or SETTING, ROOM
 * (bytes needed), FIELD, BOUND or SLOTS, judged in this order; then no byte is changed. 9,600 bytes are always enough. */
uint64_t noctelvia_plan(const uint8_t *book, size_t book_bytes, uint8_t *results, size_t result_bytes);

/* Plans a list that is at hand as words, five a signal, and shows the table too: cell 64 * (k - 1) + c, for slot k and
 * cycle c, holds the signal's number, or 0. Writes 64 cells for each slot of the segment and four words a signal; what
 * lies behind stays. Answers DONE with the slots used, or SETTING, COUNT, ROOM (cells needed, then words needed),
 * FIELD, BOUND or SLOTS, judged in this order; then nothing is changed. 8,192 cells and 2,400 words are always enough. */
uint64_t noctelvia_plan_list(uint32_t cycle_length, uint32_t slot_length, uint32_t slots, uint32_t packing_time,
                             uint32_t payload, const uint32_t *list, size_t list_words, uint32_t *cells,
                             size_t cell_words, uint32_t *results, size_t result_words);

#ifdef __cplusplus
}
#endif

#endif
