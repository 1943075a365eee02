/* Room to lend. The library is compiled without the sanitizers, so it is watched by guard bytes on both sides;
 * the sanitizers watch this program, and what the library lets memset and memcpy do. */
#include "editor.h"

#include <stdlib.h>
#include <string.h>

enum { GUARD = 64, GUARD_BYTE = 0xA5, FRESH_BYTE = 0x5C };

struct room new_room(size_t bytes) {
    uint8_t *whole = malloc(GUARD + bytes + GUARD);
    EXPECT(whole != NULL);
    memset(whole, GUARD_BYTE, GUARD);
    memset(whole + GUARD, FRESH_BYTE, bytes);
    memset(whole + GUARD + bytes, GUARD_BYTE, GUARD);
    return (struct room){whole + GUARD, bytes};
}

void end_room(struct room room) { free(room.bytes - GUARD); }

static bool all_are(const uint8_t *bytes, size_t length, uint8_t value) {
    for (size_t i = 0; i < length; i++)
        if (bytes[i] != value) return false;
    return true;
}

bool guards_stand(struct room room) {
    return all_are(room.bytes - GUARD, GUARD, GUARD_BYTE) && all_are(room.bytes + room.length, GUARD, GUARD_BYTE);
}

bool untouched_from(struct room room, size_t first) {
    return guards_stand(room) && all_are(room.bytes + first, room.length - first, FRESH_BYTE);
}

/* malloc gives memory fit for any type, and the guard before it is a multiple of a word. */
uint32_t *words_in(struct room room) { return (uint32_t *)(void *)room.bytes; }
