// Calls the library on the twin's behalf, in a process of its own.
// It judges nothing. Commands come in, answers and memory go out, and all comparing is the twin's.

typedef __UINT8_TYPE__ u8;
typedef __UINT32_TYPE__ u32;
typedef __UINT64_TYPE__ u64;
typedef __SIZE_TYPE__ size;

u32 noctelvia_age(u32 cycle, u32 slot_length, u32 slots, u32 packing, u32 payload,
                  u32 unit, u32 period, u32 offset, u32 bits, u32 bound, u32 slot, u32 repetition, u32 base);
u32 noctelvia_repetition(u32 cycle, u32 slot_length, u32 slots, u32 packing, u32 payload,
                         u32 unit, u32 period, u32 offset, u32 bits, u32 bound);

// Weak, so that a library without them still links; a call of one that is missing ends the program.
#define WEAK __attribute__((weak))
WEAK u64 noctelvia_read(const u8 *book, size book_bytes, u32 *list, size list_words);
WEAK u32 noctelvia_setting(const u8 *book, size book_bytes, u32 word);
WEAK u64 noctelvia_write(u32 cycle, u32 slot_length, u32 slots, u32 packing, u32 payload,
                         const u32 *list, size list_words, u8 *room, size room_bytes);
WEAK u64 noctelvia_part(const u8 *book, size book_bytes, u32 signal);
WEAK u64 noctelvia_plan_list(u32 cycle, u32 slot_length, u32 slots, u32 packing, u32 payload,
                             const u32 *list, size list_words, u32 *cells, size cells_words,
                             u32 *results, size results_words);
WEAK u64 noctelvia_plan(const u8 *book, size book_bytes, u8 *results, size result_bytes);

// Of the C library; declared here because the kit brings no headers of it.
long read(int file, void *to, size bytes);
long write(int file, const void *from, size bytes);
void _exit(int status);

enum { PUT = 1, GET = 2, CALL = 3, SEND = 4 };
enum { AGE, REPETITION, READ, SETTING, WRITE, PART, PLAN_LIST, PLAN, HAS, DEEPEST };
enum { DONE = 0, BAD_COMMAND = 3, MISSING = 4, ARENA = 1 << 20 };

static u8 arena[ARENA] __attribute__((aligned(64)));
static u8 replies[2 * ARENA];
static size replied;
static u8 commands[1 << 16];
static size next, filled;

static void take(u8 *to, size bytes) {
    while (bytes > 0) {
        if (next == filled) {
            long got = read(0, commands, sizeof commands);
            if (got <= 0) _exit(DONE);
            next = 0;
            filled = (size)got;
        }
        size some = filled - next < bytes ? filled - next : bytes;
        __builtin_memcpy(to, commands + next, some);
        next += some;
        to += some;
        bytes -= some;
    }
}

static u32 take_word(void) {
    u8 b[4];
    take(b, 4);
    return (u32)b[0] | (u32)b[1] << 8 | (u32)b[2] << 16 | (u32)b[3] << 24;
}

static void reply(const u8 *from, size bytes) {
    if (bytes > sizeof replies - replied) _exit(BAD_COMMAND);
    __builtin_memcpy(replies + replied, from, bytes);
    replied += bytes;
}

static void send(void) {
    for (size sent = 0; sent < replied;) {
        long wrote = write(1, replies + sent, replied - sent);
        if (wrote <= 0) _exit(BAD_COMMAND);
        sent += (size)wrote;
    }
    replied = 0;
}

// Takes a place in the arena and a length, and refuses what does not lie within.
static u8 *take_part(u32 *bytes) {
    u32 at = take_word();
    *bytes = take_word();
    if (at > ARENA || *bytes > ARENA - at) _exit(BAD_COMMAND);
    return arena + at;
}

static void must_have(int present, const char *name) {
    if (present) return;
    size length = 0;
    while (name[length]) length++;
    write(2, name, length);
    write(2, " is not in the library\n", 23);
    _exit(MISSING);
}

// Whether one of the planning calls is in the library, so that the twin need not lose its caller to find out.
static u64 has(u32 function) {
    if (function == PLAN_LIST) return noctelvia_plan_list != 0;
    if (function == PLAN) return noctelvia_plan != 0;
    _exit(BAD_COMMAND);
    return 0;
}

// Twice the stack that planning may take, so that more than that is seen.
enum { PAINTED = 2 * 131072 };
static u64 deepest;

// Plans a book, with the stack below painted; the lowest word that is no longer paint was the deepest one written.
// The paint changes from call to call, so that no word can be taken for it for ever.
__attribute__((noinline)) static u64 plan_on_paint(const u8 *book, size book_bytes, u8 *results, size result_bytes) {
    static u64 paint = 0xA5A5A5A5A5A5A5A5;
    volatile u64 *top;
    __asm__ volatile("mov %%rsp, %0" : "=r"(top));
    volatile u64 *low = top - PAINTED / 8;
    paint = ~paint;
    for (volatile u64 *at = top; at > low;) *--at = paint;
    u64 answer = noctelvia_plan(book, book_bytes, results, result_bytes);
    while (low < top && *low == paint) low++;
    u64 taken = 8 * (u64)(top - low);
    if (taken > deepest) deepest = taken;
    return answer;
}

static u64 call(u32 function, const u32 a[13]) {
    switch (function) {
    case AGE:
        return noctelvia_age(a[0], a[1], a[2], a[3], a[4], a[5], a[6], a[7], a[8], a[9], a[10], a[11], a[12]);
    case REPETITION:
        return noctelvia_repetition(a[0], a[1], a[2], a[3], a[4], a[5], a[6], a[7], a[8], a[9]);
    case READ:
        must_have(noctelvia_read != 0, "noctelvia_read");
        return noctelvia_read(arena + a[0], a[1], (u32 *)(arena + a[2]), a[3]);
    case SETTING:
        must_have(noctelvia_setting != 0, "noctelvia_setting");
        return noctelvia_setting(arena + a[0], a[1], a[2]);
    case WRITE:
        must_have(noctelvia_write != 0, "noctelvia_write");
        return noctelvia_write(a[0], a[1], a[2], a[3], a[4], (const u32 *)(arena + a[5]), a[6], arena + a[7], a[8]);
    case PART:
        must_have(noctelvia_part != 0, "noctelvia_part");
        return noctelvia_part(arena + a[0], a[1], a[2]);
    case PLAN_LIST:
        must_have(noctelvia_plan_list != 0, "noctelvia_plan_list");
        return noctelvia_plan_list(a[0], a[1], a[2], a[3], a[4], (const u32 *)(arena + a[5]), a[6],
                                   (u32 *)(arena + a[7]), a[8], (u32 *)(arena + a[9]), a[10]);
    case PLAN:
        must_have(noctelvia_plan != 0, "noctelvia_plan");
        return plan_on_paint(arena + a[0], a[1], arena + a[2], a[3]);
    case DEEPEST:
        return deepest;
    case HAS:
        return has(a[0]);
    }
    _exit(BAD_COMMAND);
    return 0;
}

static void one_call(void) {
    u32 function = take_word(), arguments[13];
    for (int i = 0; i < 13; i++) arguments[i] = take_word();
    u64 answer = call(function, arguments);
    u8 bytes[8];
    for (int i = 0; i < 8; i++) bytes[i] = (u8)(answer >> 8 * i);
    reply(bytes, 8);
}

int main(void) {
    for (;;) {
        u32 bytes, command = take_word();
        if (command == PUT) {
            u8 *to = take_part(&bytes);
            take(to, bytes);
        } else if (command == GET) {
            const u8 *from = take_part(&bytes);
            reply(from, bytes);
        } else if (command == CALL) {
            one_call();
        } else if (command == SEND) {
            send();
        } else {
            _exit(BAD_COMMAND);
        }
    }
}
