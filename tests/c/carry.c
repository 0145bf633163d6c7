/* Sessions carried: packed lists against bytes worked out by hand, there and back, played, cut and changed; refusals leave everything as it was. */
#include "check.h"
#include "chance.h"

void *memcpy(void *to, const void *from, size_t count);

enum { MOST = 24, ROOM = MOST * PANEL_RECORD + 8, PAINT = 0xA5 };

/* A list of calls, written out. */
struct list {
    const char *name;
    struct panel_call calls[5];
    size_t count;
    uint8_t bytes[24];
    size_t length;
};

#define A_LOOK(...) {PANEL_LOOK, 0, 8, {__VA_ARGS__}}
#define A_WRITE(first, count, ...) {PANEL_WRITE, first, count, {__VA_ARGS__}}
#define A_READ(first, count) {PANEL_READ, first, count, {0}}
#define A_RESET {PANEL_RESET, 0, 0, {0}}

/* By document 02: a kind of two bits, then its numbers, most significant bit first, and 0 up to a whole byte. */
static const struct list lists[] = {
    {"no call", {A_RESET}, 0, {0}, 0},
    /* 11 000000 */
    {"a reset", {A_RESET}, 1, {0xC0}, 1},
    /* 11 11 0000: fewer than eight bits are left after the first, but not all are 0 */
    {"two resets", {A_RESET, A_RESET}, 2, {0xF0}, 1},
    /* 11 11 11 11, and no padding */
    {"four resets", {A_RESET, A_RESET, A_RESET, A_RESET}, 4, {0xFF}, 1},
    /* 11 11 11 11  11 000000 */
    {"five resets", {A_RESET, A_RESET, A_RESET, A_RESET, A_RESET}, 5, {0xFF, 0xC0}, 2},
    /* 00, then 104 bits: 106 bits are 13 bytes and 2 bits */
    {"a look with no contact closed", {A_LOOK(0)}, 1, {0}, 14},
    /* 00 111111  1111111 0  0.. : row 0 first */
    {"a look with row 0 closed", {A_LOOK(0x1FFF)}, 1, {0x3F, 0xFE}, 14},
    /* 00 1 00000: the special function key of row 0, bit 12 first */
    {"a look with row 0 column 12 closed", {A_LOOK(0x1000)}, 1, {0x20}, 14},
    /* row 1 begins at bit 2 + 13 = 15, column 1 is its 12th bit: bit 26, which is bit 2 of byte 3 */
    {"a look with row 1 column 1 closed", {A_LOOK(0, 0x0002)}, 1, {0, 0, 0, 0x20}, 14},
    /* column 0 of row 7 is the last bit of the record: bit 105, which is bit 1 of byte 13 */
    {"a look with row 7 column 0 closed", {A_LOOK(0, 0, 0, 0, 0, 0, 0, 0x0001)}, 1, {0, 0, 0, 0, 0, 0, 0, 0, 0, 0, 0, 0, 0, 0x40}, 14},
    /* 01 000000  11 00000 1  0001100 0: address 03, count less one 0, byte 8C */
    {"a write of KBDSIZE", {A_WRITE(PANEL_KBDSIZE, 1, 0x8C)}, 1, {0x40, 0xC1, 0x18}, 3},
    /* 01 000000  10 00001 0  0000010 1  0001100 0: address 02, count less one 1, bytes 02 8C */
    {"a write of KBDBOUNCE and KBDSIZE", {A_WRITE(PANEL_KBDBOUNCE, 2, 0x02, 0x8C)}, 1, {0x40, 0x82, 0x05, 0x18}, 4},
    /* 10 000100  00 00000 0: address 10, count less one 0 */
    {"a read of one code", {A_READ(PANEL_EVTCODE, 1)}, 1, {0x84, 0x00}, 2},
    /* 10 000100  00 11111 0 */
    {"a read of 32 codes", {A_READ(PANEL_EVTCODE, 32)}, 1, {0x84, 0x3E}, 2},
    /* 10 111111  11 00100 0: an address that no panel has is as good as any */
    {"a read that every panel declines", {A_READ(0xFF, 5)}, 1, {0xBF, 0xC8}, 2},
    /* 11; 00 and row 1 column 1, at bit 2 + 26 = 28; 10 at bit 108, address 10 with its 1 at bit 113, count less one 01111 at bits 118 to 122 */
    {"a reset, a look, a read of 16", {A_RESET, A_LOOK(0, 0x0002), A_READ(PANEL_EVTCODE, 16)}, 3,
     {0xC0, 0, 0, 0x08, 0, 0, 0, 0, 0, 0, 0, 0, 0, 0x08, 0x41, 0xE0}, 16},
};

enum { LISTS = sizeof lists / sizeof lists[0] };

/* Are two calls the same, bit for bit? They have no padding. */
static bool same_call(const struct panel_call *a, const struct panel_call *b)
{
    return memcmp(a, b, sizeof *a) == 0;
}

/* Does a buffer hold these bytes at its front, and paint behind them? */
static bool holds(const uint8_t *room, const uint8_t *bytes, size_t length)
{
    size_t i;
    for (i = length; i < ROOM; i++) {
        if (room[i] != PAINT)
            return false;
    }
    return memcmp(room, bytes, length) == 0;
}

/* The calls of a list by panel_unpack, at most MOST of them; the number at the first place that has none. */
static uint8_t unpacked(const uint8_t *bytes, size_t length, struct panel_call *calls, size_t *count)
{
    struct panel_place place = {0, 0};
    bool end = false;
    uint8_t number;
    for (*count = 0; *count < MOST; ++*count) {
        number = panel_unpack(bytes, length, &place, &calls[*count], &end);
        if (number != PANEL_DONE || end)
            return number;
    }
    SO(panel_unpack(bytes, length, &place, calls, &end) == PANEL_DONE && end);
    return PANEL_DONE;
}

/* Each list is packed to its bytes, and they are unpacked to its calls. */
static void by_hand(void)
{
    size_t i, k, count;
    for (i = 0; i < LISTS; i++) {
        const struct list *list = &lists[i];
        struct panel_call calls[MOST];
        struct panel panel;
        uint8_t room[ROOM];
        uint64_t length = PAINT;
        group("carry, worked out by hand", list->name);
        memset(room, PAINT, ROOM);
        SAME(panel_pack(list->calls, list->count, room, ROOM, &length), PANEL_DONE);
        SAME((unsigned)length, (unsigned)list->length);
        SO(holds(room, list->bytes, list->length));
        SAME(unpacked(list->bytes, list->length, calls, &count), PANEL_DONE);
        SAME((unsigned)count, (unsigned)list->count);
        for (k = 0; k < count; k++)
            SO(same_call(&calls[k], &list->calls[k]));
        SAME(panel_play(&panel, list->bytes, list->length), PANEL_DONE);
        group_ends();
    }
}

/* The numbers of a call are cut as the header says: kind modulo 4, address and bytes modulo 256; what isn't of the call isn't looked at. */
static void cut_to_size(void)
{
    static const struct panel_call wide[] = {
        {4 * 500 + PANEL_WRITE, 0x1203, 2, {0xFF8C, 0x0107, 0xFFFF}},
        {0xFFFC + PANEL_READ, 0xFF10, 1, {0xFFFF}},
        {0xFFFF, 0xFFFF, 0xFFFF, {0xFFFF}},
        {4 + PANEL_LOOK, 0xFFFF, 8, {1, 2, 3, 4, 5, 6, 7, 8, 0xFFFF}},
    };
    static const struct panel_call narrow[] = {
        A_WRITE(0x03, 2, 0x8C, 0x07), A_READ(0x10, 1), A_RESET, A_LOOK(1, 2, 3, 4, 5, 6, 7, 8),
    };
    struct panel_call calls[MOST];
    uint8_t one[ROOM], other[ROOM];
    uint64_t length, wanted;
    size_t count, k;
    group("carry", "numbers wider than they need be");
    memset(one, PAINT, ROOM);
    memset(other, PAINT, ROOM);
    SAME(panel_pack(wide, 4, one, ROOM, &length), PANEL_DONE);
    SAME(panel_pack(narrow, 4, other, ROOM, &wanted), PANEL_DONE);
    SAME((unsigned)length, (unsigned)wanted);
    SO(memcmp(one, other, ROOM) == 0);
    SAME(unpacked(one, length, calls, &count), PANEL_DONE);
    SAME((unsigned)count, 4);
    for (k = 0; k < count; k++)
        SO(same_call(&calls[k], &narrow[k]));
    group_ends();
}

/* A random call that fits: typing, accesses that are done and accesses that a module declines. */
static struct panel_call some_call(void)
{
    static const struct panel_call settings[] = {
        A_WRITE(PANEL_KBDBOUNCE, 2, 2, 0x8C), A_WRITE(PANEL_KBDSIZE, 1, 0x1C), A_WRITE(PANEL_KBDIC, 1, 3), A_WRITE(PANEL_KBDMSK, 1, 0), A_READ(PANEL_KBDCODE0, 4),
        A_READ(PANEL_EVTCODE, 32), A_READ(PANEL_EVTCODE, 2), A_READ(PANEL_KBDIC, 1), A_RESET,
        A_WRITE(PANEL_GPIODATA1, 2, 0x10, 0x10), A_WRITE(PANEL_GPIODIR0, 3, 0, 0x10, 0), A_READ(PANEL_GPIODIR0, 15), A_READ(PANEL_IRQST, 1),
    };
    struct panel_call call;
    unsigned i;
    if (once_in(3))
        return settings[below(13)];
    memset(&call, 0, sizeof call);
    call.kind = (uint16_t)(once_in(6) ? PANEL_WRITE : PANEL_LOOK);
    call.first = (uint16_t)(call.kind == PANEL_WRITE ? below(256) : 0);
    call.count = (uint16_t)(call.kind == PANEL_WRITE ? 1 + below(PANEL_BYTES) : PANEL_ROWS);
    for (i = 0; i < call.count; i++)
        call.values[i] = (uint16_t)(call.kind == PANEL_WRITE ? below(256) : chance() & chance() & 0x1FFF);
    return call;
}

/* The call, made by itself: done or declined. */
static void make(struct panel *panel, const struct panel_call *call)
{
    uint8_t bytes[PANEL_BYTES];
    unsigned i, number;
    for (i = 0; i < PANEL_BYTES; i++)
        bytes[i] = (uint8_t)call->values[i];
    switch (call->kind) {
    case PANEL_LOOK:
        number = panel_look(panel, call->values, call->count);
        break;
    case PANEL_WRITE:
        number = panel_write(panel, (uint8_t)call->first, bytes, call->count);
        break;
    case PANEL_READ:
        number = panel_read(panel, (uint8_t)call->first, bytes, call->count);
        break;
    default:
        number = panel_reset(panel);
        break;
    }
    SO(number == PANEL_DONE || number == PANEL_NOT_ALLOWED || number == PANEL_BAD_SIZE);
}

/* Random sessions, recorded call by call: at every call the list is what panel_pack makes, it is unpacked to the calls, and it is played to the panel's state. */
static void recorded(void)
{
    struct panel_call calls[MOST], back[MOST];
    struct panel panel, other;
    uint8_t record[ROOM], packed[ROOM];
    size_t n, count, session;
    group("carry", "sessions recorded, packed, unpacked and played");
    chance_from(20261115u);
    for (session = 0; session < 200; session++) {
        struct panel_place place = {0, 0};
        panel = after_reset();
        memset(record, (int)chance(), ROOM);
        for (n = 1; n <= MOST; n++) {
            uint64_t length;
            calls[n - 1] = some_call();
            make(&panel, &calls[n - 1]);
            SAME(panel_pack_next(&calls[n - 1], record, ROOM, &place), PANEL_DONE);
            memcpy(packed, record, ROOM);
            SAME(panel_pack(calls, n, packed, ROOM, &length), PANEL_DONE);
            SO(length == panel_packed(place));
            SO(memcmp(packed, record, ROOM) == 0);
            memset(&other, (int)chance(), sizeof other);
            SAME(panel_play(&other, record, length), PANEL_DONE);
            SO(same_panel(&other, &panel));
        }
        SAME(unpacked(record, panel_packed(place), back, &count), PANEL_DONE);
        SAME((unsigned)count, MOST);
        SO(memcmp(back, calls, sizeof calls) == 0);
    }
    group_ends();
}

/* A list of calls is packed, and unpacked to the same calls. */
static void there_and_back(const struct panel_call *calls, size_t count)
{
    struct panel_call back[MOST];
    uint8_t packed[ROOM];
    uint64_t length = PAINT;
    size_t found;
    SAME(panel_pack(calls, count, packed, ROOM, &length), PANEL_DONE);
    SAME(unpacked(packed, length, back, &found), PANEL_DONE);
    SO(found == count && memcmp(back, calls, count * sizeof *calls) == 0);
}

/* Every list of up to four calls out of seven, and 100,000 random ones. */
static void many_lists(void)
{
    static const struct panel_call alphabet[] = {
        A_RESET, A_LOOK(0), A_LOOK(0x1FFF, 1, 0x1000, 0, 0, 0, 0, 0x0801), A_READ(PANEL_EVTCODE, 1), A_READ(0xFF, 32), A_WRITE(PANEL_KBDBOUNCE, 2, 1, 0x8C), A_WRITE(0, 1, 0),
    };
    enum { LETTERS = sizeof alphabet / sizeof alphabet[0] };
    struct panel_call calls[MOST];
    size_t i, k, count, all = 1;
    group("carry", "every list of up to four calls out of seven, and 100,000 random ones");
    for (count = 0; count <= 4; count++) {
        for (i = 0; i < all; i++) {
            size_t letters = i;
            for (k = 0; k < count; k++, letters /= LETTERS)
                calls[k] = alphabet[letters % LETTERS];
            there_and_back(calls, count);
        }
        all *= LETTERS;
    }
    for (i = 0; i < 100000; i++) {
        count = below(9);
        for (k = 0; k < count; k++)
            calls[k] = some_call();
        there_and_back(calls, count);
    }
    group_ends();
}

/* Bit n of a list. */
static unsigned bit_of(const uint8_t *bytes, size_t n)
{
    return bytes[n / 8] >> (7 - n % 8) & 1;
}

/* The number that some bits spell. */
static size_t spelt(const uint8_t *bytes, size_t at, size_t width)
{
    size_t value = 0;
    for (; width > 0; width--)
        value = 2 * value + bit_of(bytes, at++);
    return value;
}

/* Is it the end: fewer than eight bits, all 0? */
static bool ends_at(const uint8_t *bytes, size_t at, size_t bits)
{
    return bits - at < 8 && spelt(bytes, at, bits - at) == 0;
}

/* Are the bytes a packed list? Worked out here bit by bit, from document 02. */
static bool is_list(const uint8_t *bytes, size_t length)
{
    static const size_t least[] = {106, 15, 15, 2};
    size_t at = 0, bits = 8 * length, kind, size;
    while (!ends_at(bytes, at, bits)) {
        if (bits - at < 2)
            return false;
        kind = spelt(bytes, at, 2);
        size = least[kind];
        if (bits - at < size)
            return false;
        if (kind == PANEL_WRITE)
            size += 8 * (spelt(bytes, at + 10, 5) + 1);
        if (bits - at < size)
            return false;
        at += size;
    }
    return true;
}

/* Some bytes are judged as they must be: a list is unpacked to calls that are packed to the very bytes, and played; anything else is 20 and leaves the panel. */
static bool judged(const uint8_t *bytes, size_t length, const struct panel *was)
{
    bool list = is_list(bytes, length);
    struct panel_call calls[MOST];
    struct panel panel = *was;
    uint8_t room[ROOM];
    uint64_t packed;
    size_t count;
    SAME(unpacked(bytes, length, calls, &count), list ? PANEL_DONE : PANEL_CUT_SHORT);
    SAME(panel_play(&panel, bytes, length), list ? PANEL_DONE : PANEL_CUT_SHORT);
    if (!list) {
        SO(same_panel(&panel, was));
        return false;
    }
    memset(room, PAINT, ROOM);
    SAME(panel_pack(calls, count, room, ROOM, &packed), PANEL_DONE);
    SO(packed == length && holds(room, bytes, length));
    return true;
}

/* Every cut and every single-bit change of the lists; some of each are lists again. */
static void cut_and_changed(void)
{
    struct panel was;
    unsigned cuts = 0, changes = 0;
    size_t i, n;
    group("carry", "every cut and every changed bit of the lists");
    memset(&was, PAINT, sizeof was);
    for (i = 0; i < LISTS; i++) {
        uint8_t bytes[24];
        memcpy(bytes, lists[i].bytes, sizeof bytes);
        for (n = 0; n <= sizeof bytes; n++)
            cuts += judged(bytes, n, &was);
        for (n = 0; n < 8 * lists[i].length; n++) {
            bytes[n / 8] ^= (uint8_t)(0x80 >> n % 8);
            changes += judged(bytes, lists[i].length, &was);
            bytes[n / 8] ^= (uint8_t)(0x80 >> n % 8);
        }
    }
    SO(cuts > LISTS && changes > 0);
    group_ends();
}

/* A byte 00 more than the padding is no end; nor is padding with a 1. */
static void padded_wrongly(void)
{
    static const struct {
        uint8_t bytes[16];
        size_t length;
        uint8_t number;
    } tails[] = {
        {{0x00}, 1, PANEL_CUT_SHORT},             /* eight bits: a look that is cut */
        {{0xC0, 0x00}, 2, PANEL_CUT_SHORT},       /* six bits and eight: a look that is cut */
        {{0xC8}, 1, PANEL_CUT_SHORT},             /* 11 00 1000 */
        {{0xC1}, 1, PANEL_CUT_SHORT},             /* 11 000001 */
        {{0xFD}, 1, PANEL_CUT_SHORT},             /* 11 11 11 01: two bits, a write that is cut */
        {{0x84, 0x01}, 2, PANEL_CUT_SHORT},       /* a read, and one bit that isn't 0 */
        {{0x84, 0x00, 0x00}, 3, PANEL_CUT_SHORT}, /* a read, and nine bits that are */
        {{0x40, 0xC1}, 2, PANEL_CUT_SHORT},       /* a write without its byte */
    };
    struct panel was = after_reset();
    size_t i;
    group("carry", "lists cut short or padded wrongly");
    for (i = 0; i < sizeof tails / sizeof tails[0]; i++) {
        struct panel panel = was;
        SAME(panel_play(&panel, tails[i].bytes, tails[i].length), tails[i].number);
        SO(same_panel(&panel, &was));
        SO(!judged(tails[i].bytes, tails[i].length, &was));
    }
    group_ends();
}

/* A list is declined with a number, whatever the room; length 0, and every byte of the buffer stays. */
static void list_declined(const struct panel_call *calls, size_t count, uint8_t number)
{
    size_t room;
    for (room = 0; room <= ROOM; room = room < 40 ? room + 1 : room + 97) {
        uint8_t out[ROOM];
        uint64_t length = PAINT;
        memset(out, PAINT, ROOM);
        SAME(panel_pack(calls, count, out, room, &length), number);
        SO(length == 0);
        SO(holds(out, out, 0));
    }
}

/* So is one call more, and its place stays. */
static void call_declined(const struct panel_call *call, uint8_t number)
{
    struct panel_place place = {1, 3};
    uint8_t out[ROOM];
    memset(out, PAINT, ROOM);
    SAME(panel_pack_next(call, out, ROOM, &place), number);
    SO(place.byte == 1 && place.bit == 3);
    SO(holds(out, out, 0));
    list_declined(call, 1, number);
}

/* The numbers of one call: 1 before 2; 3; 4, and counts aren't cut to a byte or to five bits. */
static void calls_declined(void)
{
    static const struct {
        struct panel_call call;
        uint8_t number;
    } bad[] = {
        {{PANEL_LOOK, 0, 0, {0}}, PANEL_NOT_EIGHT},
        {{PANEL_LOOK, 0, 7, {0}}, PANEL_NOT_EIGHT},
        {{PANEL_LOOK, 0, 9, {0x2000}}, PANEL_NOT_EIGHT},
        {{PANEL_LOOK, 0, 264, {0}}, PANEL_NOT_EIGHT},
        {{PANEL_LOOK, 0, 0xFFFF, {0}}, PANEL_NOT_EIGHT},
        {A_LOOK(0x2000), PANEL_HIGH_BITS},
        {A_LOOK(0, 0, 0, 0, 0, 0, 0, 0x8000), PANEL_HIGH_BITS},
        {{4 + PANEL_LOOK, 0, 8, {0, 0, 0, 0x4000}}, PANEL_HIGH_BITS},
        {{PANEL_WRITE, 3, 0, {0x8C}}, PANEL_NO_BYTES},
        {{PANEL_READ, 3, 0, {0}}, PANEL_NO_BYTES},
        {{PANEL_WRITE, 3, 33, {0x8C}}, PANEL_TOO_MANY},
        {{PANEL_READ, 3, 33, {0}}, PANEL_TOO_MANY},
        {{PANEL_READ, 3, 257, {0}}, PANEL_TOO_MANY},
        {{PANEL_WRITE, 3, 288, {0}}, PANEL_TOO_MANY},
        {{PANEL_READ, 3, 0xFFFF, {0}}, PANEL_TOO_MANY},
    };
    size_t i;
    group("carry, declined", "1 to 4, for one call");
    for (i = 0; i < sizeof bad / sizeof bad[0]; i++)
        call_declined(&bad[i].call, bad[i].number);
    group_ends();
}

/* The first bad call of a list, wherever it stands, before any room is looked at. */
static void lists_declined(void)
{
    static const struct panel_call look_of_seven = {PANEL_LOOK, 0, 7, {0}}, read_of_none = {PANEL_READ, 3, 0, {0}};
    struct panel_call calls[MOST];
    size_t i;
    group("carry, declined", "the first bad call of a list");
    chance_from(7u);
    for (i = 0; i < MOST; i++)
        calls[i] = some_call();
    for (i = 0; i < MOST - 1; i++) {
        struct panel_call one = calls[i], other = calls[i + 1];
        calls[i] = read_of_none;
        calls[i + 1] = look_of_seven;
        list_declined(calls, MOST, PANEL_NO_BYTES);
        calls[i] = look_of_seven;
        calls[i + 1] = read_of_none;
        list_declined(calls, MOST, PANEL_NOT_EIGHT);
        calls[i] = one;
        calls[i + 1] = other;
    }
    group_ends();
}

/* Rooms about the need: 21 exactly below it, and then every byte stays; else the bytes behind the list stay. */
static void rooms(void)
{
    size_t i, room;
    group("carry, declined", "21, with rooms about the need");
    for (i = 0; i < LISTS; i++) {
        const struct list *list = &lists[i];
        for (room = 0; room <= list->length + 2; room++) {
            bool fits = room >= list->length;
            uint8_t out[ROOM];
            uint64_t length = PAINT;
            memset(out, PAINT, ROOM);
            SAME(panel_pack(list->calls, list->count, out, room, &length), fits ? PANEL_DONE : PANEL_NO_ROOM);
            SO(length == (fits ? list->length : 0));
            SO(holds(out, list->bytes, fits ? list->length : 0));
        }
    }
    group_ends();
}

/* One call more, at every place of a small buffer and past it: its bits, 0 up to a whole byte, and no other bit. */
static void one_more(const struct panel_call *call, size_t room, uint64_t byte, uint8_t bit)
{
    struct panel_place place = {byte, bit}, at = {0, 0}, begin = {0, 0};
    uint8_t out[ROOM], alone[ROOM], wanted[ROOM];
    size_t i, bits, first;
    memset(alone, 0, ROOM);
    SAME(panel_pack_next(call, alone, ROOM, &at), PANEL_DONE);
    bits = 8 * at.byte + at.bit;
    memset(out, PAINT, ROOM);
    memcpy(wanted, out, ROOM);
    begin = place;
    if (bit > 7 || byte > room || 8 * byte + bit + bits > 8 * room) {
        SAME(panel_pack_next(call, out, room, &place), PANEL_NO_ROOM);
        SO(place.byte == begin.byte && place.bit == begin.bit);
        SO(memcmp(out, wanted, ROOM) == 0);
        return;
    }
    first = 8 * byte + bit;
    for (i = first; i < (first + bits + 7) / 8 * 8; i++) {
        unsigned one = i < first + bits ? bit_of(alone, i - first) : 0;
        wanted[i / 8] = (uint8_t)((wanted[i / 8] & ~(0x80 >> i % 8)) | one << (7 - i % 8));
    }
    SAME(panel_pack_next(call, out, room, &place), PANEL_DONE);
    SO(8 * place.byte + place.bit == first + bits && place.bit < 8);
    SO(memcmp(out, wanted, ROOM) == 0);
}

/* A place far beyond any buffer. */
#define FAR (~(uint64_t)0)

static void places_written(void)
{
    static const struct panel_call calls[] = {A_RESET, A_READ(0xA5, 19), A_WRITE(PANEL_KBDBOUNCE, 2, 0xFF, 0x81), A_LOOK(0x1FFF, 0x1001, 0, 0, 0, 0, 0, 0x1555)};
    static const uint64_t far_bytes[] = {21, 22, 1u << 16, FAR / 8, FAR / 8 + 1, FAR - 1, FAR};
    size_t i, k;
    unsigned bit, room;
    group("carry", "one call more, at every place and beyond");
    for (i = 0; i < sizeof calls / sizeof calls[0]; i++) {
        for (bit = 0; bit < 10; bit++) {
            for (room = 0; room <= 20; room += room < 2 ? 1 : 6) {
                for (k = 0; k <= 21; k++)
                    one_more(&calls[i], room, k, (uint8_t)bit);
            }
            for (k = 0; k < sizeof far_bytes / sizeof far_bytes[0]; k++)
                one_more(&calls[i], 20, far_bytes[k], (uint8_t)bit);
        }
        one_more(&calls[i], 20, 0, 255);
    }
    group_ends();
}

/* Nothing is there: 20, not the end, and call and place stay. */
static void nothing_at(const uint8_t *bytes, size_t length, uint64_t byte, uint8_t bit)
{
    struct panel_place place = {byte, bit};
    struct panel_call call, was;
    bool end = true;
    memset(&call, PAINT, sizeof call);
    was = call;
    SAME(panel_unpack(bytes, length, &place, &call, &end), PANEL_CUT_SHORT);
    SO(!end && place.byte == byte && place.bit == bit && same_call(&call, &was));
}

/* The end is there: call and place stay. */
static void end_at(const uint8_t *bytes, size_t length, uint64_t byte, uint8_t bit)
{
    struct panel_place place = {byte, bit};
    struct panel_call call, was;
    bool end = false;
    memset(&call, PAINT, sizeof call);
    was = call;
    SAME(panel_unpack(bytes, length, &place, &call, &end), PANEL_DONE);
    SO(end && place.byte == byte && place.bit == bit && same_call(&call, &was));
}

static void places_read(void)
{
    const struct list *list = &lists[LISTS - 1];
    unsigned bit;
    group("carry", "places of a list, and places that are none");
    for (bit = 3; bit < 8; bit++)
        end_at(list->bytes, list->length, list->length - 1, (uint8_t)bit);
    end_at(list->bytes, list->length, list->length, 0);
    end_at(list->bytes, 0, 0, 0);
    for (bit = 1; bit < 256; bit++) {
        nothing_at(list->bytes, list->length, list->length, (uint8_t)bit);
        nothing_at(list->bytes, 0, 0, (uint8_t)bit);
    }
    for (bit = 8; bit < 256; bit++)
        nothing_at(list->bytes, list->length, 0, (uint8_t)bit);
    for (bit = 0; bit < 10; bit++) {
        nothing_at(list->bytes, list->length, list->length + 1, (uint8_t)bit);
        nothing_at(list->bytes, list->length, FAR / 8, (uint8_t)bit);
        nothing_at(list->bytes, list->length, FAR, (uint8_t)bit);
    }
    group_ends();
}

/* What the archive fills: the struct and no byte around it, and the pointer comes back. */
static void structs_filled(void)
{
    static const struct panel_call call = A_WRITE(0x84, 2, 0x12, 0x34);
    struct panel_written written[3];
    struct panel_record record[3];
    struct panel_done done[3];
    uint8_t out[ROOM];
    group("carry", "the structs that the archive fills");
    memset(out, PAINT, ROOM);
    memset(written, PAINT, sizeof written);
    SO(panel_add_numbers(written + 1, (const uint16_t *)&call, out, 9, 2, 6) == written + 1);
    SO(written[1].byte == 6 && written[1].bit == 5 && written[1].number == PANEL_DONE);
    SO(panel_add_numbers(written + 1, (const uint16_t *)&call, out, 6, 2, 6) == written + 1);
    SO(written[1].byte == 2 && written[1].bit == 6 && written[1].number == PANEL_NO_ROOM);
    SO(panel_pack_numbers(written + 1, (const uint16_t *)&call, 35, out, ROOM) == written + 1);
    SO(written[1].byte == 4 && written[1].bit == 0 && written[1].number == PANEL_DONE);
    SO(panel_pack_numbers(written + 1, (const uint16_t *)&call, 34, out, ROOM) == written + 1);
    SO(written[1].byte == 0 && written[1].bit == 0 && written[1].number == PANEL_DONE);
    memset(record, PAINT, sizeof record);
    SO(panel_unpack_value(record + 1, out, 4, 0, 0) == record + 1);
    SO(same_call(&record[1].call, &call) && record[1].byte == 3 && record[1].bit == 7 && record[1].number == PANEL_DONE && !record[1].end);
    memset(done, PAINT, sizeof done);
    SO(panel_play_value(done + 1, out, 4) == done + 1);
    SAME(done[1].number, PANEL_DONE);
    SO(written[0].number == written[2].byte && record[0].byte == record[2].byte && record[0].bit == PAINT && record[2].call.kind == 0xA5A5);
    SO(done[0].number == PAINT && done[2].after.size == PAINT);
    group_ends();
}

void carry(void)
{
    by_hand();
    cut_to_size();
    recorded();
    many_lists();
    cut_and_changed();
    padded_wrongly();
    calls_declined();
    lists_declined();
    rooms();
    places_written();
    places_read();
    structs_filled();
}
