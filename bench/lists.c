/*
 * Random lists, good and bad, packed at once and one by one, into rooms about the need; random bytes, and packed lists cut or changed, unpacked and played;
 * and long ones, in which the panel that plays falls asleep.
 * The number, every byte of buffer and module, length, place, call and end are compared after each.
 */
#include "lists.h"
#include "chance.h"

int printf(const char *format, ...);
int memcmp(const void *a, const void *b, size_t count);
void *memset(void *to, int byte, size_t count);

enum { MOST = 12, ROOM = MOST * PANEL_RECORD, NIGHT = 264, LONGEST = 2 * (NIGHT + 4) };

enum call { PACK, PACK_NEXT, UNPACK, PLAY, CALLS };
static const char *const names[] = {"pack", "pack next", "unpack", "play"};

/* How often each call gave each number. */
static unsigned given[CALLS][PANEL_NO_ROOM + 1];

/* Long lists that were played, and how many of them ended asleep. */
static unsigned nights, ended_asleep;

/* What a call of each side is given and leaves. */
struct side {
    uint8_t buffer[ROOM];
    struct panel panel;
    struct panel_call call;
    struct panel_place place;
    uint64_t length;
    bool end;
    uint8_t number;
};

static const struct face *faces[2];
static struct side sides[2];

/* Did both leave the same bytes? */
static bool bytes_agree(const struct side *a, const struct side *b)
{
    return memcmp(a->buffer, b->buffer, ROOM) == 0 && memcmp(&a->panel, &b->panel, sizeof a->panel) == 0 && memcmp(&a->call, &b->call, sizeof a->call) == 0;
}

/* Did both give the same and leave the same? */
static bool agree(enum call call)
{
    const struct side *a = &sides[0], *b = &sides[1];
    if (bytes_agree(a, b) && a->place.byte == b->place.byte && a->place.bit == b->place.bit && a->length == b->length && a->end == b->end && a->number == b->number) {
        given[call][a->number]++;
        return true;
    }
    printf("%s: %s gives %u, %s gives %u, or what is left differs\n", names[call], faces[0]->name, a->number, faces[1]->name, b->number);
    return false;
}

/* A count: mostly the usual one. */
static uint16_t some_count(unsigned usual)
{
    static const uint16_t rare[] = {0, 1, 7, 8, 9, 32, 33, 256, 257, 264, 288, 65535};
    return once_in(20) ? rare[below(12)] : (uint16_t)usual;
}

/* A call, mostly one that fits; now and then its numbers are wider than they need be. */
static struct panel_call some_call(void)
{
    struct panel_call call;
    unsigned i, high = once_in(40);
    call.kind = (uint16_t)(below(4) + (once_in(8) ? 4 * below(16384) : 0));
    call.first = (uint16_t)(once_in(8) ? chance() : once_in(3) ? PANEL_GPIODATA0 + below(38) : below(256));
    call.count = some_count(call.kind % 4 == PANEL_LOOK ? 8 : 1 + below(once_in(2) ? 5 : 32));
    for (i = 0; i < 32; i++)
        call.values[i] = (uint16_t)(chance() & (call.kind % 4 == PANEL_LOOK && !(high && once_in(8)) ? 0x1FFF : 0xFFFF));
    return call;
}

/* A list, packed into a room about its need by both. */
static bool packs(const struct panel_call *calls, size_t count)
{
    static uint8_t enough[ROOM];
    uint64_t need = 0, room;
    unsigned i;
    if (faces[1]->pack(calls, count, enough, ROOM, &need) != PANEL_DONE || once_in(4))
        need = below(ROOM - 2);
    room = need + below(3);
    if (room > 0 && once_in(3))
        room--;
    for (i = 0; i < 2; i++)
        sides[i].number = faces[i]->pack(calls, count, sides[i].buffer, room < ROOM ? room : ROOM, &sides[i].length);
    return agree(PACK);
}

/* One call more, at some place: mostly one of the buffer. */
static bool packs_next(const struct panel_call *call)
{
    struct panel_place place = {below(ROOM), 0};
    unsigned i;
    place.bit = (uint8_t)(once_in(30) ? chance() : below(8));
    if (once_in(10))
        place.byte = (uint64_t)chance() << below(33);
    for (i = 0; i < 2; i++) {
        sides[i].place = place;
        sides[i].number = faces[i]->pack_next(call, sides[i].buffer, ROOM, &sides[i].place);
    }
    return agree(PACK_NEXT);
}

/* All calls of some bytes, from a place on, up to the first place that has none. */
static bool unpacks(const uint8_t *bytes, size_t count, struct panel_place place)
{
    unsigned i, turn;
    sides[0].place = sides[1].place = place;
    for (turn = 0; turn < 8 * ROOM; turn++) {
        for (i = 0; i < 2; i++)
            sides[i].number = faces[i]->unpack(bytes, count, &sides[i].place, &sides[i].call, &sides[i].end);
        if (!agree(UNPACK))
            return false;
        if (sides[0].number != PANEL_DONE || sides[0].end)
            break;
    }
    return true;
}

/* Some bytes, played by both; the memory holds anything before. */
static bool plays(const uint8_t *bytes, size_t count)
{
    unsigned i, paint = chance();
    for (i = 0; i < 2; i++) {
        memset(&sides[i].panel, (int)paint, sizeof sides[i].panel);
        sides[i].number = faces[i]->play(&sides[i].panel, bytes, count);
    }
    return agree(PLAY);
}

/* Some bytes: a list as it was packed last, cut or changed; or any. */
static size_t some_bytes(uint8_t *bytes, size_t length)
{
    unsigned i;
    if (once_in(4)) {
        for (i = 0; i < ROOM; i++)
            bytes[i] = (uint8_t)(once_in(3) ? chance() : 0);
        return below(ROOM);
    }
    if (length > 0 && once_in(3))
        bytes[below((unsigned)length)] ^= (uint8_t)(1 << below(8));
    if (length > 0 && once_in(4))
        return below((unsigned)length);
    return length;
}

/* One list: packed, and what comes of it read. */
static bool one_list(void)
{
    static struct panel_call calls[MOST];
    static uint8_t bytes[ROOM];
    struct panel_place begin = {0, 0}, place = {below(ROOM), (uint8_t)below(9)};
    size_t count = below(MOST + 1), i, length;
    uint64_t packed = 0;
    for (i = 0; i < count; i++)
        calls[i] = some_call();
    if (!packs(calls, count) || (count > 0 && !packs_next(&calls[0])))
        return false;
    while (faces[1]->pack(calls, count, bytes, ROOM, &packed) != PANEL_DONE)
        count--;
    length = some_bytes(bytes, packed);
    return unpacks(bytes, length, begin) && unpacks(bytes, length, place) && plays(bytes, length);
}

/* Looks at contacts that don't move, few of them closed, in about the number that it takes to sleep; how many. */
static size_t some_night(struct panel_call *calls)
{
    struct panel_call look = {PANEL_LOOK, 0, PANEL_ROWS, {0}};
    size_t i, count = NIGHT - below(15);
    look.values[below(PANEL_ROWS)] = (uint16_t)(1u << below(PANEL_COLS));
    look.values[below(2)] = (uint16_t)(1u << below(2));
    for (i = 0; i < count; i++)
        calls[i] = look;
    return count;
}

/* Up to three calls other than looks, which fit; how many. */
static size_t some_accesses(struct panel_call *calls)
{
    size_t count = 0, wanted = below(4);
    while (count < wanted) {
        calls[count] = some_call();
        count += calls[count].kind % 4 != PANEL_LOOK && calls[count].count >= 1 && calls[count].count <= PANEL_BYTES;
    }
    return count;
}

/* One long list: a night, some accesses, and the same again; played. */
static bool one_night(void)
{
    static struct panel_call calls[LONGEST];
    static uint8_t bytes[LONGEST * PANEL_RECORD];
    uint64_t length;
    size_t count = some_night(calls);
    count += some_accesses(calls + count);
    count += some_night(calls + count);
    count += some_accesses(calls + count);
    if (faces[1]->pack(calls, count, bytes, sizeof bytes, &length) != PANEL_DONE || !plays(bytes, length))
        return false;
    nights++;
    ended_asleep += sides[0].panel.asleep;
    return true;
}

bool compare_lists(const struct face *one, const struct face *other)
{
    unsigned i;
    chance_from(20261115u);
    faces[0] = one;
    faces[1] = other;
    memset(sides, 0, sizeof sides);
    for (i = 0; i < LISTS; i++) {
        if (!one_list() || (i % 100 == 0 && !one_night()))
            return false;
    }
    return true;
}

bool all_lists_given(void)
{
    static const uint8_t can[CALLS][7] = {{0, 1, 2, 3, 4, 21, 255}, {0, 1, 2, 3, 4, 21, 255}, {0, 20, 255}, {0, 20, 255}};
    const uint8_t *number;
    unsigned call;
    bool all = true;
    for (call = 0; call < CALLS; call++) {
        printf("  %s:", names[call]);
        for (number = can[call]; *number != 255; number++) {
            printf(" number %u %u times%s", *number, given[call][*number], number[1] != 255 ? "," : "\n");
            all = all && given[call][*number] > 0;
        }
    }
    printf("  of %u long lists played %u left the panel asleep\n", nights, ended_asleep);
    return all && ended_asleep > 10 && ended_asleep < nights;
}
