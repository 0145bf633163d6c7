/*
 * stream SEED CALLS: random calls, and after each all that it can have touched is written out: which call, its number, the answers, the call that was
 * unpacked, a hash of buffer and list, their first bytes, the whole wire and the whole module. Two builds of the module do the same when they write the same.
 */
#include "calls.h"
#include "port.h"

enum { SHOWN = 33, WAITING = 2048 };

/* Bytes that wait to be written. */
static uint8_t waiting[WAITING];
static unsigned waits;

static void write_out(void)
{
    port_write(waiting, waits);
    waits = 0;
}

static void put(const void *bytes, unsigned count)
{
    const uint8_t *from = bytes;
    while (count-- > 0) {
        if (waits == WAITING)
            write_out();
        waiting[waits++] = *from++;
    }
}

/* A number, its low byte first. */
static void put_number(uint64_t number, unsigned count)
{
    for (; count > 0; count--, number >>= 8) {
        uint8_t byte = (uint8_t)number;
        put(&byte, 1);
    }
}

static uint32_t hash(const uint8_t *from, unsigned count)
{
    uint32_t all = 2166136261u;
    while (count-- > 0)
        all = (all ^ *from++) * 16777619u;
    return all;
}

/* What a call left. */
static void put_touched(void)
{
    unsigned i;
    put_number(touched.yes, 1);
    put_number(touched.done, 8);
    put_number(touched.driven, 4);
    put_number(touched.level, 4);
    put_number(touched.length, 8);
    put_number(touched.place.byte, 8);
    put_number(touched.place.bit, 1);
    put_number(touched.call.kind, 2);
    put_number(touched.call.first, 2);
    put_number(touched.call.count, 2);
    for (i = 0; i < 32; i++)
        put_number(touched.call.values[i], 2);
    put_number(hash(touched.buffer, BUFFER), 4);
    put(touched.buffer, 1 + SHOWN);
    put_number(hash(touched.list, LIST), 4);
    put(touched.list, 1 + SHOWN);
    put(&touched.wire, sizeof touched.wire);
    put(&touched.panel, sizeof touched.panel);
}

int main(int words, char **word)
{
    unsigned i, calls = words > 2 ? number_of(word[2]) : 0;
    if (calls == 0)
        return 2;
    calls_from(number_of(word[1]));
    for (i = 0; i < calls; i++) {
        enum call call = next_call();
        put_number(call, 1);
        put_number(make_call(call), 1);
        put_touched();
    }
    write_out();
    return 0;
}
