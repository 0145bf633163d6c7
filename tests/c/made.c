/* The modules made by hand, a line each. */
#include "made.h"

void *memset(void *to, int byte, size_t count);

const struct state unsound[] = {
    {"zeros", {{0, sizeof(struct panel), 0}}},
    {"size 00", {TO(size, 0x00)}},
    {"size 1C", {TO(size, 0x1C)}},
    {"size 2D", {TO(size, 0x2D)}},
    {"size 92", {TO(size, 0x92)}},
    {"size 81", {TO(size, 0x81)}},
    {"size 21", {TO(size, 0x21)}},
    {"row 2 column 0 held", {HELD_KEY(2, 0)}},
    {"row 0 column 2 held", {HELD_KEY(0, 2)}},
    {"row 0 column 2 with a run", {RUN_OF(0, 2, 1)}},
    {"row 7 column 12 with a run", {RUN_OF(7, 12, 1)}},
    {"a run of 255", {RUN_OF(0, 0, 255)}},
    {"16 wait", {TO(count, 16)}},
    {"255 wait", {TO(count, 255)}},
    {"16 wait, 15 places with codes", {TO(count, 16), PLACES(15, 0x00)}},
    {"7F waits", {TO(count, 1), PLACE(0, 0x7F)}},
    {"FF waits", {TO(count, 1), PLACE(0, 0xFF)}},
    {"0D waits", {TO(count, 1), PLACE(0, 0x0D)}},
    {"0F waits", {TO(count, 1), PLACE(0, 0x0F)}},
    {"02 waits, out of size 22", {TO(count, 1), PLACE(0, 0x02)}},
    {"82 waits, out of size 22", {TO(count, 1), PLACE(0, 0x82)}},
    {"20 waits, out of size 22", {TO(count, 1), PLACE(0, 0x20)}},
    {"1D waits", {TO(count, 1), PLACE(0, 0x1D)}},
    {"none waits, place 0 is 00", {PLACE(0, 0x00)}},
    {"one waits, place 14 is 11", {TO(count, 1), PLACE(0, 0x00), PLACE(14, 0x11)}},
    {"mask 10", {TO(mask, 0x10)}},
    {"mask 37", {TO(mask, 0x37)}},
    {"all four marks", {MARKS(4)}},
    {"asleep, 254 quiet looks", {REST(254, 1)}},
    {"asleep, no quiet look", {REST(0, 1)}},
    {"awake, 255 quiet looks", {REST(255, 0)}},
};

const struct state sound[] = {
    {"a run of 254, D 1", {RUN_OF(0, 0, 254), TO(bounce, 1)}},
    {"three marks, no RSINT", {MARKS(3)}},
    {"RELINT, none waits", {TO(relint, 1)}},
    {"RKLINT without RSINT", {TO(rklint, 1)}},
    {"00 00 80 80 wait, the key open", {TO(count, 4), PLACE(0, 0x00), PLACE(1, 0x00), PLACE(2, 0x80), PLACE(3, 0x80)}},
    {"0C waits", {TO(count, 1), PLACE(0, 0x0C)}},
    {"8C waits", {TO(count, 1), PLACE(0, 0x8C)}},
    {"1C waits", {TO(count, 1), PLACE(0, 0x1C)}},
    {"9C waits", {TO(count, 1), PLACE(0, 0x9C)}},
    {"15 wait, no RELINT", {TO(count, 15), PLACES(15, 0x00)}},
    {"a key held, nothing queued", {HELD_KEY(0, 0)}},
    {"a run of 5, D 0", {RUN_OF(0, 0, 5), TO(bounce, 0)}},
    {"runs of 254, special function key open", {RUN_OF(0, 0, 254), HELD_KEY(0, 1), RUN_OF(0, 1, 254), RUN_OF(0, 12, 254)}},
    {"runs of 254, special function key held", {RUN_OF(0, 0, 254), HELD_KEY(0, 1), RUN_OF(0, 1, 254), HELD_KEY(0, 12), RUN_OF(0, 12, 254)}},
    {"a run of 254, special function key held", {RUN_OF(0, 0, 254), HELD_KEY(0, 1), HELD_KEY(0, 12)}},
    {"runs of 1 and 2, special function key held with 1", {RUN_OF(0, 0, 1), HELD_KEY(0, 1), RUN_OF(0, 1, 2), HELD_KEY(0, 12), RUN_OF(0, 12, 1)}},
    {"special function key held with a run of 254", {HELD_KEY(0, 0), HELD_KEY(0, 12), RUN_OF(0, 12, 254)}},
    {"a quiet look", {REST(1, 0)}},
    {"254 quiet looks, awake", {REST(254, 0)}},
    {"254 quiet looks, a key held under a special function key, 0C waits", {HELD_KEY(0, 1), HELD_KEY(0, 12), TO(count, 1), PLACE(0, 0x0C), REST(254, 0)}},
    {"asleep", {REST(255, 1)}},
    {"asleep, RELINT, 15 wait", {TO(relint, 1), TO(count, 15), PLACES(15, 0x00), REST(255, 1)}},
    {"asleep, a key held, three marks", {HELD_KEY(1, 1), MARKS(3), REST(255, 1)}},
};

const struct state restless[] = {
    {"a quiet look, a run of 1", {RUN_OF(0, 0, 1), REST(1, 0)}},
    {"254 quiet looks, a run of 254", {RUN_OF(1, 12, 254), REST(254, 0)}},
    {"asleep, a run of 1", {RUN_OF(0, 0, 1), REST(255, 1)}},
    {"asleep, a run of 254 under a special function key", {HELD_KEY(0, 12), RUN_OF(0, 1, 254), REST(255, 1)}},
};

const struct state other_pins[] = {
    {"pins of zeros", {PIN(kept, 0, 72, 0)}},
    {"every kept byte FF", {PIN(kept, 0, 33, 0xFF)}},
    {"every edge pending, no sample", {PIN(edge, 0, 19, 1)}},
    {"every level 1, no sample", {PIN(level, 0, 19, 1)}},
    {"edges of pins 0, 1, 8 and 9, a sample", {PIN(edge, 0, 2, 1), PIN(edge, 8, 2, 1), PIN(sampled, 0, 1, 1)}},
    {"every edge, every level, a sample, every byte FF", {PIN(kept, 0, 33, 0xFF), PIN(edge, 0, 39, 1)}},
};

const size_t unsound_count = sizeof unsound / sizeof unsound[0];
const size_t sound_count = sizeof sound / sizeof sound[0];
const size_t restless_count = sizeof restless / sizeof restless[0];
const size_t other_pins_count = sizeof other_pins / sizeof other_pins[0];

struct panel made(const struct state *state)
{
    struct panel panel;
    const struct change *change = state->changes;
    panel_reset(&panel);
    while (change < state->changes + 6 && change->bytes > 0) {
        memset((uint8_t *)&panel + change->at, change->value, change->bytes);
        change++;
    }
    return panel;
}
