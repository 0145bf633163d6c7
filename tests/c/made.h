/* Modules made by hand: after reset, with some bytes changed. */
#ifndef MADE_H
#define MADE_H

#include "panel.h"

/* Bytes that are changed, and to what. */
struct change {
    size_t at;
    size_t bytes;
    uint8_t value;
};

/* A module's name and its changes, up to the first of no bytes. */
struct state {
    const char *name;
    struct change changes[6];
};

#define TO(field, value) {offsetof(struct panel, field), 1, value}
#define HELD_KEY(row, col) {offsetof(struct panel, held) + 13 * (row) + (col), 1, 1}
#define RUN_OF(row, col, value) {offsetof(struct panel, run) + 13 * (row) + (col), 1, value}
#define PLACE(n, value) {offsetof(struct panel, queue) + (n), 1, value}
#define PLACES(count, value) {offsetof(struct panel, queue), count, value}
#define MARKS(count) {offsetof(struct panel, seen), count, 1}
#define REST(looks, sleeps) TO(quiet, looks), TO(asleep, sleeps)
#define PIN(field, n, count, value) {offsetof(struct panel, pins) + offsetof(struct panel_pins, field) + (n), count, value}

/* One or more unsound modules for each condition of soundness, and sound ones at its edges, with pins as after reset. */
extern const struct state unsound[];
extern const size_t unsound_count;
extern const struct state sound[];
extern const size_t sound_count;

/* Sound ones that no calls reach: quiet looks are counted, and a key has a run. */
extern const struct state restless[];
extern const size_t restless_count;

/* Sound ones with other pins than after reset, whatever they hold; some of them no calls reach. */
extern const struct state other_pins[];
extern const size_t other_pins_count;

/* The module. */
struct panel made(const struct state *state);

#endif
