/* Random calls on random modules, the same on every machine: each is prepared first, then made. */
#ifndef CALLS_H
#define CALLS_H

#include "panel.h"

/* Every call that the panel's module has; NOTHING is none, and only tells where a call's stack begins, in `call_stack`. */
enum call { RESET, LOOK, BLOCK, WRITE, READ, HELD, LINE, SAMPLE, DRIVE, PACK, PACK_NEXT, UNPACK, READS, WRITES, TAKES, GIVES, STOPS, DROPS, NOTHING };
enum { KINDS = NOTHING, BUFFER = 322, LIST = 258 };
extern const char *const call_names[KINDS];

/* All that a call can touch. */
struct touched {
    struct panel panel;
    uint8_t buffer[BUFFER]; /* what is lent of it begins at 1: the byte before it and those behind it must stay */
    uint8_t list[LIST];     /* a packed list, alike */
    struct panel_wire wire;
    struct panel_call call;
    struct panel_place place;
    uint64_t length;
    uint64_t done;
    uint32_t driven;
    uint32_t level;
    bool yes;
};
extern struct touched touched;
extern const uint8_t *call_stack;

/* Begins anew from a seed other than 0. */
void calls_from(unsigned seed);

/* Which call is next: its arguments are ready, and the module may have become another one, or been hurt. */
enum call next_call(void);

/* Makes it, and gives its number; of a call that gives another byte or an answer, that. */
uint8_t make_call(enum call call);

#endif
