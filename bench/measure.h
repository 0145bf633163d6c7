/* How a case is measured. */
#ifndef MEASURE_H
#define MEASURE_H

#include "cases.h"

/* The faces in the order of the tables' columns; `idle` is what the benchmark itself costs. */
enum { PROVED, C_O2, C_O3, IDLE, FACES };
extern const struct face *const faces[FACES];

/* Times of one case: nanoseconds a call, and how many times longer than plain C. Medians over the rounds. */
struct times {
    double each[3];
    double to_O2;
    double to_O3;
};

struct times time_case(const struct measured *measured);

/* What one call of a case takes, on one face: exact, and the same in every run. */
struct cost {
    double instructions;
    double copies; /* calls of memcpy */
    double bytes;  /* that those copied */
    unsigned stack; /* the return address included */
};

struct cost cost_of(unsigned face, const struct measured *measured);

/* Are instructions counted here at all? */
bool counts(void);

/* A turn on a stack apart, which lies in its page alike in every run. */
void turn_apart(const struct face *face, const struct measured *measured);

/* Stops at each instruction of a turn and calls `seen` with its address, and with the register of a call's third argument. */
void step_turn(const struct face *face, const struct measured *measured, void (*seen)(unsigned long at, unsigned long third));

/* Bytes of the stack apart, painted before, that a turn has written to. */
unsigned stack_of(const struct face *face, const struct measured *measured);

#endif
