/* What one call takes beyond the benchmark's own part: instructions, copies, stack. */
#include "measure.h"

void *memcpy(void *to, const void *from, size_t count);

/* A call that does nothing is two instructions, the answer and the return, and needs its return address. */
enum { IDLE_INSTRUCTIONS = 2, IDLE_STACK = 8 };

/* What was counted of a turn. */
static unsigned long instructions, copies, bytes;

/* One instruction: counted, and so is a copy if it begins here. */
static void count(unsigned long at, unsigned long third)
{
    instructions++;
    if (at != (unsigned long)memcpy)
        return;
    copies++;
    bytes += third;
}

/* Counts a turn. */
static void count_turn(const struct face *face, const struct measured *measured)
{
    instructions = copies = bytes = 0;
    step_turn(face, measured, count);
}

bool counts(void)
{
    count_turn(faces[IDLE], &cases[0]);
    return instructions > 0;
}

/* A turn on the face less a turn that does nothing, for one call. */
struct cost cost_of(unsigned face, const struct measured *measured)
{
    struct cost cost;
    unsigned long own_instructions, own_copies, own_bytes;
    double calls = measured->calls;
    count_turn(faces[IDLE], measured);
    own_instructions = instructions, own_copies = copies, own_bytes = bytes;
    count_turn(faces[face], measured);
    cost.instructions = (double)(instructions - own_instructions) / calls + IDLE_INSTRUCTIONS * parts(measured);
    cost.copies = (double)(copies - own_copies) / calls;
    cost.bytes = (double)(bytes - own_bytes) / calls;
    cost.stack = stack_of(faces[face], measured) - stack_of(faces[IDLE], measured) + IDLE_STACK;
    return cost;
}
