/*
 * stack SEED CALLS: random calls, each on a painted stack of its own. A line for each call of the header: NAME|the most bytes that it took|how often it was made.
 * The last line has the struct's own bytes.
 * It is counted from where the call's own stack begins.
 */
#include "calls.h"
#include "port.h"

enum { ROOM = 2048, PAINT = 0xA5 };

static uint8_t area[ROOM];
static enum call the_call;
static unsigned deepest[KINDS], made[KINDS];

static void make_it(void)
{
    make_call(the_call);
}

/* The lowest byte of the painted stack that a call has written to; then all is painted again. A call that has come to the end may have gone beyond it. */
static const uint8_t *lowest(enum call call)
{
    unsigned i, left = 0;
    the_call = call;
    port_apart(make_it, area + ROOM);
    while (left < ROOM && area[left] == PAINT)
        left++;
    if (left == 0)
        port_exit(3);
    for (i = left; i < ROOM; i++)
        area[i] = PAINT;
    return area + left;
}

int main(int words, char **word)
{
    unsigned i, calls = words > 2 ? number_of(word[2]) : 0;
    if (calls == 0)
        return 2;
    for (i = 0; i < ROOM; i++)
        area[i] = PAINT;
    calls_from(number_of(word[1]));
    lowest(NOTHING);
    for (i = 0; i < calls; i++) {
        enum call call = next_call();
        const uint8_t *low = lowest(call);
        unsigned taken = low < call_stack ? (unsigned)(call_stack - low) : 0;
        made[call]++;
        if (taken > deepest[call])
            deepest[call] = taken;
    }
    for (i = 0; i < KINDS; i++)
        printf("%s|%u|%u\n", call_names[i], deepest[i], made[i]);
    printf("struct panel|%u|1\n", (unsigned)sizeof(struct panel));
    return 0;
}
