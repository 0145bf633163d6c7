/*
 * What a call takes on a Cortex-M: a line for each case of bench/cases.c, with instructions and bytes of stack of the module and of plain C, NAME|..|..|..|..
 * Instructions: qemu's -icount shift=8 makes each take 256 ns of the machine's own time, and SysTick counts that time at 25 MHz: 6.4 ticks an instruction.
 * A turn of calls that do nothing, two instructions each, is taken off.
 * Stack: a turn on a painted stack of its own, counted from where a call's stack begins.
 */
#include "cases.h"
#include "port.h"

void *memset(void *to, int byte, size_t count);
void *memcpy(void *to, const void *from, size_t count);

#define SYST ((volatile uint32_t *)0xE000E010u)
enum { ROOM = 4096, PAINT = 0xA5, ALL = 0xFFFFFF };

/* Not in the panel's module: the cases that need them are left out. */
struct panel_done *panel_play_value(struct panel_done *made, const uint8_t *bytes, uint64_t count)
{
    (void)bytes, (void)count;
    return made;
}

struct panel_standing *panel_group_value(struct panel_standing *made, uint8_t trim, const uint8_t *codes, uint64_t count, uint64_t place)
{
    (void)trim, (void)codes, (void)count, (void)place;
    return made;
}

struct panel_part *panel_stretch_part(struct panel_part *made, uint8_t trim, const uint8_t *codes, uint64_t count, uint64_t place)
{
    (void)trim, (void)codes, (void)count, (void)place;
    return made;
}

struct panel_handed *panel_groups_value(struct panel_handed *made, uint8_t trim, const uint8_t *codes, uint64_t count, uint64_t *ends, uint64_t room)
{
    (void)trim, (void)codes, (void)count, (void)ends, (void)room;
    return made;
}

/* What port_apart is to run, and its stack. */
static const struct face *the_face;
static const struct measured *the_case;
static uint8_t area[ROOM];

static void make_turn(void)
{
    turn(the_face, the_case);
}

/* A call that only notes where its stack begins, and a face that has no other. */
const uint8_t *call_stack;
static struct face noting;

__attribute__((naked)) static void note_stack(void)
{
    __asm__ volatile("ldr r1, =call_stack\n\tmov r2, sp\n\tstr r2, [r1]\n\tmovs r0, #0\n\tbx lr\n\t.ltorg");
}

static void make_noting(void)
{
    void (*const note)(void) = note_stack;
    size_t at;
    for (at = sizeof noting.name; at < sizeof noting; at += sizeof note)
        memcpy((uint8_t *)&noting + at, &note, sizeof note);
}

/* A turn on the painted stack; gives the lowest byte that was written to. */
static const uint8_t *lowest(const struct face *face, const struct measured *measured)
{
    unsigned left = 0;
    the_face = face;
    the_case = measured;
    memset(area, PAINT, sizeof area);
    port_apart(make_turn, area + ROOM);
    while (left < ROOM && area[left] == PAINT)
        left++;
    return area + left;
}

/* Bytes of stack that a call takes. */
static unsigned stack_of(const struct face *face, const struct measured *measured)
{
    const uint8_t *low;
    lowest(&noting, measured);
    low = lowest(face, measured);
    return low < call_stack ? (unsigned)(call_stack - low) : 0;
}

/* Ticks of a turn. */
static unsigned ticks_of(const struct face *face, const struct measured *measured)
{
    unsigned from, to;
    SYST[2] = 0;
    while (SYST[2] == 0) {
    }
    from = SYST[2];
    turn(face, measured);
    to = SYST[2];
    if (to == 0 || to > from) {
        printf("%s: SysTick wrapped\n", measured->name);
        port_exit(1);
    }
    return from - to;
}

/* Instructions of a call: ticks of a turn, less those of one that does nothing. */
static unsigned each(unsigned ticks, unsigned calls)
{
    unsigned instructions = (ticks * 5 + 16) / 32;
    return 2 + (instructions + calls / 2) / calls;
}

int main(int words, char **word)
{
    static const struct face *const faces[] = {&proved, &plain_O2};
    unsigned i, face;
    (void)words, (void)word;
    SYST[1] = ALL;
    SYST[0] = 5;
    make_noting();
    if (!prepare(faces, 2))
        return 1;
    for (i = 0; i < case_count; i++) {
        unsigned ticks = ticks_of(&idle, &cases[i]);
        printf("%s", cases[i].name);
        for (face = 0; face < 2; face++)
            printf("|%u|%u", each(ticks_of(faces[face], &cases[i]) - ticks, cases[i].calls), stack_of(faces[face], &cases[i]));
        printf("\n");
    }
    return 0;
}
