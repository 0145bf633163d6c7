/* Instructions: the processor's trap flag stops the program after each one, natively and under the emulator alike. */
#include "measure.h"

enum { SIGTRAP = 5, WITH_CONTEXT = 4, TRAP_FLAG = 0x100 };

/* The C library's struct sigaction, and the places of the registers in its context. */
struct action {
    void (*handler)(int number, void *info, void *context);
    unsigned long mask[16];
    int flags;
    void (*restorer)(void);
};

enum { REGISTERS = 5, DX = 12, AT = 16 };

int sigaction(int number, const struct action *action, struct action *old);

/* Who is told of each instruction. */
static void (*told)(unsigned long at, unsigned long third);

/* The signal of a stop. */
static void stopped(int number, void *info, void *context)
{
    const unsigned long *registers = (const unsigned long *)context + REGISTERS;
    (void)number, (void)info;
    told(registers[AT], registers[DX]);
}

/* Sets or clears the trap flag, past the 128 bytes below the stack that the compiler may use. */
static void trap(bool on)
{
    unsigned long flags;
    __asm__ volatile("leaq -128(%%rsp), %%rsp\n\tpushfq\n\tpopq %0\n\tleaq 128(%%rsp), %%rsp" : "=r"(flags));
    flags = on ? flags | TRAP_FLAG : flags & ~(unsigned long)TRAP_FLAG;
    __asm__ volatile("leaq -128(%%rsp), %%rsp\n\tpushq %0\n\tpopfq\n\tleaq 128(%%rsp), %%rsp" : : "r"(flags) : "cc", "memory");
}

/* One turn to warm up, one in steps: on the stack apart, since some memcpy take more or fewer instructions by where they copy to. */
void step_turn(const struct face *face, const struct measured *measured, void (*seen)(unsigned long at, unsigned long third))
{
    struct action action = {stopped, {0}, WITH_CONTEXT, 0};
    told = seen;
    sigaction(SIGTRAP, &action, 0);
    turn(face, measured);
    trap(true);
    turn_apart(face, measured);
    trap(false);
}
