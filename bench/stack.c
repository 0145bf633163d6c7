/* A stack apart, which lies in its page alike in every run: painted before a turn, it tells how much of it the turn wrote to. */
#include "measure.h"

enum { ROOM = 1 << 17, PAINT = 0xA5 };

void *memset(void *to, int byte, size_t count);

/* The stack. */
static uint8_t area[ROOM] __attribute__((aligned(64)));

/* What is to be run there. */
struct work {
    const struct face *face;
    const struct measured *measured;
};

/* A turn, as a function of one argument. */
static void make_turn(void *given)
{
    const struct work *asked = given;
    turn(asked->face, asked->measured);
}

/* Calls f on that stack. */
static void call_there(void (*f)(void *given), void *given)
{
    __asm__ volatile("movq %%rsp, %%rbx\n\tmovq %1, %%rsp\n\tcallq *%2\n\tmovq %%rbx, %%rsp"
                     : "+D"(given)
                     : "r"(area + ROOM), "r"(f)
                     : "rax", "rbx", "rcx", "rdx", "rsi", "r8", "r9", "r10", "r11", "xmm0", "xmm1", "xmm2", "xmm3", "xmm4", "xmm5", "xmm6", "xmm7", "xmm8", "xmm9", "xmm10", "xmm11", "xmm12", "xmm13", "xmm14", "xmm15", "cc", "memory");
}

void turn_apart(const struct face *face, const struct measured *measured)
{
    struct work asked;
    asked.face = face;
    asked.measured = measured;
    call_there(make_turn, &asked);
}

/* One turn to warm up, one on the paint. */
unsigned stack_of(const struct face *face, const struct measured *measured)
{
    unsigned left = 0;
    turn(face, measured);
    memset(area, PAINT, sizeof area);
    turn_apart(face, measured);
    while (left < ROOM && area[left] == PAINT)
        left++;
    return ROOM - left;
}
