/* The start of a program on Linux for aarch64 where there is no C library, and its words: those of the library os, which on x86-64 stand in the toolchain's libos_c.a. */
#include "system.h"

int main(int count, char **words, char **environment);
__attribute__((noreturn, used)) void begin(long *stack);

static int count;
static char **words;

/* The kernel starts a program here. Of the stack it leaves the words' count, the words, a null pointer, the environment and another. */
__asm__(".globl _start\n"
        ".type _start, %function\n"
        "_start:\n"
        "    mov x29, #0\n"
        "    mov x30, #0\n"
        "    mov x0, sp\n"
        "    b begin\n"
        ".size _start, . - _start\n");

/* What main gives is the exit status, as with a C library. */
void begin(long *stack)
{
    int status;

    count = (int)stack[0];
    words = (char **)(stack + 1);
    status = main(count, words, words + count + 1);
    for (;;)
        system_call(SYSTEM_EXIT_GROUP, status, 0, 0, 0);
}

/* What is done at a signal from now on, which is 1 where it is to be ignored, as a program asks of the signal of a broken pipe. What was done before; -1 if it can't be. */
size_t __sysv_signal(int signal, size_t handler)
{
    struct {
        size_t handler, flags, restorer, mask;
    } now = {handler, 0, 0, 0}, before;

    return system_call(SYSTEM_SIGACTION, signal, (long)&now, (long)&before, sizeof now.mask) < 0 ? (size_t)-1 : before.handler;
}

size_t rattle_arg_count(void) { return (size_t)count; }

/* Word i goes to the start of the buffer, without the 0 that ends it. Its length; -1 if there is no such word; -2 if it is too long, and then the buffer is full. */
ssize_t rattle_arg(size_t i, unsigned char *buffer, size_t room)
{
    size_t n;

    if (i >= (size_t)count)
        return -1;
    for (n = 0; words[i][n] != 0; n++) {
        if (n == room)
            return -2;
        buffer[n] = (unsigned char)words[i][n];
    }
    return (ssize_t)n;
}
