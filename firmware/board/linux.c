/* The same on Linux, x86-64 and aarch64, with no C library: the first code, and three system calls. */
#include "port.h"

#if defined(__x86_64__)
enum { SYS_READ = 0, SYS_WRITE = 1, SYS_EXIT = 231 };
__asm__(".globl _start\n_start:\n\txor %ebp, %ebp\n\tmov %rsp, %rdi\n\tand $-16, %rsp\n\tcall begin\n");

/* One system call. */
static long asked(long call, long a, long b, long c)
{
    __asm__ volatile("syscall" : "+a"(call) : "D"(a), "S"(b), "d"(c) : "rcx", "r11", "memory");
    return call;
}
#elif defined(__aarch64__)
enum { SYS_READ = 63, SYS_WRITE = 64, SYS_EXIT = 94 };
__asm__(".globl _start\n_start:\n\tmov x29, #0\n\tmov x30, #0\n\tmov x0, sp\n\tb begin\n");

/* One system call. */
static long asked(long call, long a, long b, long c)
{
    register long x8 __asm__("x8") = call;
    register long x0 __asm__("x0") = a;
    register long x1 __asm__("x1") = b;
    register long x2 __asm__("x2") = c;
    __asm__ volatile("svc #0" : "+r"(x0) : "r"(x8), "r"(x1), "r"(x2) : "memory");
    return x0;
}
#endif

void port_exit(int status)
{
    for (;;)
        asked(SYS_EXIT, status, 0, 0);
}

void port_write(const void *bytes, unsigned count)
{
    const char *at = bytes;
    while (count > 0) {
        long n = asked(SYS_WRITE, 1, (long)at, count);
        if (n <= 0)
            port_exit(99);
        at += n;
        count -= (unsigned)n;
    }
}

unsigned port_read(void *bytes, unsigned count)
{
    long n = asked(SYS_READ, 0, (long)bytes, count);
    if (n < 0)
        port_exit(99);
    return (unsigned)n;
}

const uint8_t *port_stack(void)
{
    return 0;
}

/* The system leaves on the stack: how many words, and the words. */
void begin(long *stack);
void begin(long *stack)
{
    port_exit(main((int)stack[0], (char **)(stack + 1)));
}
