/* A Cortex-M under qemu, with no C library: vectors, data and bss, semihosting. Nothing of this is the panel's. */
#include <stddef.h>
#include <stdint.h>
#include "port.h"

extern uint32_t data_from[], data_begin[], data_end[], bss_begin[], bss_end[], stack_top[];

enum { SYS_OPEN = 0x01, SYS_WRITE = 0x05, SYS_READ = 0x06, SYS_GET_CMDLINE = 0x15, SYS_EXIT_EXTENDED = 0x20, APPLICATION_EXIT = 0x20026, TO_READ = 0, TO_WRITE = 4 };
enum { WORDS = 6, LINE = 120 };

/* One semihosting call: qemu sees the breakpoint. */
static size_t semihosted(size_t call, const size_t *block)
{
    register size_t r0 __asm__("r0") = call;
    register const size_t *r1 __asm__("r1") = block;
    __asm__ volatile("bkpt 0xAB" : "+r"(r0) : "r"(r1) : "memory");
    return r0;
}

void port_exit(int status)
{
    size_t block[2] = {APPLICATION_EXIT, (size_t)status};
    semihosted(SYS_EXIT_EXTENDED, block);
    for (;;) {
    }
}

/* The terminal, opened. */
static size_t opened(size_t how)
{
    size_t block[3] = {(size_t)":tt", how, 3};
    return semihosted(SYS_OPEN, block);
}

void port_write(const void *bytes, unsigned count)
{
    static size_t terminal;
    if (terminal == 0)
        terminal = opened(TO_WRITE);
    size_t block[3] = {terminal, (size_t)bytes, count};
    if (semihosted(SYS_WRITE, block) != 0)
        port_exit(99);
}

unsigned port_read(void *bytes, unsigned count)
{
    static size_t terminal;
    if (terminal == 0)
        terminal = opened(TO_READ);
    size_t block[3] = {terminal, (size_t)bytes, count};
    return count - semihosted(SYS_READ, block);
}

__attribute__((naked)) const uint8_t *port_stack(void)
{
    __asm__ volatile("mov r0, sp\n\tbx lr");
}

void port_apart(void (*f)(void), void *top)
{
    register void (*r0)(void) __asm__("r0") = f;
    register void *r1 __asm__("r1") = top;
    __asm__ volatile("mov r4, sp\n\tmov sp, r1\n\tblx r0\n\tmov sp, r4" : "+r"(r0), "+r"(r1) : : "r2", "r3", "r4", "r12", "lr", "cc", "memory");
}

/* A fault ends the program. */
static void fault(void)
{
    port_write("FAULT\n", 6);
    port_exit(98);
}

/* SysTick's interrupt routine, if a program has one. */
__attribute__((weak)) void tick(void)
{
    fault();
}

/* The words of qemu's -semihosting-config arg=.. */
static char line[LINE];
static char *word[WORDS];

/* Cuts the line at its spaces. */
static int words_of_line(void)
{
    size_t block[2] = {(size_t)line, sizeof line};
    char *at = line;
    int words = 0;
    if (semihosted(SYS_GET_CMDLINE, block) != 0)
        return 0;
    while (*at && words < WORDS) {
        word[words++] = at;
        while (*at && *at != ' ')
            at++;
        while (*at == ' ')
            *at++ = 0;
    }
    return words;
}

/* The first code that runs. */
void begin(void);
void begin(void)
{
    uint32_t *to, *from = data_from;
    for (to = data_begin; to < data_end; to++)
        *to = *from++;
    for (to = bss_begin; to < bss_end; to++)
        *to = 0;
    port_exit(main(words_of_line(), word));
}

__attribute__((section(".vectors"), used)) static void (*const vectors[16])(void) = {
    (void (*)(void))stack_top, begin, fault, fault, fault, fault, fault, 0, 0, 0, 0, fault, fault, 0, fault, tick};
