/* Files, by Linux's system calls on aarch64: what the C library's functions of these names do, and those of the library os, which on x86-64 stand in the toolchain's libos_c.a. */
#include "system.h"

/* A path is taken from the working folder on. How a file is opened has the same numbers as on x86-64, as far as the library os asks for them. */
#define FROM_HERE (-100)

/* Why the last call failed that did. */
static int error;

/* What C answers: -1 for a call that failed, and the error's number is kept. */
static long answered(long said)
{
    if (said >= 0)
        return said;
    error = (int)-said;
    return -1;
}

/* The mode stands there where the file may be made; elsewhere the kernel doesn't look at it. */
int open(const char *path, int how, ...)
{
    __builtin_va_list rest;
    unsigned mode;

    __builtin_va_start(rest, how);
    mode = __builtin_va_arg(rest, unsigned);
    __builtin_va_end(rest);
    return (int)answered(system_call(SYSTEM_OPENAT, FROM_HERE, (long)path, how, (long)mode));
}

ssize_t read(int from, void *bytes, size_t count) { return answered(system_call(SYSTEM_READ, from, (long)bytes, (long)count, 0)); }
ssize_t write(int to, const void *bytes, size_t count) { return answered(system_call(SYSTEM_WRITE, to, (long)bytes, (long)count, 0)); }
int close(int file) { return (int)answered(system_call(SYSTEM_CLOSE, file, 0, 0, 0)); }

int rattle_errno(void) { return error; }
void rattle_set_errno(int number) { error = number; }
