/* The C functions that the console's program declares, where there is a terminal, no file and no word behind the program's name. */
#include "port.h"

typedef __INT64_TYPE__ signed_word;

signed_word read(int file, void *bytes, uint64_t count);
signed_word write(int file, const void *bytes, uint64_t count);
int close(int file);
int open(const char *name, int how, ...);
int rattle_errno(void);
void rattle_set_errno(int number);
signed_word rattle_arg(uint64_t place, void *bytes, uint64_t count);
signed_word __write(int file, const void *bytes, uint64_t count);
signed_word __sysv_signal(int number, signed_word handler);
const uint8_t *__x86_get_cpuid_feature_leaf(unsigned leaf);

static int error;

signed_word read(int file, void *bytes, uint64_t count)
{
    return file == 0 ? (signed_word)port_read(bytes, (unsigned)count) : -1;
}

signed_word write(int file, const void *bytes, uint64_t count)
{
    if (file != 1)
        return -1;
    port_write(bytes, (unsigned)count);
    return (signed_word)count;
}

int close(int file)
{
    (void)file;
    return -1;
}

int open(const char *name, int how, ...)
{
    (void)name, (void)how;
    return -1;
}

int rattle_errno(void)
{
    return error;
}

void rattle_set_errno(int number)
{
    error = number;
}

signed_word rattle_arg(uint64_t place, void *bytes, uint64_t count)
{
    (void)place, (void)bytes, (void)count;
    return -1;
}

/* There is no signal of a broken pipe to be ignored. */
signed_word __sysv_signal(int number, signed_word handler)
{
    (void)number, (void)handler;
    return 0;
}

/* A program that is made for x86-64 asks first whether the processor has all that the code is compiled for, and says so here if it hasn't. This code is compiled for this processor. */
const uint8_t *__x86_get_cpuid_feature_leaf(unsigned leaf)
{
    static const uint8_t all[32] = {
        255, 255, 255, 255, 255, 255, 255, 255, 255, 255, 255, 255, 255, 255, 255, 255,
        255, 255, 255, 255, 255, 255, 255, 255, 255, 255, 255, 255, 255, 255, 255, 255,
    };

    (void)leaf;
    return all;
}

signed_word __write(int file, const void *bytes, uint64_t count)
{
    return write(file, bytes, count);
}
