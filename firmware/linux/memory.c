/* The four functions that clang may call from anything that it compiles, where there is no C library. With -ffreestanding it makes no such call of these loops. */
#include "system.h"

void *memcpy(void *to, const void *from, size_t count)
{
    unsigned char *t = to;
    const unsigned char *f = from;

    while (count-- > 0)
        *t++ = *f++;
    return to;
}

/* The two may overlap: what is read last must not have been written. */
void *memmove(void *to, const void *from, size_t count)
{
    unsigned char *t = to;
    const unsigned char *f = from;

    if (t < f)
        return memcpy(to, from, count);
    while (count-- > 0)
        t[count] = f[count];
    return to;
}

void *memset(void *to, int byte, size_t count)
{
    unsigned char *t = to;

    while (count-- > 0)
        *t++ = (unsigned char)byte;
    return to;
}

int memcmp(const void *one, const void *other, size_t count)
{
    const unsigned char *a = one, *b = other;

    for (; count > 0; count--, a++, b++)
        if (*a != *b)
            return *a - *b;
    return 0;
}
