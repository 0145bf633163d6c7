/*
 * What compiled code calls where there is no C library: memcpy and the like, by Arm's names too (RTABI 4.3.4), and arithmetic that a processor has no
 * instruction for: division of 64 bits, which panel_pack alone of the module's calls needs, and division and products for test programs on a Cortex-M0.
 * Words are copied where both addresses may hold one, else bytes. Compiled with -fno-builtin.
 */
#include <stddef.h>
#include <stdint.h>

void *memcpy(void *to, const void *from, size_t count);
void *memmove(void *to, const void *from, size_t count);
void *memset(void *to, int byte, size_t count);
int memcmp(const void *a, const void *b, size_t count);

/* A Cortex-M0 has no unaligned word. */
#if defined(__arm__) && !defined(__ARM_FEATURE_UNALIGNED)
typedef uint32_t __attribute__((may_alias)) word;
#define TWO_WORDS(a, b) ((((size_t)(a) | (size_t)(b)) & 3) == 0)
#else
typedef uint32_t __attribute__((may_alias, aligned(1))) word;
#define TWO_WORDS(a, b) 1
#endif

void *memcpy(void *to, const void *from, size_t count)
{
    uint8_t *t = to;
    const uint8_t *f = from;
    if (TWO_WORDS(t, f)) {
        for (; count >= 4; count -= 4, t += 4, f += 4)
            *(word *)t = *(const word *)f;
    }
    while (count-- > 0)
        *t++ = *f++;
    return to;
}

void *memmove(void *to, const void *from, size_t count)
{
    uint8_t *t = to;
    const uint8_t *f = from;
    if ((size_t)to - (size_t)from >= count)
        return memcpy(to, from, count);
    while (count-- > 0)
        t[count] = f[count];
    return to;
}

void *memset(void *to, int byte, size_t count)
{
    uint8_t *t = to;
    if (TWO_WORDS(t, t)) {
        for (; count >= 4; count -= 4, t += 4)
            *(word *)t = (uint8_t)byte * 0x01010101u;
    }
    while (count-- > 0)
        *t++ = (uint8_t)byte;
    return to;
}

int memcmp(const void *a, const void *b, size_t count)
{
    const uint8_t *p = a, *q = b;
    for (; count > 0; count--, p++, q++) {
        if (*p != *q)
            return *p < *q ? -1 : 1;
    }
    return 0;
}

#if defined(__arm__)
#define COPIES(name) void name(void *to, const void *from, size_t count); void name(void *to, const void *from, size_t count) { memcpy(to, from, count); }
#define MOVES(name) void name(void *to, const void *from, size_t count); void name(void *to, const void *from, size_t count) { memmove(to, from, count); }
#define FILLS(name) void name(void *to, size_t count, int byte); void name(void *to, size_t count, int byte) { memset(to, byte, count); }
#define CLEARS(name) void name(void *to, size_t count); void name(void *to, size_t count) { memset(to, 0, count); }
COPIES(__aeabi_memcpy) COPIES(__aeabi_memcpy4) COPIES(__aeabi_memcpy8)
MOVES(__aeabi_memmove) MOVES(__aeabi_memmove4) MOVES(__aeabi_memmove8)
FILLS(__aeabi_memset) FILLS(__aeabi_memset4) FILLS(__aeabi_memset8)
CLEARS(__aeabi_memclr) CLEARS(__aeabi_memclr4) CLEARS(__aeabi_memclr8)

struct divided {
    uint64_t quotient;
    uint64_t rest;
};

void divided_by(uint64_t n, uint64_t d, struct divided *made);
void __aeabi_uldivmod(void);
uint64_t __aeabi_uidivmod(unsigned n, unsigned d);
unsigned __aeabi_uidiv(unsigned n, unsigned d);
uint64_t __aeabi_lmul(uint64_t a, uint64_t b);

/* Bit by bit. */
__attribute__((used)) void divided_by(uint64_t n, uint64_t d, struct divided *made)
{
    uint64_t quotient = 0, rest = 0;
    int left;
    for (left = 64; left > 0; left--, n <<= 1) {
        rest = rest << 1 | n >> 63;
        quotient <<= 1;
        if (rest >= d) {
            rest -= d;
            quotient |= 1;
        }
    }
    made->quotient = quotient;
    made->rest = rest;
}

/* Quotient in r0 and r1, remainder in r2 and r3. */
__attribute__((naked)) void __aeabi_uldivmod(void)
{
    __asm__ volatile("push {r7, lr}\n\tsub sp, #24\n\tadd r7, sp, #8\n\tstr r7, [sp]\n\tbl divided_by\n\t"
                     "ldr r0, [sp, #8]\n\tldr r1, [sp, #12]\n\tldr r2, [sp, #16]\n\tldr r3, [sp, #20]\n\tadd sp, #24\n\tpop {r7, pc}");
}

/* Quotient in r0, remainder in r1. */
uint64_t __aeabi_uidivmod(unsigned n, unsigned d)
{
    unsigned quotient = 0, rest = 0;
    int bit;
    for (bit = 31; bit >= 0; bit--) {
        rest = rest << 1 | (n >> bit & 1);
        if (rest >= d) {
            rest -= d;
            quotient |= 1u << bit;
        }
    }
    return (uint64_t)rest << 32 | quotient;
}

unsigned __aeabi_uidiv(unsigned n, unsigned d)
{
    return (unsigned)__aeabi_uidivmod(n, d);
}

/* Sums, bit by bit. */
uint64_t __aeabi_lmul(uint64_t a, uint64_t b)
{
    uint64_t sum = 0;
    for (; b > 0; b >>= 1, a <<= 1) {
        if (b & 1)
            sum += a;
    }
    return sum;
}
#endif
