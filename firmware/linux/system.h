/* System calls of Linux on aarch64, and the C functions that the console's program is proved over. Counts have 64 bits. */
#ifndef SYSTEM_H
#define SYSTEM_H

typedef __SIZE_TYPE__ size_t;
typedef __PTRDIFF_TYPE__ ssize_t;

#define SYSTEM_OPENAT 56
#define SYSTEM_CLOSE 57
#define SYSTEM_READ 63
#define SYSTEM_WRITE 64
#define SYSTEM_EXIT_GROUP 94
#define SYSTEM_SIGACTION 134

/* One system call: the kernel's own answer, an error's number negated if it failed. */
static inline long system_call(long number, long a, long b, long c, long d)
{
    register long x8 __asm__("x8") = number;
    register long x0 __asm__("x0") = a;
    register long x1 __asm__("x1") = b;
    register long x2 __asm__("x2") = c;
    register long x3 __asm__("x3") = d;

    __asm__ volatile("svc #0" : "+r"(x0) : "r"(x8), "r"(x1), "r"(x2), "r"(x3) : "memory", "cc");
    return x0;
}

ssize_t read(int from, void *bytes, size_t count);
ssize_t write(int to, const void *bytes, size_t count);
int close(int file);
int open(const char *path, int how, ...);
int rattle_errno(void);
void rattle_set_errno(int number);
size_t __sysv_signal(int signal, size_t handler);
size_t rattle_arg_count(void);
ssize_t rattle_arg(size_t i, unsigned char *buffer, size_t room);

void *memcpy(void *to, const void *from, size_t count);
void *memmove(void *to, const void *from, size_t count);
void *memset(void *to, int byte, size_t count);
int memcmp(const void *one, const void *other, size_t count);

#endif
