/* The little that a test program needs of where it runs: bytes out and in, the end, and a line of text. */
#ifndef PORT_H
#define PORT_H

#include <stdint.h>

void port_write(const void *bytes, unsigned count);

/* Gives how many came, 0 at the end. */
unsigned port_read(void *bytes, unsigned count);
__attribute__((noreturn)) void port_exit(int status);

/* Where a call made here would begin its stack; and f, called with a stack that begins at `top`. Only on a Cortex-M. */
const uint8_t *port_stack(void);
void port_apart(void (*f)(void), void *top);

/* %s, %u and %%, with a width: padded on the left, or with - on the right. It gives nothing. */
int printf(const char *format, ...);

/* What a program is given: decimal numbers. A program has at most four words behind its name. */
unsigned number_of(const char *word);

int main(int words, char **word);

#endif
