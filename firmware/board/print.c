/* A line of text, and a word that is a number. */
#include "port.h"

enum { DIGITS = 10 };

unsigned number_of(const char *word)
{
    unsigned n = 0;
    while (*word >= '0' && *word <= '9')
        n = 10 * n + (unsigned)(*word++ - '0');
    return n;
}

/* The text, padded to a width. */
static void put(const char *text, unsigned width, int on_the_right)
{
    unsigned length = 0;
    while (text[length])
        length++;
    if (on_the_right)
        port_write(text, length);
    for (; width > length; width--)
        port_write(" ", 1);
    if (!on_the_right)
        port_write(text, length);
}

/* A number's digits, at the end of the room; gives where they begin. */
static const char *digits(unsigned n, char *room)
{
    char *at = room + DIGITS;
    *at = 0;
    do {
        *--at = (char)('0' + n % 10);
        n /= 10;
    } while (n > 0);
    return at;
}

int printf(const char *format, ...)
{
    __builtin_va_list given;
    char room[DIGITS + 1];
    __builtin_va_start(given, format);
    for (; *format; format++) {
        unsigned width = 0;
        int on_the_right = 0;
        if (*format != '%') {
            port_write(format, 1);
            continue;
        }
        if (*++format == '-')
            on_the_right = 1, format++;
        for (; *format >= '0' && *format <= '9'; format++)
            width = 10 * width + (unsigned)(*format - '0');
        if (*format == 's')
            put(__builtin_va_arg(given, const char *), width, on_the_right);
        else if (*format == 'u')
            put(digits(__builtin_va_arg(given, unsigned), room), width, on_the_right);
        else
            port_write(format, 1);
    }
    __builtin_va_end(given);
    return 0;
}
