/* As much of a C library as the programs of the tests take, for processors that come without one: printf, strtoul and
 * atol here, and with BARE_MEMORY the functions on bytes that compilers call. What it prints goes to the console. */
#include "console.h"
#include <stdarg.h>
#include <stddef.h>
#include <stdint.h>

#ifdef BARE_MEMORY
void *memcpy(void *to, const void *from, size_t count) {
    for (size_t i = 0; i < count; i++)
        ((volatile uint8_t *)to)[i] = ((const uint8_t *)from)[i];
    return to;
}

void *memmove(void *to, const void *from, size_t count) {
    if ((uintptr_t)to <= (uintptr_t)from)
        return memcpy(to, from, count);
    while (count--)
        ((volatile uint8_t *)to)[count] = ((const uint8_t *)from)[count];
    return to;
}

void *memset(void *to, int byte, size_t count) {
    for (size_t i = 0; i < count; i++)
        ((volatile uint8_t *)to)[i] = (uint8_t)byte;
    return to;
}
#endif

static char line[256];
static unsigned held;

static void flush(void) {
    line[held] = 0;
    console_put(line);
    held = 0;
}

static void put(char byte) {
    line[held++] = byte;
    if (byte == '\n' || held == sizeof line - 1)
        flush();
}

static void put_digits(unsigned long number, unsigned base, unsigned width, char pad) {
    char digits[24];
    unsigned count = 0;
    do {
        digits[count++] = "0123456789ABCDEF"[number % base];
        number /= base;
    } while (number);
    for (unsigned i = count; i < width; i++)
        put(pad);
    while (count)
        put(digits[--count]);
}

/* One conversion: `%`, `0` and a width, `l`, and one of d u X s c. Answers where the format goes on. */
static const char *convert(const char *at, va_list *rest) {
    unsigned width = 0, is_long = 0;
    char pad = *at == '0' ? '0' : ' ';
    for (; *at >= '0' && *at <= '9'; at++)
        width = width * 10 + (unsigned)(*at - '0');
    for (; *at == 'l'; at++)
        is_long = 1;
    long number = 0;
    if (*at == 'd') {
        number = is_long ? va_arg(*rest, long) : va_arg(*rest, int);
        if (number < 0)
            put('-');
        put_digits(number < 0 ? 0 - (unsigned long)number : (unsigned long)number, 10, width, pad);
    } else if (*at == 'u' || *at == 'X') {
        unsigned long whole = is_long ? va_arg(*rest, unsigned long) : va_arg(*rest, unsigned);
        put_digits(whole, *at == 'u' ? 10 : 16, width, pad);
    } else if (*at == 's') {
        for (const char *text = va_arg(*rest, const char *); *text; text++)
            put(*text);
    } else if (*at == 'c') {
        put((char)va_arg(*rest, int));
    }
    return at + 1;
}

int printf(const char *format, ...) {
    va_list rest;
    va_start(rest, format);
    while (*format)
        if (*format == '%')
            format = convert(format + 1, &rest);
        else
            put(*format++);
    va_end(rest);
    return 0;
}

/* What compilers make of a printf with nothing to convert. */
int puts(const char *text) {
    return printf("%s\n", text);
}

int putchar(int byte) {
    put((char)byte);
    return byte;
}

unsigned long strtoul(const char *text, char **end, int base) {
    unsigned long number = 0;
    for (; *text >= '0' && *text <= '9'; text++)
        number = number * (unsigned long)base + (unsigned long)(*text - '0');
    if (end)
        *end = (char *)text;
    return number;
}

long atol(const char *text) {
    return (long)strtoul(text, 0, 10);
}
