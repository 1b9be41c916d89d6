/* Of the tests' own small library: trials/c/bare/bare.c. */
#ifndef BARE_STDLIB_H
#define BARE_STDLIB_H
#include <stddef.h>
unsigned long strtoul(const char *text, char **end, int base);
long atol(const char *text);
#endif
