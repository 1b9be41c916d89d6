/* Of the tests' own small library: trials/c/bare/bare.c. */
#ifndef BARE_STDIO_H
#define BARE_STDIO_H
#include <stddef.h>
int printf(const char *format, ...);
#endif
