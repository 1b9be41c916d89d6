/* Of the tests' own small library: trials/c/bare/bare.c. */
#ifndef BARE_STDARG_H
#define BARE_STDARG_H
typedef __builtin_va_list va_list;
#define va_start(list, last) __builtin_va_start(list, last)
#define va_arg(list, type) __builtin_va_arg(list, type)
#define va_end(list) __builtin_va_end(list)
#endif
