/* Of the tests' own small library: trials/c/bare/bare.c. */
#ifndef BARE_STDDEF_H
#define BARE_STDDEF_H
typedef __SIZE_TYPE__ size_t;
typedef __PTRDIFF_TYPE__ ptrdiff_t;
#define NULL ((void *)0)
#endif
