/* The console of a program under an operating system, for a first run with no board and no emulator. */
#include "console.h"
#include <stdio.h>
#include <stdlib.h>

void console_put(const char *text) {
    fputs(text, stdout);
}

void console_end(int status) {
    exit(status);
}
