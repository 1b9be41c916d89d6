/* A console. On a board these two functions go to a serial port; in the emulator to its standard output. */
#ifndef CONSOLE_H
#define CONSOLE_H

/* Writes a text that ends with a byte 0. */
void console_put(const char *text);

/* Ends the run with a status, 0 for success. A board has none: there it waits for the next reset. */
void console_end(int status);

#endif
