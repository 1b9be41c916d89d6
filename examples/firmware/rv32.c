/* Start-up and console for a 32-bit RISC-V in the emulator. On a board the clocks are set before main, and the console is
 * a serial port. */
#include "console.h"
#include <stdint.h>
#include <string.h>

extern char bss_start[], bss_end[];
int main(int count, char **words);

/* A call of the emulator's semihosting: operation and argument in a0 and a1, between the two marks that it looks for. */
static int semihosting(int operation, const void *argument) {
    register int number __asm__("a0") = operation;
    register const void *given __asm__("a1") = argument;
    __asm__ volatile(".balign 16\n.option push\n.option norvc\nslli x0, x0, 0x1f\nebreak\nsrai x0, x0, 7\n.option pop"
                     : "+r"(number) : "r"(given) : "memory");
    return number;
}

void console_put(const char *text) {
    semihosting(0x04, text);
}

void console_end(int status) {
    for (;;)
        semihosting(0x18, (const void *)(uintptr_t)(status ? 0x20023 : 0x20026));
}

__attribute__((aligned(4), used)) static void fault(void) {
    console_put("a fault of the processor\n");
    console_end(1);
}

__attribute__((used)) static void begin(void) {
    memset(bss_start, 0, (size_t)(bss_end - bss_start));
    console_end(main(0, 0));
}

__attribute__((section(".start"), naked, used)) void reset(void);
void reset(void) {
    __asm__ volatile(".option push\n.option norelax\nla gp, __global_pointer$\n.option pop\nla sp, stack_top\n"
                     "la t0, fault\n.option push\n.option arch, +zicsr\ncsrw mtvec, t0\n.option pop\nj begin");
}
