/* Start-up and console for a 64-bit ARM with no system, in the emulator: at the first exception level, with unaligned
 * accesses refused (SCTLR_EL1.A) and the floating-point unit off, as it comes out of reset. */
#include "console.h"
#include <stdint.h>
#include <string.h>

extern char bss_start[], bss_end[];
int main(int count, char **words);

static long semihosting(long operation, const void *argument) {
    register long number __asm__("x0") = operation;
    register const void *given __asm__("x1") = argument;
    __asm__ volatile("hlt #0xF000" : "+r"(number) : "r"(given) : "memory");
    return number;
}

void console_put(const char *text) {
    semihosting(0x04, text);
}

void console_end(int status) {
    const uint64_t why[2] = {0x20026, (uint64_t)status};
    for (;;)
        semihosting(0x18, why);
}

__attribute__((used)) static void fault(void) {
    console_put("a fault of the processor\n");
    console_end(1);
}

__attribute__((used)) static void begin(void) {
    memset(bss_start, 0, (size_t)(bss_end - bss_start));
    console_end(main(0, 0));
}

__asm__(".section .start, \"ax\"\n.global reset\nreset:\n"
        "ldr x0, =stack_top\nmov sp, x0\nldr x0, =faults\nmsr vbar_el1, x0\n"
        "mrs x0, sctlr_el1\norr x0, x0, #2\nmsr sctlr_el1, x0\nisb\nb begin\n"
        ".balign 2048\nfaults:\n.rept 16\nb fault\n.balign 128\n.endr\n.text\n");
