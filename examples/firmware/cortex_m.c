/* Start-up and console for a Cortex-M in the emulator. On a board the vector table has the part's interrupts too, the
 * clocks are set before main, and the console is a serial port. */
#include "console.h"
#include <stdint.h>
#include <string.h>

extern char data_start[], data_end[], data_in_flash[], bss_start[], bss_end[], stack_top[];
int main(int count, char **words);

/* A call of the emulator's semihosting: operation and argument in r0 and r1. */
static int semihosting(int operation, const void *argument) {
    register int number __asm__("r0") = operation;
    register const void *given __asm__("r1") = argument;
    __asm__ volatile("bkpt 0xAB" : "+r"(number) : "r"(given) : "memory");
    return number;
}

void console_put(const char *text) {
    semihosting(0x04, text);
}

void console_end(int status) {
    for (;;)
        semihosting(0x18, (const void *)(status ? 0x20023 : 0x20026));
}

static void fault(void) {
    console_put("a fault of the processor\n");
    console_end(1);
}

void reset(void);
void reset(void) {
#ifdef __ARM_FP
    *(volatile uint32_t *)0xE000ED88 |= 0xF << 20; /* CPACR: the floating-point unit is on */
#endif
    memcpy(data_start, data_in_flash, (size_t)(data_end - data_start));
    memset(bss_start, 0, (size_t)(bss_end - bss_start));
    console_end(main(0, 0));
}

__attribute__((section(".vectors"), used)) static const void *const vectors[16] = {
    stack_top, (const void *)reset, (const void *)fault, (const void *)fault,
    (const void *)fault, (const void *)fault, (const void *)fault};
