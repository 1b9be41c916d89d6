/* An order over a scripted bus: the write's acknowledgement is lost, and the answer shows that the device
 * has the word. It prints each frame; trials/c/run.sh compares that with order.expected. */
#include "pmhost.h"
#include <stdio.h>

static void show(const char *name, const uint8_t *bytes, size_t count) {
    printf("%s", name);
    for (size_t i = 0; i < count; i++)
        printf(" %02X", bytes[i]);
    printf("\n");
}

int main(void) {
    static const uint8_t answer[] = {0xB1, 0x02, 0xCD, 0x34, 0xB9};
    pm_host host;
    pm_sending frame;
    pm_step step = {PM_UNKNOWN, 0};
    pm_standing standing;
    if (pm_host_size() != sizeof host || PM_HOST_SIZE != sizeof host || pm_host_version() != PM_HOST_VERSION)
        return 1;
    if (pm_host_new(&host, 0x58, 2, 2) || pm_host_no_limits(&host, 0) || pm_host_order(&host, 0, PM_VOUT_COMMAND, 0x34CD))
        return 1;
    do {
        pm_host_frame(&host, &frame);
        if (frame.kind == PM_WRITE) {
            show("write", frame.bytes, frame.length);
            step = pm_host_write_ended(&host, 0);
        } else {
            show("request", frame.bytes, frame.length);
            printf("wants %d bytes\n", frame.answer);
            step = pm_host_read_ended(&host, answer, sizeof answer);
        }
    } while (step.kind == PM_NEXT);
    if (pm_host_confirmed_word(&host, 0, PM_VOUT_COMMAND, &standing))
        return 1;
    printf("ended %d, %s %04X\n", step.kind, standing.is_confirmed == 1 ? "confirmed" : "unknown", standing.word);
    return 0;
}
