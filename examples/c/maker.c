/* A converter's own firmware over the model part, as its PMBus target: two outputs, whose loops are told what they have to hold. A
 * driver of the I2C peripheral calls `stopped` and `restarted` at a stop and at a repeated start, with the bytes since the start,
 * the address byte first; here main calls them with the frames of a host. */
#include "pmpart.h"
#include <stdio.h>
#include <string.h>

static pm_part part;
static pm_target target;

/* The control loop of an output gets a new voltage, or is switched off. On a converter it writes a DAC. */
static void set_loop(void *context, uint8_t output, uint8_t is_on, int64_t microvolts) {
    (void)context;
    if (is_on)
        printf("loop %d holds %ld uV\n", output, (long)microvolts);
    else
        printf("loop %d is off\n", output);
}

/* A stop: a write, which the part takes or refuses. A refused one is noted in STATUS_CML. */
static void stopped(const uint8_t *bytes, uint64_t count) {
    pm_part_reply reply;
    if (pm_target_hear(&target, bytes, count, 0, &reply) != PM_HEARD_TAKEN)
        printf("not taken\n");
}

/* A repeated start: a request, whose answer is sent, the packet error code last. */
static void restarted(const uint8_t *bytes, uint64_t count) {
    pm_part_reply reply;
    if (pm_target_hear(&target, bytes, count, 1, &reply) == PM_HEARD_ANSWERED)
        for (int i = 1; i < reply.length; i++)
            printf("%02X%c", reply.bytes[i], i + 1 < reply.length ? ' ' : '\n');
}

int main(void) {
    pm_part_config config;
    const pm_part_output start = {0x14, 0, 0x80, 0x1000, 0x4000, 0x1100, 0x0F00, 0}; /* ULINEAR16 -12, on, 1 V */
    const uint8_t order[] = {0xB0, 0x05, 0x04, 0x01, 0x21, 0xCD, 0x34, 0x4C}; /* 3.3 V of output 1, by PAGE_PLUS_WRITE */
    const uint8_t without_pec[] = {0xB0, 0x05, 0x04, 0x00, 0x21, 0xCD, 0x34};
    const uint8_t read_back[] = {0xB0, 0x06, 0x02, 0x01, 0x21};
    const uint8_t off[] = {0xB0, 0x05, 0x03, 0x01, 0x01, 0x00, 0xE0}; /* OPERATION of output 1 */
    memset(&config, 0, sizeof config);
    config.address = 0x58, config.outputs = 2, config.m = 1;
    config.starts[0] = config.starts[1] = start;
    if (pm_part_size() != sizeof part || pm_part_new(&part, &config) != PM_PART_OK)
        return 1;
    pm_target_begin(&target, &part, config.outputs, set_loop, 0);
    stopped(order, sizeof order);
    stopped(without_pec, sizeof without_pec);
    restarted(read_back, sizeof read_back);
    stopped(off, sizeof off);
    return 0;
}
