/* A bus over a HAL as STM32's: 0 is success, addresses are shifted, a repeated start has calls of its own. It drives a model part,
 * rightly, and then with each of eight mistakes. A line says what a learn, an order of 3.3 V and a store came to, and what the
 * store came to where no part is there; what only looks done stands behind an exclamation mark. */
#include "pmhost.h"
#include "pmpart.h"
#include <stdio.h>
#include <string.h>

/* ---- The HAL, over a part: it acknowledges what is sent to its address, as most parts do. ---- */

typedef enum { HAL_OK = 0, HAL_ERROR = 1 } hal_status;
typedef struct {
    pm_part part;
    int is_there;
    pm_part_reply reply;
} hal_bus;

static hal_status hal_sent(hal_bus *bus, uint16_t address, const uint8_t *data, uint16_t size, uint8_t is_first) {
    uint8_t frame[32] = {(uint8_t)address};
    if (!bus->is_there || address != 0xB0 || size > 30)
        return HAL_ERROR;
    memcpy(frame + 1, data, size);
    (void)pm_part_hear(&bus->part, frame, size + 1u, is_first, &bus->reply);
    return HAL_OK;
}

/* Sends, and then a stop. */
static hal_status hal_transmit(hal_bus *bus, uint16_t address, uint8_t *data, uint16_t size) {
    return hal_sent(bus, address, data, size, 0);
}

/* Sends as the first frame of a sequence: a repeated start may follow (I2C_FIRST_FRAME). */
static hal_status hal_transmit_first(hal_bus *bus, uint16_t address, uint8_t *data, uint16_t size) {
    return hal_sent(bus, address, data, size, 1);
}

/* Receives as the last frame (I2C_LAST_FRAME): a part that has nothing to say leaves the line alone, which reads as ones. */
static hal_status hal_receive_last(hal_bus *bus, uint16_t address, uint8_t *data, uint16_t size) {
    uint16_t count = bus->reply.length > 0 ? (uint16_t)(bus->reply.length - 1) : 0;
    if (!bus->is_there || address != 0xB1)
        return HAL_ERROR;
    memset(data, 0xFF, size);
    memcpy(data, bus->reply.bytes + 1, count < size ? count : size);
    bus->reply.length = 0;
    return HAL_OK;
}

/* ---- The bus that pm_host_run wants ---- */

static uint8_t write_to_bus(void *context, const uint8_t *bytes, uint64_t count) {
    uint8_t data[16]; /* the HAL sends the address by itself; the last of the bytes is the PEC */
    memcpy(data, bytes + 1, count - 1);
    return hal_transmit((hal_bus *)context, bytes[0], data, (uint16_t)(count - 1)) == HAL_OK ? PM_ACKED : PM_NOT_ACKED;
}

static uint64_t read_from_bus(void *context, const uint8_t *request, uint64_t count, uint8_t *answer, uint64_t room) {
    uint8_t data[16];
    memcpy(data, request + 1, count - 1);
    if (hal_transmit_first((hal_bus *)context, request[0], data, (uint16_t)(count - 1)) != HAL_OK ||
        hal_receive_last((hal_bus *)context, request[0] | 1, answer, (uint16_t)room) != HAL_OK)
        return 0;
    return room;
}

/* ---- The same with a mistake each ---- */

static uint8_t with_address_twice(void *context, const uint8_t *bytes, uint64_t count) {
    uint8_t data[16];
    memcpy(data, bytes, count);
    return hal_transmit((hal_bus *)context, bytes[0], data, (uint16_t)count) == HAL_OK ? PM_ACKED : PM_NOT_ACKED;
}

static uint8_t with_status_handed_on(void *context, const uint8_t *bytes, uint64_t count) {
    uint8_t data[16];
    memcpy(data, bytes + 1, count - 1);
    return (uint8_t)hal_transmit((hal_bus *)context, bytes[0], data, (uint16_t)(count - 1));
}

static uint8_t with_another_pec(void *context, const uint8_t *bytes, uint64_t count) {
    uint8_t data[17] = {0};
    memcpy(data, bytes + 1, count - 1);
    data[count - 1] = 0x07; /* the adapter's own, behind the host's */
    return hal_transmit((hal_bus *)context, bytes[0], data, (uint16_t)count) == HAL_OK ? PM_ACKED : PM_NOT_ACKED;
}

static uint8_t without_the_shift(void *context, const uint8_t *bytes, uint64_t count) {
    uint8_t data[16];
    memcpy(data, bytes + 1, count - 1);
    return hal_transmit((hal_bus *)context, bytes[0] >> 1, data, (uint16_t)(count - 1)) == HAL_OK ? PM_ACKED : PM_NOT_ACKED;
}

static uint64_t with_a_stop(void *context, const uint8_t *request, uint64_t count, uint8_t *answer, uint64_t room) {
    uint8_t data[16];
    memcpy(data, request + 1, count - 1);
    if (hal_transmit((hal_bus *)context, request[0], data, (uint16_t)(count - 1)) != HAL_OK ||
        hal_receive_last((hal_bus *)context, request[0] | 1, answer, (uint16_t)room) != HAL_OK)
        return 0;
    return room;
}

static uint64_t with_address_in_front(void *context, const uint8_t *request, uint64_t count, uint8_t *answer, uint64_t room) {
    uint8_t came[16];
    uint64_t got = read_from_bus(context, request, count, came, room);
    answer[0] = request[0] | 1;
    memcpy(answer + 1, came, room - 1);
    return got;
}

static uint64_t with_true_for_a_count(void *context, const uint8_t *request, uint64_t count, uint8_t *answer, uint64_t room) {
    return read_from_bus(context, request, count, answer, room) != 0;
}

static uint64_t with_failures_unseen(void *context, const uint8_t *request, uint64_t count, uint8_t *answer, uint64_t room) {
    (void)read_from_bus(context, request, count, answer, room);
    return room;
}

static const struct {
    const char *name;
    pm_write write;
    pm_read read;
} drivers[] = {
    {"right", write_to_bus, read_from_bus},
    {"the address byte is sent as data too", with_address_twice, read_from_bus},
    {"the HAL's status is handed on", with_status_handed_on, read_from_bus},
    {"the adapter adds a PEC of its own", with_another_pec, read_from_bus},
    {"a stop stands for the repeated start", write_to_bus, with_a_stop},
    {"the read address stands before the answer", write_to_bus, with_address_in_front},
    {"the address isn't shifted", without_the_shift, read_from_bus},
    {"true is answered for a count", write_to_bus, with_true_for_a_count},
    {"a read that failed isn't looked at", write_to_bus, with_failures_unseen},
};

static const char *end_of(pm_step step) {
    switch (step.kind) {
    case PM_DONE: return "done";
    case PM_DIFFERS: return "differs";
    case PM_LEARNED: return "learned";
    default: return "unknown";
    }
}

/* The end of a store, and whether it is told as done though the part's store doesn't have the word. */
static void store(pm_host *host, hal_bus *bus, unsigned driver) {
    uint16_t stored = 0;
    pm_step step = {PM_UNKNOWN, 0};
    if (pm_host_store(host) == PM_OK)
        step = pm_host_run(host, drivers[driver].write, drivers[driver].read, bus);
    (void)pm_part_stored_word(&bus->part, 0, PM_VOUT_COMMAND, &stored);
    printf(", store %s%s", end_of(step), step.kind == PM_DONE && stored != 0x34CD ? "!" : "");
}

int main(void) {
    static hal_bus bus;
    static pm_host host;
    pm_part_config config;
    pm_part_output start = {0x14, 0, 0x80, 0x1000, 0x4000, 0x1100, 0x0F00, 0};
    memset(&config, 0, sizeof config);
    config.address = 0x58, config.outputs = 1, config.m = 1;
    config.starts[0] = start;
    for (unsigned driver = 0; driver < sizeof drivers / sizeof *drivers; driver++) {
        pm_write write = drivers[driver].write;
        pm_read read = drivers[driver].read;
        pm_step learned = {PM_UNKNOWN, 0}, ordered = {PM_UNKNOWN, 0};
        if (pm_part_new(&bus.part, &config) != PM_PART_OK || pm_host_new(&host, 0x58, 1, 3) != PM_OK ||
            pm_host_no_limits(&host, 0) != PM_OK)
            return 1;
        bus.is_there = 1;
        if (pm_host_learn(&host, 0) == PM_OK)
            learned = pm_host_run(&host, write, read, &bus);
        if (pm_host_order(&host, 0, PM_VOUT_COMMAND, 0x34CD) == PM_OK)
            ordered = pm_host_run(&host, write, read, &bus);
        printf("%s: learn %s, order %s", drivers[driver].name, end_of(learned), end_of(ordered));
        store(&host, &bus, driver);
        if (pm_part_new(&bus.part, &config) != PM_PART_OK)
            return 1;
        bus.is_there = 0;
        printf("; with no part");
        store(&host, &bus, driver);
        printf("\n");
    }
    return 0;
}
