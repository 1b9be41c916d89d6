/* The firmware for two rails that docs/c.md shows, over the part in the field: what it answers, at how many microvolts the rails are then, and
 * whether the way up had its five seconds at most, and the way down two. A transfer that fails takes 35 ms. */
#include <inttypes.h>
#include <stdio.h>

#include "field.h"

int bring_up(void);
uint8_t write_to_bus(void *context, const uint8_t *bytes, uint64_t count);
uint64_t read_from_bus(void *context, const uint8_t *request, uint64_t count, uint8_t *answer, uint64_t room);
uint32_t milliseconds(void *context);
void wait_for(void *context, uint32_t milliseconds);

enum { FAILED = 35000, MOST = 7000 }; /* microseconds of a transfer that fails; milliseconds of both ways */

static field_part part;

uint8_t write_to_bus(void *context, const uint8_t *bytes, uint64_t count) {
    (void)context;
    uint8_t answer = field_write(&part, bytes, count);
    part.now += answer == 0xA5 ? 0 : FAILED;
    return answer;
}

uint64_t read_from_bus(void *context, const uint8_t *request, uint64_t count, uint8_t *answer, uint64_t room) {
    (void)context;
    uint64_t came = field_read(&part, request, count, answer, room);
    part.now += came != 0 ? 0 : FAILED;
    return came;
}

uint32_t milliseconds(void *context) {
    (void)context;
    return (uint32_t)(part.now / 1000);
}

void wait_for(void *context, uint32_t milliseconds) {
    (void)context;
    part.now += 1000 * (uint64_t)milliseconds;
}

/* The rails begin off, at 1 V. A row sets one thing more of the second one, or of the part. */
static void row(const char *name, uint8_t output, const char *what, int64_t value) {
    int64_t volts[2] = {0, 0};
    int ended;
    if (field_new(&part, 0x58, 2) || field_set(&part, 0, "OPERATION", 0) || field_set(&part, 1, "OPERATION", 0) ||
        field_set(&part, output, what, value))
        return;
    part.away_for = 100000;
    ended = bring_up();
    for (uint8_t at = 0; at < 2; at++)
        (void)field_get(&part, at, "microvolts", &volts[at]);
    printf("%s: %d, %" PRId64 " %" PRId64 "%s\n", name, ended, volts[0], volts[1], milliseconds(NULL) > MOST ? ", late" : "");
}

int main(void) {
    row("nothing is wrong", 1, "ramp_ms", 0);
    row("a slow ramp", 1, "on_ms", 300);
    row("the second rail trips", 1, "VOUT_UV_FAULT_LIMIT", 0x1E00);
    row("a fault limit is too near", 1, "VOUT_OV_FAULT_LIMIT", 0x1C00);
    row("the RUN pin of the first is low", 0, "is_run_low", 1);
    row("OPERATION turns the second rail neither on nor off", 1, "ON_OFF_CONFIG", 0x16);
    row("there is no ON_OFF_CONFIG", 0, "lacks", 0x02);
    row("writes are refused", 0, "WRITE_PROTECT", 0x80);
    row("the bus goes away for ever", 0, "away_at_write", 2);
    row("the bus goes away with the first rail on", 0, "away_at_write", 3);
    for (int64_t at = 10; at < 100; at += 10) {
        char name[40];
        (void)snprintf(name, sizeof name, "a restart at frame %d", (int)at);
        row(name, 0, "restart_at", at);
    }
    return 0;
}
