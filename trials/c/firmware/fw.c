/* Firmwares: FW 1 an order within limits; 2 one course to a voltage; 3 a list of four rails that are looked at. 0 none of the library. */
#include "bus.h"
#include "console.h"
#include "pmhost.h"
extern unsigned bus_transfers;
static uint8_t put(void *c, const uint8_t *b, uint64_t n) { (void)c; return bus_write(b, (unsigned)n); }
static uint64_t ask(void *c, const uint8_t *r, uint64_t n, uint8_t *a, uint64_t room) { (void)c; return bus_read(r, (unsigned)n, a, (unsigned)room); }
#if FW > 0
static pm_host host;
#endif
#if FW == 3
static void pause(void *c, uint32_t milliseconds) { (void)c; (void)milliseconds; }
static pm_host second;
static pm_sequence_step steps[8];
static pm_sequence_record records[8];
static pm_sequence sequence;
#endif
__attribute__((noinline)) int work(int round) {
#if FW == 0
    uint8_t b[8] = {0xB0, 6, 2, 0, 0x21, 0, 0, 0};
    return round + (int)put(0, b, 8) + (int)ask(0, b, 5, b, 4) == 0;
#endif
#if FW == 1
    if (!round) {
        if (pm_host_new(&host, 0x58, 1, 3) || pm_host_set_limits(&host, 0, 800000, 3500000)) return 1;
        if (pm_host_learn(&host, 0) || pm_host_run(&host, put, ask, 0).kind != PM_LEARNED) return 2;
    }
    if (pm_host_order_microvolts(&host, 0, PM_VOUT_COMMAND, round & 1 ? 1000000 : 1200000)) return 3;
    return pm_host_run(&host, put, ask, 0).kind == PM_DONE ? 0 : 4;
#endif
#if FW == 2
    pm_course course;
    if (!round && (pm_host_new(&host, 0x58, 1, 3) || pm_host_set_limits(&host, 0, 800000, 3500000))) return 1;
    if (pm_course_microvolts(&course, 0, PM_VOUT_COMMAND, round & 1 ? 1000000 : 1200000, 60)) return 2;
    return pm_host_run_course(&host, &course, put, ask, 0).kind == PM_REACHED ? 0 : 3;
#endif
#if FW == 3
    static pm_host *const hosts[2] = {&host, &second};
    static void *const contexts[2] = {0, 0};
    unsigned i;
    for (i = 0; i < 2 && !round; i++)
        if (pm_host_new(hosts[i], 0x58, 4, 3)) return 1;
    for (i = 0; i < 4; i++) {
        if (!round && pm_host_set_limits(hosts[i / 2], (uint8_t)i, 800000, 3500000)) return 2;
        steps[2 * i] = pm_sets((uint8_t)(i / 2), (uint8_t)i, round & 1 ? 1000000 : 1200000);
        steps[2 * i + 1] = pm_turns((uint8_t)(i / 2), (uint8_t)i, 0x80);
        steps[2 * i].looks = PM_LOOK_NOT;
        steps[2 * i + 1].looks = PM_LOOK_MUST;
        steps[2 * i + 1].fault_limits = PM_FAULT_LIMITS_SKIP;
    }
    pm_sequence_new(&sequence, 60, PM_ENDS_AT_RESTART);
    if (pm_run_sequence(&sequence, hosts, contexts, 2, steps, 8, records, 8, put, ask, pause, 0) != PM_ENDED) return 3;
    return sequence.said.kind == PM_REACHED ? 0 : 4;
#endif
}
#ifndef ROUNDS
#define ROUNDS 1
#endif
int main(void) {
    char t[] = "0 ok, 000 transfers\n"; int r = 0;
    for (int i = 0; i < ROUNDS && !r; i++) r = work(i);
    t[0] = (char)('0' + r);
    unsigned n = bus_transfers; for (int i = 8; i >= 6; i--, n /= 10) t[i] = (char)('0' + n % 10);
    console_put(t);
    return r;
}
