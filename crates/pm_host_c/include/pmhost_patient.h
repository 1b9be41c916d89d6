/* A bus over a bus of yours that waits for a busy part. Some parts are busy for milliseconds after a write, and for some
 * hundred after a store: they don't acknowledge their address, or answer nothing but FFh. Here a question follows each write:
 * a plain read of CAPABILITY after 10 ms, and then after twice the wait each time. It ends with an answer that isn't of
 * ones, or with the patience. The next frame then meets a part that is ready. A part may note each question as a BUSY fault and
 * pull SMBALERT#: a `ready_code` has it asked for a byte of its own instead. A write whose address nobody acknowledged
 * (PM_UNHEARD) is sent again after such waits; a store isn't, since it wears the memory, nor a write that pm_is_once names. A read is sent once. An answer of
 * nothing but FFh is handed over as none: a bus that nobody drives is high, and no true answer of the host's jobs is of nothing but
 * ones.
 *
 * It keeps a deadline, too: from that moment on nothing is sent and nothing waited for, so that what is under way ends at once, as over a
 * bus that is away. Then turn the rails off, with has_deadline 0.
 *
 * This is C of a header, tried beside rows (trials/c/rows/patient_rows.c), and not proved. It keeps what pm_write and pm_read
 * of pmhost.h ask for: a question is a request that a repeated start ends, which changes no setting. */
#ifndef PMHOST_PATIENT_H
#define PMHOST_PATIENT_H

#include "pmhost.h"

#ifdef __cplusplus
extern "C" {
#endif

/* Milliseconds: before the first question; of patience after a write, after a restore, after a store. */
enum { PM_FIRST_WAIT = 10, PM_PATIENCE = 200, PM_LONG_PATIENCE = 1000, PM_STORE_PATIENCE = 5000 };
/* No patience: nothing is asked after a write. */
enum { PM_NO_PATIENCE = -1 };

/* A bus of yours, a clock of yours, and how patient to be with the part. */
typedef struct {
    pm_write write;
    pm_read read;
    void *context; /* what each of the four calls is handed */
    uint32_t (*now)(void *context);                   /* milliseconds of a clock that nobody sets; it may wrap round */
    void (*wait)(void *context, uint32_t milliseconds);
    int32_t patience;   /* milliseconds after each write; 0 for PM_PATIENCE, PM_LONG_PATIENCE after a restore and PM_STORE_PATIENCE
                         * after a store; PM_NO_PATIENCE, or another number below 0, to ask nothing */
    uint8_t has_stored; /* of pm_patient_run: a store was sent in this job */
    uint8_t ready_code; /* 0 to ask for CAPABILITY; otherwise the part is ready if a plain read of this code's byte, by a right PEC, */
    uint8_t ready_mask; /* has all of these bits */
    uint8_t has_deadline; /* not 0: `deadline` counts */
    uint8_t is_late;      /* set to 1 as something isn't sent or waited for because of it */
    uint32_t deadline;    /* a moment of `now`, less than 2^31 ms ahead */
} pm_patient;

/* Waits from a moment on: how long the patience is, and the next wait. */
typedef struct {
    uint32_t begun, patience, next;
} pm_waits;

/* Whether all that came is FFh, and something did. */
static inline int pm_is_ones(const uint8_t *bytes, uint64_t count) {
    uint64_t at = 0;
    while (at < count && bytes[at] == 0xFF)
        at++;
    return count != 0 && at == count;
}

/* The milliseconds of patience after a packet. */
static inline uint32_t pm_patience(const pm_patient *bus, const uint8_t *bytes, uint64_t count) {
    uint8_t command = count == 3 ? bytes[1] : 0;
    if (bus->patience != 0)
        return bus->patience < 0 ? 0 : (uint32_t)bus->patience;
    return (uint32_t)(command == 0x15 ? PM_STORE_PATIENCE : command == 0x16 ? PM_LONG_PATIENCE : PM_PATIENCE);
}

/* The milliseconds that are left to the deadline; 0 if it has passed. */
static inline uint32_t pm_time_left(pm_patient *bus) {
    uint32_t left = bus->deadline - bus->now(bus->context);
    if (!bus->has_deadline)
        return 0xFFFFFFFF;
    if (left == 0 || left > 0x7FFFFFFF) {
        bus->is_late = 1;
        return 0;
    }
    return left;
}

/* A pm_wait_ms, to the deadline at most; the context is a pm_patient. */
static inline void pm_patient_wait(void *context, uint32_t milliseconds) {
    pm_patient *bus = (pm_patient *)context;
    uint32_t left = pm_time_left(bus);
    if (left != 0)
        bus->wait(bus->context, milliseconds < left ? milliseconds : left);
}

/* Waits twice as long as the last time, to the end of the patience at most. 0 at once if that or the deadline is over, and if it comes
 * meanwhile. */
static inline int pm_waited(pm_patient *bus, pm_waits *waits) {
    uint32_t passed = bus->now(bus->context) - waits->begun;
    if (passed >= waits->patience)
        return 0;
    uint32_t left = waits->patience - passed;
    pm_patient_wait(bus, waits->next < left ? waits->next : left);
    waits->next *= 2;
    return pm_time_left(bus) != 0;
}

/* Asks once whether the part is ready. */
static inline int pm_is_ready(const pm_patient *bus, uint8_t address_byte) {
    uint8_t request[2], answer[3] = {0, 0, 0};
    pm_block byte;
    request[0] = address_byte;
    request[1] = bus->ready_code != 0 ? bus->ready_code : 0x19;
    uint64_t came = bus->read(bus->context, request, 2, answer + 1, 2);
    if (came == 0 || came > 2 || pm_is_ones(answer + 1, came))
        return 0;
    if (bus->ready_code == 0)
        return 1;
    answer[0] = (uint8_t)(address_byte | 1);
    return pm_read_plain((uint8_t)(address_byte >> 1), bus->ready_code, 1, answer, came + 1, &byte) == PM_OK &&
           (byte.bytes[0] & bus->ready_mask) == bus->ready_mask;
}

/* A pm_write; the context is a pm_patient. It answers what the last try did. It sends one store only until has_stored is 0
 * again, which pm_patient_run sees to: carry a store out by that. */
static inline uint8_t pm_patient_write(void *context, const uint8_t *bytes, uint64_t count) {
    pm_patient *bus = (pm_patient *)context;
    pm_waits again = {bus->now(bus->context), pm_patience(bus, bytes, count), PM_FIRST_WAIT}, asked = again;
    int is_store = count == 3 && bytes[1] == 0x15;
    if ((is_store && bus->has_stored) || pm_time_left(bus) == 0)
        return PM_NOT_ACKED; /* a later pass of a store, or it is late: it isn't sent */
    bus->has_stored = (uint8_t)(bus->has_stored || is_store);
    uint8_t ended = bus->write(bus->context, bytes, count);
    while (ended == PM_UNHEARD && !is_store && !pm_is_once(bytes, count) && pm_waited(bus, &again))
        ended = bus->write(bus->context, bytes, count);
    while (pm_waited(bus, &asked) && !pm_is_ready(bus, bytes[0])) {
    }
    return ended;
}

/* A pm_read; the context is a pm_patient. */
static inline uint64_t pm_patient_read(void *context, const uint8_t *request, uint64_t count, uint8_t *answer, uint64_t room) {
    pm_patient *bus = (pm_patient *)context;
    if (pm_time_left(bus) == 0)
        return 0;
    uint64_t came = bus->read(bus->context, request, count, answer, room);
    return came <= room && pm_is_ones(answer, came) ? 0 : came;
}

/* pm_host_run over a bus that waits. A store is sent once: its later passes end as not acknowledged, unsent. */
PM_MUST_USE
static inline pm_step pm_patient_run(pm_host *host, pm_patient *bus) {
    bus->has_stored = 0;
    return pm_host_run(host, pm_patient_write, pm_patient_read, bus);
}

#ifdef __cplusplus
}
#endif

#endif
