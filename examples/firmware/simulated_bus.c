/* A bus that stands in for a board's, for the emulator: two parts hear each frame, each a model converter with ON_OFF_CONFIG and MFR_MODEL beside it.
 * Now and then a frame is lost, cut or damaged, an answer is lost or damaged, or a write is acknowledged that nobody took; and at some transfers
 * something befalls a part. A driver for a board puts its I2C controller in the place of this file. */
#include "bus.h"
#include "console.h"
#include "pmpart.h"
#include <string.h>

enum { PARTS = 2, OUTPUTS = 2, ADDRESS = 0x58, BY_OPERATION = 0x1A, BY_PIN = 0x16 };

typedef enum { NONE, FRAME_LOST, FRAME_CUT, FRAME_DAMAGED, ANSWER_LOST, ANSWER_DAMAGED, FALSE_ACKNOWLEDGEMENT } fault;

typedef struct {
    pm_part chip;
    uint8_t config[OUTPUTS]; /* ON_OFF_CONFIG */
    const char *model;       /* four letters of MFR_MODEL */
    uint8_t is_away, lacks_page_plus;
} device;

static device devices[PARTS];
static unsigned transfers;
static uint32_t clock_now; /* a transfer takes a millisecond */

static unsigned draw(unsigned below) {
    static uint32_t drawn = 2463534242u;
    drawn ^= drawn << 13;
    drawn ^= drawn >> 17;
    drawn ^= drawn << 5;
    return (drawn >> 8) % below;
}

/* The parts as they are made: each output is off, at 1 V once it is on, with 4.5 V as its most. */
static void make(void) {
    static const pm_part_output output = {0x14, 0, 0x00, 0x1000, 0x4800, 0x1100, 0x0F00, 0x0000};
    for (unsigned at = 0; at < PARTS; at++) {
        pm_part_config config;
        memset(&config, 0, sizeof config);
        config.address = (uint8_t)(ADDRESS + at);
        config.outputs = OUTPUTS;
        config.m = 1;
        for (unsigned each = 0; each < OUTPUTS; each++) {
            config.starts[each] = output;
            devices[at].config[each] = BY_OPERATION;
        }
        devices[at].model = "EX42";
        pm_part_new(&devices[at].chip, &config);
    }
}

/* Somebody else writes WRITE_PROTECT of a part. */
static void protect(device *it) {
    uint8_t frame[4] = {(uint8_t)((ADDRESS + (it - devices)) << 1), 0x10, 0x80, 0};
    pm_part_reply reply;
    frame[3] = pm_pec(frame, 3);
    pm_part_hear(&it->chip, frame, sizeof frame, 0, &reply);
}

/* What befalls the parts before a transfer, and what is said of that. */
static const char *befall(device *u1, device *u2) {
    switch (transfers) {
    case 1: make(); u1->model = "EX17"; return "  (u1 is another model)\n";
    case 2: u1->model = "EX42"; u2->config[1] = BY_PIN; return "  (u1 is exchanged; the second output of u2 is on by its pin)\n";
    case 8: u2->config[1] = BY_OPERATION; return "  (it is on by OPERATION)\n";
    case 130: pm_part_restart(&u2->chip); return "  (u2 restarts)\n";
    case 500: protect(u2); pm_part_restart(&u1->chip); return "  (u1 restarts; somebody writes WRITE_PROTECT of u2)\n";
    case 600: pm_part_restart(&u2->chip); return "  (u2 restarts)\n";
    case 900: pm_part_restart(&u2->chip); return "  (u2 restarts)\n";
    case 917: u1->is_away = 1; return "  (u1 is away)\n";
    case 947: u1->is_away = 0; return "  (u1 is back)\n";
    case 1350: u1->config[0] = BY_PIN; pm_part_restart(&u2->chip); return "  (u2 restarts; the first output of u1 is on by its pin)\n";
    case 1388: u1->config[0] = BY_OPERATION; return "  (it is on by OPERATION)\n";
    case 1800: pm_part_restart(&u2->chip); return "  (u2 restarts)\n";
    case 1806: u1->model = "EX17"; u1->lacks_page_plus = 1; return "  (u1 is another model, without PAGE_PLUS)\n";
    case 1815: u1->lacks_page_plus = 0; return "  (u1 is another model, with PAGE_PLUS)\n";
    case 1824: u1->model = "EX42"; return "  (u1 is exchanged)\n";
    default: return NULL;
    }
}

/* What goes wrong with the next transfer: something in one of ten. */
static fault next_fault(void) {
    const char *said;
    clock_now++;
    transfers++;
    said = befall(&devices[0], &devices[1]);
    if (said)
        console_put(said);
    return draw(10) < 1 ? (fault)(1 + draw(6)) : NONE;
}

static void damage(uint8_t *bytes, unsigned count) {
    unsigned place = draw(count);
    bytes[place] ^= (uint8_t)(1 + draw(255));
}

/* Each rail is at what it commands, or at 0 V. */
static void settle(device *it) {
    for (uint8_t output = 0; output < OUTPUTS; output++) {
        uint16_t byte = 0, word = 0;
        pm_part_word(&it->chip, output, 0x01, &byte);
        pm_part_word(&it->chip, output, 0x21, &word);
        pm_part_set_reading(&it->chip, output, 0x8B, byte & 0x80 ? word : 0);
    }
}

/* The answer of a register that the model converter doesn't have, with its PEC: MFR_MODEL, ON_OFF_CONFIG, and STATUS_WORD of an output that its pin
 * keeps on. Whether it is one of these. */
static int answer_beside(const device *it, const uint8_t *frame, unsigned count, pm_part_reply *reply) {
    uint8_t bytes[16] = {0}, *payload = bytes + count + 1;
    unsigned length = 0;
    if (count == 2 && frame[1] == 0x9A) {
        payload[0] = 4;
        memcpy(payload + 1, it->model, 4);
        length = 5;
    } else if (count == 5 && frame[1] == 0x06 && frame[2] == 2 && frame[3] < OUTPUTS && frame[4] == 0x02) {
        payload[0] = 1, payload[1] = it->config[frame[3]], length = 2;
    } else if (count == 5 && frame[1] == 0x06 && frame[2] == 2 && frame[3] < OUTPUTS && frame[4] == 0x79 && it->config[frame[3]] == BY_PIN) {
        payload[0] = 2, length = 3; /* 0000h: on, and well */
    } else
        return 0;
    memcpy(bytes, frame, count);
    bytes[count] = (uint8_t)(frame[0] | 1);
    payload[length] = pm_pec(bytes, count + 1 + length);
    reply->length = (uint8_t)(length + 2);
    memcpy(reply->bytes, bytes + count, length + 2);
    return 1;
}

/* A part hears what is left of a frame. */
static uint8_t hear(const uint8_t *frame, unsigned count, fault wrong, uint8_t is_request, pm_part_reply *reply) {
    uint8_t left[16], heard;
    unsigned at;
    device *it;
    memset(reply, 0, sizeof *reply);
    if (wrong == FRAME_LOST || count > sizeof left)
        return PM_HEARD_SILENT;
    memcpy(left, frame, count);
    if (wrong == FRAME_CUT)
        count = draw(count);
    if (wrong == FRAME_DAMAGED)
        damage(left, count);
    at = (left[0] >> 1) - (unsigned)ADDRESS;
    if (at >= PARTS || devices[at].is_away)
        return PM_HEARD_SILENT;
    it = &devices[at];
    if (it->lacks_page_plus && count > 1 && (left[1] == 0x05 || left[1] == 0x06))
        return PM_HEARD_K2_UNSUPPORTED_CODE;
    if (is_request && answer_beside(it, left, count, reply))
        return PM_HEARD_ANSWERED;
    heard = pm_part_hear(&it->chip, left, count, is_request, reply);
    settle(it);
    return heard;
}

uint8_t bus_write(const uint8_t *frame, unsigned count) {
    fault wrong = next_fault();
    pm_part_reply reply;
    if (wrong == FALSE_ACKNOWLEDGEMENT)
        return PM_ACKED;
    uint8_t heard = hear(frame, count, wrong, 0, &reply);
    if (heard == PM_HEARD_SILENT)
        return PM_UNHEARD;
    return heard == PM_HEARD_TAKEN && wrong != ANSWER_LOST ? PM_ACKED : PM_NOT_ACKED;
}

unsigned bus_read(const uint8_t *request, unsigned count, uint8_t *answer, unsigned wanted) {
    fault wrong = next_fault();
    pm_part_reply reply;
    if (hear(request, count, wrong, 1, &reply) != PM_HEARD_ANSWERED || reply.length > wanted + 1 || wrong == ANSWER_LOST)
        return 0;
    if (wrong == ANSWER_DAMAGED)
        damage(reply.bytes + 1, reply.length - 1u);
    memset(answer, 0xFF, wanted);
    memcpy(answer, reply.bytes + 1, reply.length - 1u);
    return wanted;
}

void bus_wait(uint32_t milliseconds) {
    clock_now += milliseconds;
}

uint32_t bus_clock(void) {
    return clock_now;
}
