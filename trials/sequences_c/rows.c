/* pm_run_sequence over parts that are written by hand: how each list ends, what is said, what was sent and what is kept. It prints each row that
 * differs, and a count. The numbers are those that firmware compiles in: they stand here by hand. Words are of ULINEAR16 with the exponent
 * -12: 1000h is 1 V. */
#include "pmhost.h"
#include <stdio.h>
#include <stdlib.h>
#include <string.h>

/* What a rail does at a look after an order: STATUS_WORD, STATUS_VOUT and READ_VOUT; FFFFh of one that gives no answer. */
typedef struct { uint16_t status, vout, reading; } moment;

/* A part with two outputs. STATUS_WORD follows OPERATION, and READ_VOUT follows VOUT_COMMAND, but for what its moments say after an order. */
typedef struct {
    uint16_t words[2][6]; /* OPERATION, VOUT_COMMAND, VOUT_MAX, VOUT_MARGIN_HIGH, VOUT_MARGIN_LOW, VOUT_MIN */
    int has_status, has_vout;
    uint16_t limit;       /* VOUT_OV_FAULT_LIMIT; 0 if the part has no such register */
    int gone_after;       /* after how many frames it answers nothing more */
    int is_deaf;          /* writes of output 0 do nothing */
    int is_dead;          /* OFF is 1 whatever OPERATION says */
    int trips;            /* a write of VOUT_COMMAND makes it dead, and VOUT_OV_FAULT is 1 from then on */
    int has_tripped, frames, writes;
    uint16_t reserved;    /* the bits that OPERATION reads as 1 whatever was written */
    const moment *moments; /* four of them, the last one for ever */
    int looks;            /* how often STATUS_WORD was read after the last write */
    int restarts;         /* at which of these looks OPERATION is 00 again; 0 for never */
} part;

static const part good = {{{0x80, 0x1000, 0x4000, 0x1100, 0x0F00, 0}, {0x80, 0x1000, 0x4000, 0x1100, 0x0F00, 0}},
                          1, 1, 0x2000, 100000, 0, 0, 0, 0, 0, 0, 0, NULL, 0, 0};
static part parts[2];
static pm_host hosts[2];
static pm_host *const at_hosts[2] = {&hosts[0], &hosts[1]};
static void *const at_parts[2] = {&parts[0], &parts[1]};
static pm_sequence sequence;
static pm_sequence_step steps[3], backs[3];
static pm_sequence_record records[3];
static int passed, failed, founds, waits, pauses, stops_at;
static pm_sequence_said found, left;

static void row(const char *name, const char *what, long long is, long long wanted) {
    if (is == wanted) {
        passed++;
        return;
    }
    failed++;
    printf("%s: %s %lld, and not %lld\n", name, what, is, wanted);
}

static uint8_t pec(const uint8_t *bytes, uint64_t count, uint8_t crc) {
    int bit;
    while (count--)
        for (crc ^= *bytes++, bit = 0; bit < 8; bit++)
            crc = (uint8_t)(crc & 0x80 ? crc << 1 ^ 0x07 : crc << 1);
    return crc;
}

static int place_of(uint8_t code) {
    static const uint8_t codes[6] = {0x01, 0x21, 0x24, 0x25, 0x26, 0x2B};
    int at;
    for (at = 0; at < 6; at++)
        if (codes[at] == code)
            return at;
    return -1;
}

static uint8_t put(void *context, const uint8_t *bytes, uint64_t count) {
    part *on = (part *)context;
    int is_gone = on->gone_after <= on->frames++, place = place_of(bytes[4]);
    on->writes++;
    on->looks = 0;
    if (is_gone)
        return PM_UNHEARD;
    if ((on->is_deaf && bytes[3] == 0) || place < 0 || count < 7)
        return PM_ACKED;
    on->words[bytes[3] & 1][place] = (uint16_t)(bytes[2] == 4 ? bytes[5] | bytes[6] << 8 : bytes[5]);
    if (on->trips && place == 1)
        on->has_tripped = on->is_dead = 1;
    return PM_ACKED;
}

/* The word of a register, and how many bytes it has; 0 if the part has no such register. */
static int carried(part *on, int output, uint8_t code, uint16_t *word) {
    int off = on->is_dead || !(on->words[output][0] & 0x80), place = place_of(code);
    *word = 0;
    if (code == 0x20) {
        *word = 0x14;
        return 1;
    }
    if (code == 0x79 && on->writes && ++on->looks == on->restarts)
        on->words[output][0] = 0;
    if (on->moments && on->writes && (code == 0x79 || code == 0x7A || code == 0x8B)) {
        const moment *now = &on->moments[on->looks < 4 ? on->looks - 1 : 3];
        *word = code == 0x79 ? now->status : code == 0x7A ? now->vout : now->reading;
        return *word == 0xFFFF ? 0 : code == 0x7A ? 1 : 2;
    }
    if (code == 0x79) {
        *word = (uint16_t)((off ? 0x0840 : 0) | (on->has_tripped ? 0x8020 : 0));
        return on->has_status ? 2 : 0;
    }
    if (code == 0x7A) {
        *word = on->has_tripped ? 0x80 : 0;
        return on->has_status ? 1 : 0;
    }
    if (code == 0x8B) {
        *word = on->words[output][1];
        return on->has_vout ? 2 : 0;
    }
    if (code == 0x40) {
        *word = on->limit;
        return on->limit ? 2 : 0;
    }
    if (place < 0)
        return 0;
    *word = (uint16_t)(on->words[output][place] | (place == 0 ? on->reserved : 0));
    return place == 0 ? 1 : 2;
}

static uint64_t ask(void *context, const uint8_t *request, uint64_t count, uint8_t *answer, uint64_t room) {
    part *on = (part *)context;
    uint8_t bytes[5] = {(uint8_t)(request[0] | 1), 0, 0, 0, 0};
    uint16_t word = 0;
    int size = 0, all;
    if (on->gone_after <= on->frames++)
        return 0;
    if (request[1] == 0x10)
        all = 2;
    else if (!(size = carried(on, request[3] & 1, request[4], &word)))
        return 0;
    else {
        bytes[1] = (uint8_t)size;
        bytes[2] = (uint8_t)word;
        bytes[3] = (uint8_t)(word >> 8);
        all = 2 + size;
    }
    bytes[all] = pec(bytes, (uint64_t)all, pec(request, count, 0));
    memcpy(answer, bytes + 1, (size_t)all < room ? (size_t)all : (size_t)room);
    return (uint64_t)all;
}

static void pause_for(void *context, uint32_t milliseconds) {
    (void)context;
    if (sequence.said.step == sequence.begun)
        waits += (int)milliseconds;
    else
        pauses += (int)milliseconds;
}

static int told(void *context, const pm_sequence *is, uint8_t answer) {
    (void)context;
    if (answer == PM_TOLD && is->said.kind == 13) {
        found = is->said;
        founds++;
    } else if (answer == PM_TOLD)
        left = is->said;
    return answer != stops_at;
}

static void begin(const part *first, const part *second, uint8_t rules) {
    int at;
    parts[0] = *first;
    parts[1] = *second;
    for (at = 0; at < 2; at++)
        if (pm_host_new(&hosts[at], 0x58, 2, 2) || pm_host_no_limits(&hosts[at], 0) || pm_host_no_limits(&hosts[at], 1))
            exit(1);
    memset(&found, 0, sizeof found);
    memset(&left, 0, sizeof left);
    memset(records, 0xAA, sizeof records);
    founds = waits = pauses = stops_at = 0;
    pm_sequence_new(&sequence, 60, rules);
}

static pm_sequence_step step_of(uint8_t host, uint8_t output, uint8_t looks) {
    pm_sequence_step step;
    memset(&step, 0, sizeof step);
    step.host = host;
    step.output = output;
    step.looks = looks;
    step.within = 50;
    step.rounds = 4;
    return step;
}

static pm_sequence_step sets(uint8_t host, uint8_t output, int32_t microvolts, uint8_t looks) {
    pm_sequence_step step = step_of(host, output, looks);
    step.kind = 1;
    step.command.kind = 2;
    step.command.microvolts = microvolts;
    return step;
}

static pm_sequence_step off(uint8_t host, uint8_t output, uint8_t looks) {
    pm_sequence_step step = step_of(host, output, looks);
    step.kind = 2;
    return step;
}

static uint8_t run(const pm_sequence_step *list, uint64_t count) {
    return pm_run_sequence(&sequence, at_hosts, at_parts, 2, list, count, records, 3, put, ask, pause_for, told);
}

/* One set of output 0: how it ends (the kind, the verdict, the register, what was wrong with its answer), what was found, the frames and the
 * writes. */
typedef struct {
    const char *name;
    int has_status, has_vout;
    uint16_t limit;
    int is_dead, trips, gone_after;
    uint8_t looks, lacks, fault_limits;
    int32_t microvolts;
    uint8_t kind, verdict, code, fault, found;
    int frames, writes;
} set;

static const set set_rows[] = {
    {"a good set", 1, 1, 0x2000, 0, 0, 100000, 2, 0, 0, 1200000, 1, 0, 0, 0, 1, 24, 1},
    {"a word that is held", 1, 1, 0x2000, 0, 0, 100000, 1, 0, 0, 1000000, 1, 0, 0, 0, 1, 8, 0},
    {"a part without STATUS_WORD", 0, 1, 0x2000, 0, 0, 100000, 2, 0, 0, 1200000, 1, 0, 0, 0, 14, 28, 1},
    {"a part without READ_VOUT", 1, 0, 0x2000, 0, 0, 100000, 2, 0, 0, 1200000, 1, 0, 0, 0, 1, 30, 1},
    {"a part without both", 0, 0, 0x2000, 0, 0, 100000, 1, 0, 0, 1200000, 14, 10, 0x79, 0, 0, 35, 1},
    {"a part without both, as is said", 0, 0, 0x2000, 0, 0, 100000, 1, 3, 0, 1200000, 1, 0, 0, 0, 10, 21, 1},
    {"the same, and it has to deliver", 0, 0, 0x2000, 0, 0, 100000, 2, 3, 0, 1200000, 14, 10, 0x79, 0, 0, 21, 1},
    {"a fault limit below the voltage", 1, 1, 0x1200, 0, 0, 100000, 1, 0, 0, 1200000, 11, 0, 0x40, 0, 0, 14, 0},
    {"the same, which is told alone", 1, 1, 0x1200, 0, 0, 100000, 1, 0, 1, 1200000, 1, 0, 0, 0, 1, 24, 1},
    {"a rail that is off", 1, 1, 0x2000, 1, 0, 100000, 1, 0, 0, 1200000, 14, 4, 0x79, 0, 0, 30, 1},
    {"a rail that trips", 1, 1, 0x2000, 0, 1, 100000, 1, 0, 0, 1200000, 14, 4, 0x79, 0, 0, 0, 1},
    {"the bus is gone once the word is confirmed", 1, 1, 0x2000, 0, 0, 22, 1, 0, 0, 1200000, 14, 10, 0x79, 1, 0, 30, 1},
    {"the bus is gone though nothing is ordered", 1, 1, 0x2000, 0, 0, 6, 1, 0, 0, 1000000, 14, 10, 0x79, 1, 0, 22, 0},
    {"nothing is looked at", 1, 1, 0x2000, 0, 0, 100000, 0, 0, 0, 1200000, 1, 0, 0, 0, 0, 14, 1},
};

static void one_set(const set *is) {
    part first = good;
    first.has_status = is->has_status;
    first.has_vout = is->has_vout;
    first.limit = is->limit;
    first.is_dead = is->is_dead;
    first.trips = is->trips;
    first.gone_after = is->gone_after;
    begin(&first, &good, 3);
    steps[0] = sets(0, 0, is->microvolts, is->looks);
    steps[0].lacks = is->lacks;
    steps[0].fault_limits = is->fault_limits;
    row(is->name, "answer", run(steps, 1), 0x95);
    row(is->name, "end", sequence.said.kind, is->kind);
    row(is->name, "verdict", sequence.said.verdict, is->verdict);
    row(is->name, "code", sequence.said.code, is->code);
    row(is->name, "fault", sequence.said.fault, is->fault);
    row(is->name, "found", found.verdict, is->found);
    if (is->frames)
        row(is->name, "frames", parts[0].frames, is->frames);
    row(is->name, "writes", parts[0].writes, is->writes);
    row(is->name, "asked again", run(steps, 1), 0x95);
    row(is->name, "its end", sequence.said.kind, is->kind);
}

static void what_is_kept(void) {
    begin(&good, &good, 3);
    steps[0] = sets(0, 0, 1200000, 2);
    (void)run(steps, 1);
    row("a good set", "reading", found.has_microvolts, 1);
    row("a good set", "microvolts", found.microvolts, 1199951);
    row("a good set", "step", found.step, 0);
    row("a good set", "steps", sequence.said.step, 1);
    row("its record", "the step back", records[0].back.kind << 16 | records[0].back.command.kind << 8 | records[0].back.looks, 0x10100);
    row("its record", "the word back", records[0].back.command.word, 0x1000);
    row("its record", "mark", records[0].look.mark, 0x5044);
    row("its record", "READ_VOUT", records[0].look.read_vout.word, 0x1333);
    row("its record", "VOUT_OV_FAULT_LIMIT", records[0].look.ov_fault_limit.word, 0x2000);
    row("another record", "mark", records[1].look.mark, 0xAAAA);
    row("another record", "kind", records[1].back.kind, 0xAA);
}

/* A bus that is gone after any number of frames is no success. */
static void buses_go(void) {
    int at;
    for (at = 0; at < 26; at++) {
        part first = good;
        first.gone_after = at;
        begin(&first, &good, 3);
        steps[0] = sets(0, 0, 1200000, 2);
        (void)run(steps, 1);
        row("a bus that goes", "reached", sequence.said.kind == 1, at >= 24);
    }
}

/* A list over two parts: how it ends, how often a rail did what it is to, the waits, the pauses, and OPERATION and VOUT_COMMAND of each output. */
static void one_list(const char *name, uint8_t rules, const part *first, const part *second, int is_down, uint8_t kind, uint16_t many,
                     int times, int waited, const uint16_t held[8]) {
    int at;
    begin(first, second, rules);
    if (is_down) {
        steps[0] = off(0, 0, 2);
        steps[1] = off(1, 0, 2);
        steps[2] = off(0, 1, 2);
        steps[1].wait = 10;
    } else {
        steps[0] = sets(0, 0, 1200000, 2);
        steps[1] = sets(1, 0, 1100000, 2);
        steps[2] = sets(0, 1, 1050000, 2);
        steps[1].wait = 15;
        steps[2].wait = 5;
    }
    row(name, "answer", run(steps, 3), 0x95);
    row(name, "end", sequence.said.kind, kind);
    row(name, "left", sequence.left, many);
    row(name, "left, as is said", kind == 10 ? sequence.said.word : 0, many);
    row(name, "founds", founds, times);
    row(name, "waits", waits, waited);
    for (at = 0; at < 4; at++) {
        row(name, "OPERATION", parts[at / 2].words[at % 2][0], held[2 * at]);
        row(name, "VOUT_COMMAND", parts[at / 2].words[at % 2][1], held[2 * at + 1]);
    }
}

static void lists(void) {
    static const uint16_t up[8] = {0x80, 0x1333, 0x80, 0x10CD, 0x80, 0x119A, 0x80, 0x1000};
    static const uint16_t up_two[8] = {0x80, 0x1333, 0x80, 0x1000, 0x80, 0x119A, 0x80, 0x1000};
    static const uint16_t up_one[8] = {0x80, 0x1333, 0x80, 0x1000, 0x80, 0x1000, 0x80, 0x1000};
    static const uint16_t down[8] = {0, 0x1000, 0, 0x1000, 0, 0x1000, 0x80, 0x1000};
    static const uint16_t down_deaf[8] = {0x80, 0x1000, 0, 0x1000, 0, 0x1000, 0x80, 0x1000};
    static const uint16_t far_gone[8] = {0, 0x1000, 0, 0x1000, 0x80, 0x1000, 0x80, 0x1000};
    static const uint16_t near_gone[8] = {0x80, 0x1000, 0x80, 0x1000, 0, 0x1000, 0x80, 0x1000};
    part dead = good, deaf = good, gone = good;
    int at;
    dead.is_dead = 1;
    deaf.is_deaf = 1;
    gone.gone_after = 0;
    one_list("up, and the second rail stays off", 3, &good, &dead, 0, 14, 0, 1, 15, up_two);
    row("up, and the second rail stays off", "step", sequence.said.step, 1);
    row("up, and the second rail stays off", "pauses", pauses, 10 + 20 + 40);
    one_list("up, and the first rail stays off", 3, &dead, &good, 0, 14, 0, 0, 0, up_one);
    one_list("down", 4, &good, &good, 1, 1, 0, 3, 10, down);
    row("down", "a way back", records[0].back.kind, 0xAA);
    one_list("down, and the first output stays on", 4, &deaf, &good, 1, 10, 1, 2, 10, down_deaf);
    row("down, and the first output stays on", "the step that was left", left.step, 0);
    one_list("down, and the second part is gone", 4, &good, &gone, 1, 10, 1, 2, 10, far_gone);
    row("down, and the second part is gone", "the step that was left", left.step, 1);
    one_list("down, and the first part is gone", 4, &gone, &good, 1, 10, 2, 1, 10, near_gone);
    one_list("up", 3, &good, &good, 0, 1, 0, 3, 20, up);
    for (at = 0; at < 3; at++)
        backs[at] = records[2 - at].back;
    pm_sequence_new(&sequence, 60, 0);
    row("and back", "answer", run(backs, 3), 0x95);
    row("and back", "end", sequence.said.kind, 1);
    for (at = 0; at < 4; at++)
        row("and back", "VOUT_COMMAND", parts[at / 2].words[at % 2][1], 0x1000);
    begin(&good, &good, 3);
    stops_at = 0x98;
    row("stopped at a wait", "answer", run(steps, 3), 0x98);
    row("stopped at a wait", "milliseconds", sequence.said.milliseconds, 15);
    row("stopped at a wait", "step", sequence.said.step, 1);
    stops_at = 0;
    row("and on", "answer", run(steps, 3), 0x95);
    row("and on", "end", sequence.said.kind, 1);
}

/* A list that asks says each order before it begins, and begins nothing if it is stopped there. */
static void asks(void) {
    begin(&good, &good, 11);
    steps[0] = sets(0, 0, 1200000, 2);
    stops_at = 0x99;
    row("a list that asks", "answer", run(steps, 1), 0x99);
    row("a list that asks", "end", sequence.said.kind, 16);
    row("a list that asks", "order", sequence.said.code << 16 | sequence.said.word, 0x211333);
    row("a list that asks", "step", sequence.said.step, 0);
    row("a list that asks", "writes", parts[0].writes, 0);
    stops_at = 0;
    row("and on", "answer", run(steps, 1), 0x95);
    row("and on", "end", sequence.said.kind, 1);
    row("and on", "writes", parts[0].writes, 1);
}

/* A step that orders nothing: its rail is looked at, and it is undone by one that reads nothing. */
static void surveys(void) {
    begin(&good, &good, 3);
    steps[0] = step_of(0, 1, 2);
    steps[0].kind = 3;
    steps[1] = step_of(0, 1, 0);
    steps[1].kind = 4;
    row("a survey", "answer", run(steps, 2), 0x95);
    row("a survey", "end", sequence.said.kind, 1);
    row("a survey", "found", found.verdict, 1);
    row("a survey", "writes", parts[0].writes, 0);
    row("a survey", "back", records[0].back.kind, 4);
    parts[0].words[1][0] = 0;
    begin(&parts[0], &good, 3);
    row("a survey of one that is off", "answer", run(steps, 2), 0x95);
    row("a survey of one that is off", "end", sequence.said.kind, 14);
    row("a survey of one that is off", "verdict", sequence.said.verdict, 2);
}

/* A fault that stood before an earlier list isn't new in the next one, which hands over what was heard then. */
static void stands(void) {
    part first = good;
    first.has_tripped = 1;
    begin(&first, &good, 3);
    steps[0] = sets(0, 0, 1200000, 2);
    row("a fault that stood", "answer", run(steps, 1), 0x95);
    row("a fault that stood", "end", sequence.said.kind, 1);
    steps[0] = sets(0, 0, 1100000, 2);
    steps[0].before = records[0].look.before;
    row("what was heard before", "word", steps[0].before.word, 0x8020);
    begin(&parts[0], &good, 3);
    row("the next list", "answer", run(steps, 1), 0x95);
    row("the next list", "end", sequence.said.kind, 1);
    steps[0] = sets(0, 0, 1000000, 2);
    steps[0].before.asked = 1;
    begin(&parts[0], &good, 3);
    row("a fault that is new", "answer", run(steps, 1), 0x95);
    row("a fault that is new", "end", sequence.said.kind, 14);
    row("a fault that is new", "verdict", sequence.said.verdict, 5);
}

/* A way back that would be refused is said once, before the step begins; a step that turned its output off is undone by its byte. */
static void ways_back(void) {
    begin(&good, &good, 3);
    if (pm_host_set_limits(&hosts[0], 0, 1020000, 1300000))
        exit(1);
    steps[0] = sets(0, 0, 1200000, 2);
    stops_at = 0x97;
    row("no way back", "answer", run(steps, 1), 0x97);
    row("no way back", "end", sequence.said.kind << 16 | sequence.said.number << 8 | sequence.said.code, 0x092321);
    row("no way back", "step", sequence.said.step << 8 | sequence.begun, 0);
    row("no way back", "writes", parts[0].writes, 0);
    stops_at = 0;
    row("and on", "answer", run(steps, 1), 0x95);
    row("and on", "end", sequence.said.kind, 1);
    row("and on", "writes", parts[0].writes, 1);
    begin(&good, &good, 3);
    steps[0] = off(1, 0, 2);
    row("off", "answer", run(steps, 1), 0x95);
    row("off", "back", records[0].back.host << 16 | records[0].back.kind << 8 | records[0].back.byte, 0x10280);
}

/* What ends a look before its rail has had its time, of four rounds with 70 ms between them: OFF with a fault that is new, a voltage above the upper
 * limit unless it was lowered, and a part that came up anew. The rail is turned on or raised to 1.2 V, or lowered to it; its limits are 1.1 V and
 * 1.3 V. */
typedef struct {
    const char *name;
    uint16_t from; /* what VOUT_COMMAND holds before; 0 of a rail that is turned on at 1.2 V */
    moment moments[4];
    int restarts;
    uint8_t kind, verdict;
    int pauses;
} timed;

#define WELL {0, 0, 0x1333}
static const timed timed_rows[] = {
    {"on: off without a fault, and then on", 0, {{0x0840, 0, 0}, {0x0840, 0, 0}, WELL, WELL}, 0, 1, 1, 30},
    {"on: off without a fault for ever", 0, {{0x0840, 0, 0}, {0x0840, 0, 0}, {0x0840, 0, 0}, {0x0840, 0, 0}}, 0, 14, 4, 70},
    {"on: off with a new fault", 0, {{0x8860, 0x80, 0}, WELL, WELL, WELL}, 0, 14, 4, 0},
    {"on: a new fault, and then right", 0, {{0x8000, 0x10, 0x1333}, WELL, WELL, WELL}, 0, 1, 1, 10},
    {"on: a new fault for ever", 0, {{0x8000, 0x10, 0x1333}, {0x8000, 0x10, 0x1333}, {0x8000, 0x10, 0x1333}, {0x8000, 0x10, 0x1333}}, 0, 14, 5, 70},
    {"on: a new fault, and then off", 0, {{0x8000, 0x10, 0x1333}, {0x8840, 0x10, 0}, WELL, WELL}, 0, 14, 4, 10},
    {"on: a fault at the second look", 0, {{0x0800, 0, 0x0800}, {0x8860, 0x80, 0}, WELL, WELL}, 0, 14, 4, 10},
    {"on: a warning is no fault", 0, {{0x8000, 0x20, 0x0800}, {0x8000, 0x20, 0x0800}, {0x8000, 0x20, 0x1333}, WELL}, 0, 1, 1, 30},
    {"on: below the lower limit, and then right", 0, {{0x0800, 0, 0x0400}, {0x0800, 0, 0x0C00}, {0, 0, 0x1300}, WELL}, 0, 1, 1, 30},
    {"on: above the upper limit", 0, {{0, 0, 0x1800}, WELL, WELL, WELL}, 0, 14, 6, 0},
    {"on: above the upper limit at the second look", 0, {{0x0800, 0, 0x0800}, {0, 0, 0x1800}, WELL, WELL}, 0, 14, 6, 10},
    {"on: above the upper limit, and a new fault", 0, {{0x8000, 0x10, 0x1800}, WELL, WELL, WELL}, 0, 14, 5, 0},
    {"on: below the lower limit for ever", 0, {{0, 0, 0x0400}, {0, 0, 0x0400}, {0, 0, 0x0400}, {0, 0, 0x0400}}, 0, 14, 6, 70},
    {"on: power good comes late", 0, {{0x0800, 0, 0x1333}, {0x0800, 0, 0x1333}, {0x0800, 0, 0x1333}, WELL}, 0, 1, 1, 70},
    {"on: no STATUS_WORD in a round, and then it is right", 0, {{0xFFFF, 0, 0}, {0xFFFF, 0, 0}, WELL, WELL}, 0, 1, 1, 10},
    {"on: no READ_VOUT in a round, and then it is right", 0, {{0, 0, 0xFFFF}, WELL, WELL, WELL}, 0, 1, 1, 10},
    {"on: the part restarts, and stays off", 0, {WELL, {0x0840, 0, 0}, {0x0840, 0, 0}, {0x0840, 0, 0}}, 1, 1, 1, 0},
    {"on: the part restarts at a look, and stays off", 0, {{0x0800, 0, 0}, {0x0840, 0, 0}, {0x0840, 0, 0}, {0x0840, 0, 0}}, 2, 8, 0, 10},
    {"raised: above the upper limit", 0x1200, {{0, 0, 0x1800}, WELL, WELL, WELL}, 0, 14, 6, 0},
    {"raised: still at the old voltage", 0x1200, {{0, 0, 0x1000}, {0, 0, 0x1200}, {0, 0, 0x1300}, WELL}, 0, 1, 1, 30},
    {"lowered: above the upper limit, and then right", 0x1800, {{0, 0, 0x1800}, {0, 0, 0x1700}, {0, 0, 0x1600}, WELL}, 0, 1, 1, 70},
    {"lowered: above the upper limit for ever", 0x1800, {{0, 0, 0x1800}, {0, 0, 0x1800}, {0, 0, 0x1800}, {0, 0, 0x1800}}, 0, 14, 6, 70},
    {"lowered: a new fault", 0x1800, {{0x8860, 0x80, 0}, WELL, WELL, WELL}, 0, 14, 4, 0},
};

static void one_timed(const timed *is) {
    part first = good;
    first.words[0][0] = is->from ? 0x80 : 0;
    first.words[0][1] = is->from ? is->from : 0x1333;
    begin(&first, &good, 2);
    parts[0].moments = is->moments;
    parts[0].restarts = is->restarts;
    if (pm_host_new(&hosts[0], 0x58, 2, 2) || pm_host_set_limits(&hosts[0], 0, 1100000, 1300000) || pm_host_no_limits(&hosts[0], 1))
        exit(1);
    steps[0] = is->from ? sets(0, 0, 1200000, 2) : off(0, 0, 2);
    steps[0].byte = is->from ? 0 : 0x80;
    row(is->name, "answer", run(steps, 1), 0x95);
    row(is->name, "end", sequence.said.kind, is->kind);
    row(is->name, "verdict", is->kind == 1 ? found.verdict : sequence.said.verdict, is->verdict);
    row(is->name, "pauses", pauses, is->pauses);
}

/* Of which verdicts a rail is delivered, and of which it has nothing to deliver: one that is commanded off has, and isn't. */
static void verdicts(void) {
    static const uint8_t delivered[16] = {0, 1, 0, 0, 0, 0, 0, 0, 0, 0, 0, 1, 0, 0, 1, 0}, nothing[16] = {0, 0, 1};
    for (uint8_t verdict = 0; verdict < 16; verdict++) {
        row("a verdict", "is delivered", pm_is_delivered(verdict), delivered[verdict]);
        row("a verdict", "has nothing to deliver", pm_has_nothing_to_deliver(verdict), nothing[verdict]);
    }
    begin(&good, &good, 2);
    parts[0].words[0][0] = 0;
    steps[0] = sets(0, 0, 1200000, 2);
    row("set of a rail that is off", "answer", run(steps, 1), 0x95);
    row("set of a rail that is off", "end", sequence.said.kind, 14);
    row("set of a rail that is off", "verdict", sequence.said.verdict, 2);
    row("set of a rail that is off", "is delivered", pm_is_delivered(sequence.said.verdict), 0);
    row("set of a rail that is off", "has nothing to deliver", pm_has_nothing_to_deliver(sequence.said.verdict), 1);
}

/* Each refusal, which changes nothing but the frame. */
static void refuses(const char *name, uint64_t count, uint64_t room, uint8_t wanted) {
    pm_sequence was = sequence;
    pm_host host = hosts[0];
    pm_sending frame;
    memset(&frame, 0xAA, sizeof frame);
    row(name, "answer", pm_sequence_next(&sequence, &hosts[0], steps, count, records, room, &frame), wanted);
    row(name, "frame", frame.kind, 0);
    row(name, "sequence", memcmp(&was, &sequence, sizeof was), 0);
    row(name, "host", memcmp(&host, &hosts[0], sizeof host), 0);
}

static void refusals(void) {
    static const uint8_t none[3] = {0, 0, 0};
    int at;
    begin(&good, &good, 3);
    steps[0] = sets(0, 0, 1200000, 2);
    refuses("no room", 1, 0, 0xEA);
    refuses("a list that is too long", 65536, 65536, 0xEF);
    steps[0].host = 8;
    refuses("a host that there isn't", 1, 1, 0xEF);
    steps[0] = sets(0, 8, 1200000, 2);
    refuses("an output that there isn't", 1, 1, 0x04);
    for (at = 0; at < 5; at++) {
        steps[0] = sets(0, 0, 1200000, 2);
        *(at == 0 ? &steps[0].kind : at == 1 ? &steps[0].looks : at == 2 ? &steps[0].lacks : &steps[0].kind) = (uint8_t)(at == 2 ? 4 : at == 1 ? 3 : at);
        if (at > 2)
            steps[0].command.kind = 3, steps[0].kind = 1;
        refuses("a step that there isn't", 1, 1, 0xEF);
    }
    steps[0] = sets(0, 0, 1200000, 2);
    sequence.version ^= 1;
    refuses("another version", 1, 1, 0xF0);
    sequence.version ^= 1;
    sequence.mark ^= 1;
    refuses("another mark", 1, 1, 0xF0);
    row("no sequence", "write", pm_sequence_write_ended(&sequence, &hosts[0], 1).kind, 0xF0);
    row("no sequence", "read", pm_sequence_read_ended(&sequence, &hosts[0], none, 3).kind, 0xF0);
    sequence.mark ^= 1;
    row("nothing is sent", "write", pm_sequence_write_ended(&sequence, &hosts[0], 1).kind, 0xE2);
    row("nothing is sent", "read", pm_sequence_read_ended(&sequence, &hosts[0], none, 3).kind, 0xE2);
    memset(&hosts[0], 0, sizeof hosts[0]);
    refuses("no host", 1, 1, 0xE0);
    row("no host", "write", pm_sequence_write_ended(&sequence, &hosts[0], 1).kind, 0xE0);
    row("no host", "read", pm_sequence_read_ended(&sequence, &hosts[0], none, 3).kind, 0xE0);
    sequence.host = 2;
    row("a host beyond the array", "answer", run(steps, 1), 0xEF);
}

/* Any bytes are safe: each call answers, and a sequence that is run ends. */
static void any_bytes(void) {
    int at, turn;
    srand(1);
    for (turn = 0; turn < 300; turn++) {
        begin(&good, &good, (uint8_t)(turn & 15));
        for (at = 2 + turn % 2 * 60; at < PM_SEQUENCE_SIZE; at += 1 + rand() % 40)
            if ((at < 2 || at > 3) && at != 36)
                ((uint8_t *)&sequence)[at] = (uint8_t)rand();
        steps[0] = sets(0, 0, 1200000, 2);
        steps[1] = off(0, 1, 2);
        steps[2] = sets(1, 0, 1100000, 1);
        for (at = 0; at < 20000; at++) {
            pm_sending frame;
            uint8_t answer[8], number;
            if (sequence.host >= 2)
                break;
            number = pm_sequence_next(&sequence, &hosts[sequence.host], steps, 3, records, 3, &frame);
            if (number == 0x95 || number >= 0xE0 || number < 0x10)
                if (number != 0)
                    break;
            if (number == 0 && frame.kind == PM_WRITE)
                (void)pm_sequence_write_ended(&sequence, &hosts[sequence.host], pm_was_acked(&frame, put, &parts[sequence.host]));
            else if (number == 0)
                (void)pm_sequence_read_ended(&sequence, &hosts[sequence.host], answer, pm_answer(&frame, answer, ask, &parts[sequence.host]));
        }
        row("any bytes", "ends", at < 20000, 1);
    }
}

/* A list that turns an output to one byte and then to another, of a part whose OPERATION reads bits as 1: how it ends, what is held, what the
 * host knows of it then, and the writes. Bits 1 and 0 don't count of these bytes; bit 2 does. */
static void reserved_bits(void) {
    static const struct {
        const char *name;
        uint16_t reserved;
        uint8_t first, second, kind;
        uint16_t held, known;
        int writes;
    } table[] = {
        {"off and on, bit 0", 1, 0x00, 0x80, 1, 0x80, 0x81, 3},
        {"on and off, bit 0", 1, 0x80, 0x00, 1, 0x00, 0x01, 2},
        {"on and off, bit 1", 2, 0x80, 0x00, 1, 0x00, 0x02, 2},
        {"off and on, both bits", 3, 0x40, 0x80, 1, 0x80, 0x83, 3},
        {"off, bit 2", 4, 0x00, 0x00, 3, 0x00, 0x04, 4},
    };
    size_t at;
    for (at = 0; at < sizeof table / sizeof *table; at++) {
        part bits = good;
        pm_words known;
        bits.reserved = table[at].reserved;
        begin(&bits, &good, 2);
        steps[0] = step_of(0, 0, 1);
        steps[0].kind = 2;
        steps[0].byte = table[at].first;
        steps[1] = steps[0];
        steps[1].byte = table[at].second;
        row(table[at].name, "answer",
            pm_run_sequence(&sequence, at_hosts, at_parts, 2, steps, 2, records, 2, put, ask, pause_for, told), 0x95);
        row(table[at].name, "kind", sequence.said.kind, table[at].kind);
        row(table[at].name, "held", parts[0].words[0][0], table[at].held);
        row(table[at].name, "writes", parts[0].writes, table[at].writes);
        row(table[at].name, "number", pm_host_possible_words(&hosts[0], 0, 0x01, &known), 0);
        row(table[at].name, "count", known.count, 1);
        row(table[at].name, "known", known.words[0], table[at].known);
    }
}

int main(void) {
    size_t at;
    row("sizes", "sequence", (long long)pm_sequence_size(), 376);
    row("sizes", "version", pm_sequence_version(), 1);
    for (at = 0; at < sizeof set_rows / sizeof *set_rows; at++)
        one_set(&set_rows[at]);
    for (at = 0; at < sizeof timed_rows / sizeof *timed_rows; at++)
        one_timed(&timed_rows[at]);
    what_is_kept();
    buses_go();
    lists();
    asks();
    surveys();
    stands();
    ways_back();
    verdicts();
    refusals();
    any_bytes();
    reserved_bits();
    printf("%d passed, %d failed\n", passed, failed);
    return failed != 0;
}
