/* How long an order takes over the static library, and how much stack its calls take; beside it an order by
 * plain code: the frame and its PEC, the answer judged, no words kept. bench/c_order.sh runs it. With arguments it does
 * one thing alone and ends, so that its instructions are counted: `loop`, orders; `guard`, orders within limits; `run`, orders by
 * pm_host_run over a bus of no cost; `patient`, the same by pm_patient_run, with its patience of 200 ms; `set`, courses to
 * a voltage within limits over a bus that answers from a table, with all that is read before the order and after it; `bands`, bands of outputs whose registers list as many words as they can. The second says the format, `linear` or `direct`, and the third
 * how often. It prints how many orders were done, or how many listed words were looked at. */
#include "pmhost_patient.h"
#include <stdio.h>
#include <stdlib.h>
#include <string.h>
#include <time.h>

enum { ROUNDS = 40, ORDERS = 50000, DEEP = 16384 };

static double now(void) {
    struct timespec t;
    clock_gettime(CLOCK_MONOTONIC, &t);
    return (double)t.tv_sec * 1e6 + (double)t.tv_nsec / 1e3;
}

/* A whole order: accepted, sent, read back with a good answer. */
static int order(pm_host *host, const uint8_t *answer, uint16_t word) {
    pm_sending frame;
    if (pm_host_order(host, 0, PM_VOUT_COMMAND, word) || pm_host_frame(host, &frame))
        return 0;
    pm_host_write_ended(host, 1);
    pm_host_frame(host, &frame);
    return pm_host_read_ended(host, answer, 5).kind == PM_DONE;
}

/* A bus of no cost: each write is acknowledged, and each read has the answer that the context points to. */
static uint8_t free_write(void *context, const uint8_t *bytes, uint64_t count) {
    (void)context, (void)bytes, (void)count;
    return PM_ACKED;
}

static uint64_t free_read(void *context, const uint8_t *request, uint64_t count, uint8_t *answer, uint64_t room) {
    const uint8_t *bytes = *(const uint8_t **)context + 1;
    (void)request, (void)count;
    if (room == 4)
        memcpy(answer, bytes, 4);
    else
        memcpy(answer, bytes, 2);
    return room;
}

static uint32_t free_now(void *context) {
    (void)context;
    return 0;
}

static void free_wait(void *context, uint32_t milliseconds) {
    (void)context, (void)milliseconds;
}

/* A whole order by the loop of the header, over the bus of no cost, which waits for a busy part or doesn't. */
static int order_by_loop(pm_host *host, const uint8_t *answer, uint16_t word, int is_patient) {
    pm_patient bus = {free_write, free_read, &answer, free_now, free_wait, -1, 0, 0, 0, 0, 0, 0};
    if (pm_host_order(host, 0, PM_VOUT_COMMAND, word))
        return 0;
    return (is_patient ? pm_patient_run(host, &bus) : pm_host_run(host, free_write, free_read, &answer)).kind == PM_DONE;
}

/* A part of which the first output is on at VOUT_COMMAND: its answers by command code, and the one of two words that it holds. */
typedef struct {
    uint8_t answers[2][0x40][4];
    uint8_t held;
} table_part;

static void put_answer(table_part *part, uint8_t code, uint8_t count, uint16_t word, int held) {
    uint8_t bytes[9] = {0xB0, 0x06, 0x02, 0x00, code, 0xB1, count, (uint8_t)word, (uint8_t)(word >> 8)};
    uint8_t *to = part->answers[held][code];
    memcpy(to, bytes + 6, (size_t)count + 1);
    to[count + 1] = pm_pec(bytes, (uint64_t)count + 7);
}

static void new_table_part(table_part *part) {
    for (int held = 0; held < 2; held++) {
        const uint8_t protect[4] = {0xB0, PM_WRITE_PROTECT, 0xB1, 0x00};
        put_answer(part, 0x20, 1, 0x14, held); /* VOUT_MODE: ULINEAR16, 2^-12 V a step */
        put_answer(part, PM_OPERATION, 1, 0x80, held);
        put_answer(part, PM_VOUT_COMMAND, 2, (uint16_t)(0x34CD + held), held);
        put_answer(part, PM_VOUT_MAX, 2, 0x4000, held);
        put_answer(part, PM_VOUT_MIN, 2, 0x0000, held);
        part->answers[held][PM_WRITE_PROTECT][0] = 0x00;
        part->answers[held][PM_WRITE_PROTECT][1] = pm_pec(protect, 4);
    }
    part->held = 0;
}

static uint8_t table_write(void *context, const uint8_t *bytes, uint64_t count) {
    (void)count;
    ((table_part *)context)->held = bytes[5] != 0xCD;
    return PM_ACKED;
}

static uint64_t table_read(void *context, const uint8_t *request, uint64_t count, uint8_t *answer, uint64_t room) {
    const table_part *part = (const table_part *)context;
    const uint8_t *from = part->answers[part->held][request[count - 1]];
    for (uint64_t i = 0; i < room; i++)
        answer[i] = from[i];
    return room;
}

/* A voltage is set, of the two words the one that isn't held. */
static int set(pm_host *host, table_part *part, int word) {
    int64_t microvolts = word ? 3300293 : 3300048;
    pm_course course;
    return pm_course_microvolts(&course, 0, PM_VOUT_COMMAND, microvolts, 40) == PM_OK &&
           pm_host_run_course(host, &course, table_write, table_read, part).kind == PM_REACHED && part->held == word;
}

/* Answers the request that is being sent by these bytes. */
static void answer(pm_host *host, const uint8_t *payload, uint8_t count) {
    uint8_t bytes[24];
    pm_sending frame;
    pm_host_frame(host, &frame);
    memcpy(bytes, frame.bytes, frame.length);
    uint8_t *back = bytes + frame.length;
    back[0] = frame.bytes[0] | 1;
    back[1] = count;
    memcpy(back + 2, payload, count);
    back[2 + count] = pm_pec(bytes, (uint64_t)frame.length + 2 + count);
    pm_host_read_ended(host, back, (uint64_t)count + 3);
}

/* The host learns an output's format: DIRECT with m 409, b 2 and R 1, or ULINEAR16 with 2^-12 V a step. */
static void learn(pm_host *host, uint8_t output, int is_direct) {
    pm_host_learn(host, output);
    answer(host, is_direct ? (const uint8_t[]){0x40} : (const uint8_t[]){0x14}, 1);
    if (is_direct)
        answer(host, (const uint8_t[]){0x99, 0x01, 0x02, 0x00, 0x01}, 5);
}

/* Orders words for an output's registers whose answers are all lost. How many words they list then. */
static long fill(pm_host *host, uint8_t output) {
    static const uint8_t codes[] = {PM_VOUT_COMMAND, PM_VOUT_MAX, PM_VOUT_MARGIN_HIGH, PM_VOUT_MARGIN_LOW, PM_VOUT_MIN};
    long listed = 0;
    for (size_t i = 0; i < sizeof codes; i++) {
        pm_sending frame;
        pm_words words;
        pm_host_check(host, output, codes[i]);
        answer(host, (const uint8_t[]){0x00, 0x10}, 2);
        for (int at = 0; at < 16; at++) {
            pm_host_order(host, output, codes[i], (uint16_t)(at * 0x2F35));
            while (pm_host_frame(host, &frame) == PM_OK && frame.kind != PM_NOTHING) {
                if (frame.kind == PM_WRITE)
                    pm_host_write_ended(host, 0);
                else
                    pm_host_read_ended(host, frame.bytes, 0);
            }
        }
        pm_host_possible_words(host, output, codes[i], &words);
        listed += words.count;
    }
    return listed;
}

/* So many bands, of two outputs in turn: how many listed words were looked at. */
static long bands(pm_host *host, long count) {
    long listed[2] = {fill(host, 0), fill(host, 1)}, words = 0;
    for (long i = 0; i < count; i++) {
        pm_band band;
        if (pm_host_band(host, i & 1, &band) == PM_OK && band.least < band.greatest)
            words += listed[i & 1];
    }
    return words;
}

static uint8_t plain_pec(uint8_t pec, const uint8_t *bytes, size_t count) {
    for (size_t i = 0; i < count; i++) {
        pec ^= bytes[i];
        for (int bit = 0; bit < 8; bit++)
            pec = (uint8_t)(pec << 1 ^ (pec & 0x80 ? 0x07 : 0));
    }
    return pec;
}

__attribute__((noinline)) static int plain_order(const uint8_t *answer, uint16_t word, uint8_t *frame) {
    uint8_t write[8] = {0xB0, 0x05, 0x04, 0x00, 0x21, (uint8_t)word, (uint8_t)(word >> 8), 0};
    uint8_t request[5] = {0xB0, 0x06, 0x02, 0x00, 0x21};
    write[7] = plain_pec(0, write, 7);
    memcpy(frame, write, 8);
    uint8_t pec = plain_pec(plain_pec(0, request, 5), answer, 4);
    return answer[0] == 0xB1 && answer[1] == 2 && pec == answer[4] && (answer[2] | answer[3] << 8) == word;
}

/* Paints the stack below, calls, and counts what was written. */
static unsigned char *bottom;
__attribute__((noinline)) static void paint(void) {
    volatile unsigned char deep[DEEP];
    for (int i = 0; i < DEEP; i++)
        deep[i] = 0xA5;
    bottom = (unsigned char *)deep;
}
__attribute__((noinline)) static size_t written(void) {
    size_t clean = 0;
    while (clean < DEEP && bottom[clean] == 0xA5)
        clean++;
    return DEEP - clean;
}

#define DEEPEST(name, call)                                        \
    do {                                                           \
        paint();                                                   \
        call;                                                      \
        size_t bytes = written();                                  \
        printf("stack %-16s %5zu bytes\n", name, bytes);           \
    } while (0)

int main(int count, char **arguments) {
    uint8_t answers[2][5] = {{0xB1, 0x02, 0xCD, 0x34, 0}, {0xB1, 0x02, 0xCE, 0x34, 0}};
    static const uint8_t request[5] = {0xB0, 0x06, 0x02, 0x00, 0x21};
    uint8_t both[9], kept[8];
    pm_host host;
    pm_sending frame;
    pm_words words;
    pm_band band;
    static pm_known known;
    pm_name name;
    long done = 0;
    memcpy(both, request, 5);
    for (int i = 0; i < 2; i++) {
        memcpy(both + 5, answers[i], 4);
        answers[i][4] = pm_pec(both, 9);
    }
    if (pm_host_size() > sizeof host) {
        fprintf(stderr, "the archive's host doesn't fit that of this pmhost.h\n");
        return 1;
    }
    table_part part;
    pm_host_new(&host, 0x58, 8, 3);
    for (uint8_t output = 0; output < 8; output++)
        pm_host_no_limits(&host, output);
    if (count > 3) {
        long all = atol(arguments[3]);
        int is_direct = !strcmp(arguments[2], "direct");
        int is_patient = !strcmp(arguments[1], "patient"), is_run = is_patient || !strcmp(arguments[1], "run");
        int is_set = !strcmp(arguments[1], "set");
        if (is_set)
            new_table_part(&part);
        else if (strcmp(arguments[1], "loop")) {
            learn(&host, 0, is_direct);
            learn(&host, 1, is_direct);
        }
        if (is_set || !strcmp(arguments[1], "guard"))
            pm_host_set_limits(&host, 0, 3200000, 3400000);
        if (!strcmp(arguments[1], "bands"))
            done = bands(&host, all);
        else
            for (long i = 0; i < all; i++)
                done += is_set     ? set(&host, &part, !(i & 1))
                        : is_run   ? order_by_loop(&host, answers[i & 1], (uint16_t)(0x34CD + (i & 1)), is_patient)
                                   : order(&host, answers[i & 1], (uint16_t)(0x34CD + (i & 1)));
        printf("%ld\n", done);
        return 0;
    }
    double best = 1e9, plain = 1e9;
    for (int round = 0; round < ROUNDS; round++) {
        double start = now();
        for (long i = 0; i < ORDERS; i++)
            done += order(&host, answers[i & 1], (uint16_t)(0x34CD + (i & 1)));
        double middle = now();
        for (long i = 0; i < ORDERS; i++)
            done += plain_order(answers[i & 1], (uint16_t)(0x34CD + (i & 1)), kept);
        double end = now();
        best = middle - start < best ? middle - start : best;
        plain = end - middle < plain ? end - middle : plain;
    }
    printf("order %.3f us, plain code %.3f us: the best of %d rounds; %ld of %d done\n", best / ORDERS, plain / ORDERS,
           ROUNDS, done, 2 * ROUNDS * ORDERS);
    DEEPEST("of nothing", (void)0);
    DEEPEST("new", pm_host_new(&host, 0x58, 8, 3));
    DEEPEST("no limits", pm_host_no_limits(&host, 0));
    DEEPEST("order", pm_host_order(&host, 0, PM_VOUT_COMMAND, 0x34CD));
    DEEPEST("sending", pm_host_frame(&host, &frame));
    DEEPEST("finished", pm_host_write_ended(&host, 1));
    DEEPEST("got", pm_host_read_ended(&host, answers[0], 5));
    DEEPEST("got, a surprise", (pm_host_check(&host, 0, PM_VOUT_COMMAND), pm_host_read_ended(&host, answers[1], 5)));
    pm_host_learn(&host, 0);
    DEEPEST("got, a learn", pm_host_read_ended(&host, (const uint8_t[]){0xB1, 0x01, 0x14, 0x4E}, 4));
    DEEPEST("order_micro", pm_host_order_microvolts(&host, 0, PM_VOUT_COMMAND, 3300000));
    pm_host_set_limits(&host, 0, 0, 16000000);
    DEEPEST("order, limited", (pm_host_restart(&host), pm_host_order(&host, 0, PM_VOUT_COMMAND, 0x34CD)));
    pm_host_restart(&host), pm_host_learn(&host, 0), pm_host_read_ended(&host, (const uint8_t[]){0xB1, 0x01, 0x14, 0x4E}, 4);
    DEEPEST("order, on", pm_host_order(&host, 0, PM_OPERATION, 0x80));
    DEEPEST("narrow", pm_host_set_limits(&host, 0, 1, 15000000));
    DEEPEST("band", pm_host_band(&host, 0, &band));
    DEEPEST("known", pm_host_known_cells(&host, &known));
    DEEPEST("name", pm_refusal_name(PM_H6_TOO_UNCERTAIN, &name));
    DEEPEST("possible", pm_host_possible_words(&host, 0, PM_VOUT_COMMAND, &words));
    DEEPEST("restart", pm_host_restart(&host));
    return 0;
}
