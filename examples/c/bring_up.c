/* The three rails of an FPGA on two parts: cut as they are brought up, and brought back; brought up, each looked at before the next begins; one
 * of them lost, and all shut down in reverse while the second part is gone. Each list is printed with what was said, and what the rails are. */
#include "pmhost.h"
#include "pmpart.h"
#include <stdio.h>
#include <stdlib.h>
#include <string.h>

/* A part on a bus, which goes away after so many transfers, where this isn't 0, and whose output `tripped` is at 0 V. */
typedef struct {
    pm_part part;
    unsigned left;
    int tripped;
} bus;

static int is_gone(bus *on) {
    if (on->left > 1)
        on->left--;
    return on->left == 1;
}

/* Each rail is at what its output commands, or at 0 V. */
static void settle(bus *on) {
    uint8_t output, is_on = 0;
    for (output = 0; pm_part_on_state(&on->part, output, &is_on) == PM_PART_OK; output++) {
        uint16_t word = 0;
        pm_part_word(&on->part, output, PM_VOUT_COMMAND, &word);
        pm_part_set_reading(&on->part, output, 0x8B, (uint16_t)(is_on && output != on->tripped ? word : 0));
    }
}

static uint8_t put(void *context, const uint8_t *bytes, uint64_t count) {
    bus *on = (bus *)context;
    pm_part_reply reply;
    uint8_t heard;
    if (is_gone(on))
        return PM_UNHEARD;
    heard = pm_part_hear(&on->part, bytes, count, 0, &reply);
    settle(on);
    return heard == PM_HEARD_TAKEN ? PM_ACKED : PM_NOT_ACKED;
}

static uint64_t ask(void *context, const uint8_t *request, uint64_t count, uint8_t *answer, uint64_t room) {
    bus *on = (bus *)context;
    pm_part_reply reply;
    uint64_t came;
    if (is_gone(on) || pm_part_hear(&on->part, request, count, 1, &reply) != PM_HEARD_ANSWERED)
        return 0;
    came = (uint64_t)reply.length - 1 < room ? (uint64_t)reply.length - 1 : room;
    memcpy(answer, reply.bytes + 1, (size_t)came);
    return came;
}

/* The rails: which part has each, its output, the word that it starts with, its voltage and its limits. */
static const struct {
    const char *name;
    uint8_t part, output;
    uint16_t stored;
    int32_t volts, least, most;
} rails[] = {
    {"VCCINT", 0, 0, 0x0D80, 850000, 825000, 876000},
    {"VCCAUX", 0, 1, 0x1C00, 1800000, 1710000, 1890000},
    {"VCCO", 1, 0, 0x3400, 3300000, 3135000, 3465000},
};
enum { RAILS = sizeof rails / sizeof rails[0], PARTS = 2, TRIES = 40 };

static bus buses[PARTS];
static pm_host hosts[PARTS];
static pm_host *const at_hosts[PARTS] = {&hosts[0], &hosts[1]};
static void *const at_buses[PARTS] = {&buses[0], &buses[1]};

static void begin(void) {
    unsigned at;
    for (at = 0; at < PARTS; at++) {
        pm_part_config config;
        unsigned each;
        memset(&config, 0, sizeof config);
        config.address = (uint8_t)(0x40 + at);
        for (each = 0; each < RAILS; each++)
            if (rails[each].part == at) {
                pm_part_output off = {0x14, 0, 0x00, 0, 0x4000, 0x1100, 0x0F00, 0x0000}; /* ULINEAR16, 2^-12 V, off */
                off.command = rails[each].stored;
                config.starts[rails[each].output] = off;
                config.outputs++;
            }
        buses[at].left = 0;
        buses[at].tripped = -1;
        if (pm_part_new(&buses[at].part, &config) != PM_PART_OK || pm_host_new(&hosts[at], config.address, config.outputs, 3) != PM_OK)
            exit(1);
    }
    for (at = 0; at < RAILS; at++)
        if (pm_host_set_limits(&hosts[rails[at].part], rails[at].output, rails[at].least, rails[at].most) != PM_OK)
            exit(1);
}

static const char *on_or_off(unsigned rail) {
    uint8_t is_on = 0;
    pm_part_on_state(&buses[rails[rail].part].part, rails[rail].output, &is_on);
    return is_on == 1 ? "on" : "off";
}

static void tell_rails(void) {
    unsigned at;
    for (at = 0; at < RAILS; at++) {
        int64_t microvolts = 0;
        pm_part_commanded_microvolts(&buses[rails[at].part].part, rails[at].output, &microvolts);
        printf("  %s is %s, %ld uV\n", rails[at].name, on_or_off(at), (long)microvolts);
    }
}

/* The machine, and what it keeps of each step. */
static pm_sequence sequence;
static pm_sequence_step steps[2 * RAILS];
static pm_sequence_record records[2 * RAILS];

static void wait_for(void *context, uint32_t milliseconds) {
    (void)context;
    (void)milliseconds; /* a board waits here */
}

static const char *name_of(uint16_t step) {
    unsigned at;
    for (at = 0; at < RAILS; at++)
        if (rails[at].part == steps[step].host && rails[at].output == steps[step].output)
            return rails[at].name;
    return "?";
}

static int told(void *context, const pm_sequence *is, uint8_t answer) {
    (void)context;
    if (answer == PM_TOLD && is->said.kind == PM_RAIL_DOES && is->said.has_microvolts)
        printf("  %s delivers %ld uV\n", name_of(is->said.step), (long)is->said.microvolts);
    else if (answer == PM_TOLD && is->said.kind != PM_RAIL_DOES)
        printf("  %s is left\n", name_of(is->said.step));
    return 1;
}

/* Carries the first `count` steps out. */
static void run(const char *what, uint64_t count, uint8_t rules) {
    const pm_sequence_said *said = &sequence.said;
    printf("%s:\n", what);
    pm_sequence_new(&sequence, TRIES, rules);
    if (pm_run_sequence(&sequence, at_hosts, at_buses, PARTS, steps, count, records, 2 * RAILS, put, ask, wait_for, told) != PM_ENDED)
        exit(1);
    if (said->kind == PM_REACHED)
        printf("%s: reached", what);
    else if (said->kind == PM_STEPS_LEFT)
        printf("%s: %u of %u steps left", what, said->word, said->step);
    else
        printf("%s: %s %s", what, name_of(said->step), said->kind == PM_RAIL_FAILS ? "fails" : said->kind == PM_SPENT ? "is spent" : "stops");
    printf("\n");
    tell_rails();
}

/* Two steps a rail: its voltage while it is off, then on, and it has to deliver before the next rail begins. */
static void bring_up(void) {
    unsigned at;
    for (at = 0; at < RAILS; at++) {
        steps[2 * at] = pm_sets(rails[at].part, rails[at].output, rails[at].volts);
        steps[2 * at + 1] = pm_turns(rails[at].part, rails[at].output, 0x80);
        steps[2 * at + 1].looks = PM_LOOK_MUST;
    }
    run("up", 2 * RAILS, PM_KEEPS_BACK | PM_ENDS_AT_RESTART);
}

/* The steps that undo those that have begun, the newest first, as a list of their own. */
static void go_back(void) {
    uint16_t begun = sequence.begun, at;
    for (at = 0; at < begun; at++)
        steps[at] = records[begun - 1 - at].back;
    run("back", begun, 0);
}

/* Surveys each rail, and looks at it. */
static void look(void) {
    unsigned at;
    for (at = 0; at < RAILS; at++) {
        steps[at] = pm_turns(rails[at].part, rails[at].output, 0);
        steps[at].kind = PM_STEP_SURVEYS;
        steps[at].looks = PM_LOOK_MUST;
    }
    run("look", RAILS, 0);
}

/* Turns the rails off, the last one first. One that isn't known to be off is left. */
static void shut_down(void) {
    unsigned at;
    for (at = 0; at < RAILS; at++)
        steps[at] = pm_turns(rails[RAILS - 1 - at].part, rails[RAILS - 1 - at].output, 0x00);
    run("down", RAILS, PM_LEAVES);
}

int main(void) {
    begin();
    buses[1].left = 22; /* the second part goes away once the voltage of VCCO was written */
    bring_up();
    buses[1].left = 0; /* and comes back */
    go_back();
    bring_up();
    buses[0].tripped = 1; /* VCCAUX trips */
    settle(&buses[0]);
    look();
    buses[1].left = 1; /* the second part is gone */
    shut_down();
    return 0;
}
