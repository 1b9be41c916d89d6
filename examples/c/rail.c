/* A rail is surveyed and set by courses over a bus with a model part: what it commands before, on the way and afterwards, with each
 * write; what is refused, and how a bus that loses every write ends. Then random rails under faults: what the output commands
 * after each frame is its old voltage or its new one, and where the end is PM_REACHED the part holds each wanted word. */
#include "pmhost.h"
#include "pmpart.h"
#include <stdio.h>
#include <stdlib.h>
#include <string.h>

/* A bus: its part, how it treats frames, and what came of them. */
typedef struct {
    pm_part part;
    unsigned faults;    /* 0 none; 1 random ones; 2 every write is acknowledged and lost; 3 nobody is there; 4 one write is
                         * heard, and neither its acknowledgement nor an answer comes back before the next write or check;
                         * 5 a bit of each answer's packet error code is another one; 6 so from the next write on */
    unsigned is_told;   /* each write is printed */
    unsigned writes, reads; /* how many were sent */
    unsigned lost;      /* how many answers are still lost */
    int64_t old, wanted; /* what the output commanded first, and what it is to command */
    unsigned others;    /* after how many frames it commanded anything else */
    pm_part other;      /* another part, which stands in the place of this one from this read on, where it isn't 0 */
    unsigned exchange;
} bus;

static uint64_t seed = 1;

static unsigned draw(unsigned below) {
    seed ^= seed << 13;
    seed ^= seed >> 7;
    seed ^= seed << 17;
    return (unsigned)((seed >> 11) % below);
}

static int64_t commanded(const pm_part *part) {
    int64_t microvolts = -1;
    pm_part_commanded_microvolts(part, 0, &microvolts);
    return microvolts;
}

static void look(bus *on) {
    int64_t now = commanded(&on->part);
    on->others += now != on->old && now != on->wanted;
}

static uint8_t put(void *context, const uint8_t *bytes, uint64_t count) {
    bus *on = (bus *)context;
    pm_part_reply reply;
    unsigned fate = on->faults == 1 ? draw(6) : 5;
    int taken = 0;
    on->writes++;
    if (on->faults == 3)
        return PM_UNHEARD;
    if (on->faults == 2)
        return PM_ACKED;
    if (on->faults == 4)
        on->lost = 2;
    if (on->faults == 6)
        on->faults = 5;
    if (fate > 0) /* 1: cut; 2: heard twice */
        taken = pm_part_hear(&on->part, bytes, fate == 1 ? count - 1 : count, 0, &reply) == PM_HEARD_TAKEN;
    if (fate == 2)
        pm_part_hear(&on->part, bytes, count, 0, &reply);
    if (on->is_told)
        printf("  writes %02Xh, commands %ld uV\n", bytes[1] == 0x05 ? bytes[4] : bytes[1], (long)commanded(&on->part));
    look(on);
    return (fate == 3 ? !taken : taken) ? PM_ACKED : PM_NOT_ACKED;
}

static uint64_t ask(void *context, const uint8_t *request, uint64_t count, uint8_t *answer, uint64_t room) {
    bus *on = (bus *)context;
    pm_part_reply reply;
    unsigned fate = on->faults == 1 ? draw(6) : 5;
    uint64_t came;
    on->reads++;
    if (on->exchange != 0 && --on->exchange == 0)
        on->part = on->other;
    if (on->faults == 3 || pm_part_hear(&on->part, request, count, 1, &reply) != PM_HEARD_ANSWERED)
        return 0;
    came = (uint64_t)reply.length - 1;
    if (came > room)
        came = room;
    if (fate == 0)
        reply.bytes[1 + draw((unsigned)came)] ^= 0x10;
    if (on->faults == 5)
        reply.bytes[came] ^= 0x10;
    memcpy(answer, reply.bytes + 1, (size_t)came);
    look(on);
    if (on->lost != 0) {
        on->lost--;
        on->faults = 0;
        return 0;
    }
    return fate == 1 ? 0 : fate == 2 ? came - 1 : came;
}

static bus new_bus_of(uint8_t mode, uint16_t operation, uint16_t command, uint16_t max, uint16_t high, uint16_t low, uint16_t min) {
    bus on;
    pm_part_config config;
    pm_part_output output;
    memset(&on, 0, sizeof on);
    memset(&config, 0, sizeof config);
    memset(&output, 0, sizeof output);
    config.address = 0x58;
    config.outputs = 1;
    output.mode = mode;
    output.operation = operation;
    output.command = command;
    output.max = max;
    output.high = high;
    output.low = low;
    output.min = min;
    config.starts[0] = output;
    if (pm_part_new(&on.part, &config) != PM_PART_OK)
        exit(1);
    on.old = on.wanted = commanded(&on.part);
    return on;
}

static bus new_bus(uint16_t operation, uint16_t command, uint16_t max, uint16_t high, uint16_t low, uint16_t min) {
    return new_bus_of(0x14, operation, command, max, high, low, min); /* ULINEAR16, 2^-12 V */
}

static void tell(const char *what, pm_course_end end) {
    static const char *const kinds[] = {"?", "reached", "refused", "still differs", "spent", "another format", "another source"};
    pm_name name;
    printf("%s: %s", what, kinds[end.kind]);
    if (end.kind == PM_REFUSED && pm_refusal_name(end.number, &name) == PM_OK)
        printf(" %s", name.text);
    if (end.code)
        printf(" %02Xh", end.code);
    if (end.kind == PM_STILL_DIFFERS || end.kind == PM_OTHER_FORMAT || end.kind == PM_OTHER_SOURCE)
        printf(", %04X", end.word);
    if (end.kind == PM_SPENT && end.fault == PM_NO_ANSWER)
        printf(", no answer came to the last frame");
    if (end.kind == PM_SPENT && end.fault == PM_NO_ACKNOWLEDGEMENT)
        printf(", the last write wasn't acknowledged");
    if (end.kind == PM_SPENT && end.fault >= PM_F1_NOT_OURS && pm_refusal_name((uint8_t)end.fault, &name) == PM_OK)
        printf(", the last answer had %s", name.text);
    printf("\n");
}

/* Courses to words, to a voltage, and to a byte of OPERATION, carried out. */
static pm_course_end apply(pm_host *host, const pm_wanted *wanted, uint16_t tries, bus *on) {
    pm_course course;
    if (pm_course_words(&course, 0, wanted, tries) != PM_OK)
        exit(1);
    return pm_host_run_course(host, &course, put, ask, on);
}

static pm_course_end set(pm_host *host, uint8_t code, int64_t microvolts, uint16_t tries, bus *on) {
    pm_course course;
    if (pm_course_microvolts(&course, 0, code, microvolts, tries) != PM_OK)
        exit(1);
    return pm_host_run_course(host, &course, put, ask, on);
}

static pm_course_end power(pm_host *host, uint8_t byte, uint16_t tries, bus *on) {
    pm_course course;
    if (pm_course_power(&course, 0, byte, tries) != PM_OK)
        exit(1);
    return pm_host_run_course(host, &course, put, ask, on);
}

static void tell_rail(const pm_host *host) {
    static const char *const powers[] = {"on or off", "on", "off"};
    pm_rail rail;
    if (pm_host_rail(host, 0, &rail) != PM_OK)
        exit(1);
    printf("  the rail is %s, ", powers[rail.power]);
    if (rail.band == PM_OK)
        printf("%ld to %ld uV, ", (long)rail.ends.least, (long)rail.ends.greatest);
    printf("%s its limits\n", rail.within == PM_WITHIN ? "within" : rail.within == PM_OUTSIDE ? "outside" : "maybe outside");
}

static pm_host new_host(void) {
    pm_host host;
    if (pm_host_new(&host, 0x58, 1, 2) != PM_OK || pm_host_set_limits(&host, 0, 900000, 3600000) != PM_OK)
        exit(1);
    return host;
}

static void story(void) {
    pm_wanted volts, high;
    pm_course survey;
    pm_host host = new_host();
    bus on = new_bus(0x80, 0x1000, 0x1800, 0x1800, 0x1000, 0x0800);
    memset(&volts, 0, sizeof volts);
    volts.command.has = volts.max.has = 1;
    volts.command.word = 0x34CD; /* 3.3 V */
    volts.max.word = 0x3800;     /* 3.5 V */
    high = volts;
    high.command.word = 0x4000; /* 4 V */
    tell_rail(&host);
    if (pm_course_survey(&survey, 0, 8) != PM_OK)
        exit(1);
    tell("survey", pm_host_run_course(&host, &survey, put, ask, &on));
    tell_rail(&host);
    tell("apply 4 V", apply(&host, &high, 40, &on));
    on.is_told = 1;
    tell("apply 3.3 V", apply(&host, &volts, 40, &on));
    tell_rail(&host);
    tell("apply 3.3 V again", apply(&host, &volts, 40, &on));
    printf("  %u writes and %u reads in all\n", on.writes, on.reads);
    on.faults = 4;
    volts.command.word = 0x3400;
    on.writes = on.reads = 0;
    tell("apply 3.25 V, the answers to one order are lost", apply(&host, &volts, 40, &on));
    printf("  %u writes and %u reads\n", on.writes, on.reads);
    volts.command.word = 0x34CD;
    tell("apply 3.3 V with 6 tries", apply(&host, &volts, 6, &on));
    tell("apply 3.3 V with 7 tries", apply(&host, &volts, 7, &on));
    on.writes = on.reads = 0;
    tell("apply 3.3 V with 8 tries", apply(&host, &volts, 8, &on));
    printf("  %u writes and %u reads\n", on.writes, on.reads);
    volts.command.word = 0x3000;
    on.faults = 2;
    tell("apply 3 V, writes are lost", apply(&host, &volts, 40, &on));
    on.faults = 3;
    tell("apply 3 V, nobody is there", apply(&host, &volts, 40, &on));
    on.faults = 5;
    tell("apply 3 V, answers are damaged", apply(&host, &volts, 40, &on));
    on.faults = 6;
    volts.command.word = 0x3400;
    tell("apply 3.25 V, answers after the order are damaged", apply(&host, &volts, 40, &on));
    on.faults = 0;
    volts.command.word = 0x3000;
    if (pm_host_order(&host, 0, PM_WRITE_PROTECT, 0x80) != PM_OK || pm_host_run(&host, put, ask, &on).kind != PM_DONE)
        exit(1);
    tell("apply 3 V, protected", apply(&host, &volts, 40, &on));
    tell_rail(&host);
}

/* The same by voltages. */
static void voltages(void) {
    pm_course none;
    pm_host host = new_host();
    bus on = new_bus(0x80, 0x1000, 0x4000, 0x1800, 0x1000, 0x0800);
    on.is_told = 1;
    tell("set 3.3 V", set(&host, PM_VOUT_COMMAND, 3300000, 40, &on));
    tell_rail(&host);
    tell("set VOUT_MAX to 3.5 V", set(&host, PM_VOUT_MAX, 3500000, 40, &on));
    tell("set the margins to 3.4 V", set(&host, PM_VOUT_MARGIN_HIGH, 3400000, 40, &on));
    tell("and to 3 V", set(&host, PM_VOUT_MARGIN_LOW, 3000000, 40, &on));
    tell("set VOUT_MIN to 2.5 V", set(&host, PM_VOUT_MIN, 2500000, 40, &on));
    tell("set 4 V", set(&host, PM_VOUT_COMMAND, 4000000, 40, &on));
    tell("set 20 V", set(&host, PM_VOUT_COMMAND, 20000000, 40, &on));
    if (pm_course_microvolts(&none, 0, PM_OPERATION, 3300000, 40) != PM_H5_BAD_WORD)
        exit(1);
    on.reads = 0;
    tell("set 3.25 V without a try", set(&host, PM_VOUT_COMMAND, 3250000, 0, &on));
    tell("set 3.25 V with one", set(&host, PM_VOUT_COMMAND, 3250000, 1, &on));
    on.faults = 5;
    tell("set 3.25 V, answers are damaged", set(&host, PM_VOUT_COMMAND, 3250000, 2, &on));
    printf("  %u reads\n", on.reads);
    on.faults = 0;
    on.other = new_bus_of(0x15, 0x80, 0x0800, 0x4000, 0x0C00, 0x0800, 0x0400).part; /* 2^-11 V */
    on.exchange = 2;
    tell("set 3.25 V, the part is exchanged after the learn", set(&host, PM_VOUT_COMMAND, 3250000, 40, &on));
    on.other = new_bus(0x80, 0x1000, 0x4000, 0x1800, 0x1000, 0x0800).part;
    on.exchange = 1;
    tell("set 3.25 V, the part was exchanged before", set(&host, PM_VOUT_COMMAND, 3250000, 40, &on));
    tell_rail(&host);
}

/* The same of OPERATION: off is the first frame, and nothing is read before it. */
static void powers(void) {
    pm_host host = new_host();
    bus on = new_bus(0x80, 0x1000, 0x4000, 0x1800, 0x0C00, 0x0800);
    on.is_told = 1;
    tell("off", power(&host, 0x00, 9, &on));
    tell_rail(&host);
    printf("  %u writes and %u reads\n", on.writes, on.reads);
    tell("on", power(&host, 0x80, 40, &on));
    tell_rail(&host);
    tell("margin high, 1.5 V", power(&host, 0xA8, 40, &on));
    tell_rail(&host);
    on.faults = 3;
    tell("off, nobody is there", power(&host, 0x00, 2, &on));
    tell_rail(&host);
}

/* A word that a part holds. */
static uint16_t held(const bus *on, uint8_t code) {
    uint16_t word = 0;
    pm_part_word(&on->part, 0, code, &word);
    return word;
}

static int is_held(const bus *on, uint8_t code, pm_wish wish) {
    return !wish.has || held(on, code) == wish.word;
}

static uint16_t word(void) {
    return (uint16_t)(0x1000 + 0x400 * draw(4));
}

static pm_wish wish(void) {
    pm_wish found = {0, 0};
    found.has = (uint16_t)draw(2);
    found.word = found.has ? word() : 0;
    return found;
}

static void random_rails(unsigned rails) {
    static const uint16_t bytes[] = {0x00, 0x80, 0x98, 0xA8};
    unsigned ends[7] = {0, 0, 0, 0, 0, 0, 0}, others = 0, unheld = 0, idle = 0, early = 0;
    while (rails--) {
        pm_host host = new_host();
        pm_wanted wanted;
        pm_course_end end;
        /* (arguments of a call may be drawn in any order, and declarations in this one alone) */
        uint16_t min = word(), margin_low = word(), margin_high = word(), max = word(), command = word();
        bus on = new_bus(bytes[draw(4)], command, max, margin_high, margin_low, min), to;
        wanted.command = wish(), wanted.max = wish(), wanted.margin_high = wish(), wanted.margin_low = wish(), wanted.min = wish();
        to = new_bus(held(&on, PM_OPERATION), wanted.command.has ? wanted.command.word : held(&on, PM_VOUT_COMMAND),
                     wanted.max.has ? wanted.max.word : held(&on, PM_VOUT_MAX),
                     wanted.margin_high.has ? wanted.margin_high.word : held(&on, PM_VOUT_MARGIN_HIGH),
                     wanted.margin_low.has ? wanted.margin_low.word : held(&on, PM_VOUT_MARGIN_LOW),
                     wanted.min.has ? wanted.min.word : held(&on, PM_VOUT_MIN));
        on.wanted = commanded(&to.part);
        on.faults = draw(4) != 0;
        end = apply(&host, &wanted, 60, &on);
        ends[end.kind]++;
        others += on.others;
        early += end.kind == PM_REFUSED && on.writes != 0;
        if (end.kind != PM_REACHED)
            continue;
        idle += on.writes == 0;
        unheld += !(is_held(&on, PM_VOUT_COMMAND, wanted.command) && is_held(&on, PM_VOUT_MAX, wanted.max) &&
                    is_held(&on, PM_VOUT_MARGIN_HIGH, wanted.margin_high) &&
                    is_held(&on, PM_VOUT_MARGIN_LOW, wanted.margin_low) && is_held(&on, PM_VOUT_MIN, wanted.min) &&
                    commanded(&on.part) == on.wanted);
    }
    printf("random rails: %u reached, %u of them with nothing to write, %u refused, %u still differ, %u spent\n", ends[1], idle,
           ends[2], ends[3], ends[4]);
    printf("frames after which another voltage was commanded: %u; rails reached that hold another word: %u; writes of a rail "
           "that was refused: %u\n", others, unheld, early);
}

int main(int count, char **words) {
    if (pm_course_size() != sizeof(pm_course) || pm_course_version() != PM_COURSE_VERSION)
        return 1;
    story();
    voltages();
    powers();
    random_rails(count > 1 ? (unsigned)atol(words[1]) : 3000);
    return 0;
}
