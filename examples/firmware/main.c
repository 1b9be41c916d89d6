/* Firmware that brings four supply rails of two parts up, one after another, and looks after them. Each rail gets its voltage while it is off, and
 * is then turned on; before each further one those that are on are looked at. If anything fails, or five seconds pass, all go off in reverse
 * order, and are brought up anew. Then they are looked at round by round. Nothing here takes memory or knows the board: bus.h and console.h
 * are what a board has to have. */
#include "bus.h"
#include "console.h"
#include "pmhost_patient.h"
#include <stddef.h>

enum { PASSES = 3, ROUNDS = 12, PARTS = 2, RAILS = 4, TRIES = 64, OFF_TRIES = 4, TIMES = 3, DEADLINE = 5000 };
enum { STEPS = RAILS * (RAILS + 5) / 2, ON_OFF_CONFIG = 0x02, MFR_MODEL = 0x9A, ALL_PROTECTED = 0x80 };

typedef struct {
    const char *name, *model; /* MFR_MODEL has to begin with it; NULL if any part will do */
    uint8_t address, outputs;
} part;

static const part parts[PARTS] = {{"u1", "EX42", 0x58, 2}, {"u2", NULL, 0x59, 2}};

typedef struct {
    const char *name;
    uint8_t part, output;
    int32_t microvolts, least, most; /* nothing outside these is ever ordered */
} rail;

/* In the order in which they come up. */
static const rail rails[RAILS] = {
    {"core", 0, 0, 900000, 850000, 950000},
    {"aux", 1, 0, 1800000, 1710000, 1890000},
    {"memory", 0, 1, 1200000, 1140000, 1260000},
    {"io", 1, 1, 3300000, 3135000, 3465000},
};

static pm_host hosts[PARTS];
static pm_host *const at_hosts[PARTS] = {&hosts[0], &hosts[1]};
static pm_sequence list;
static pm_sequence_step steps[STEPS];
static pm_sequence_record record; /* no way back is kept: the list needs no more */

/* ---- What is said ---- */

static void put_number(int64_t number) {
    char digits[21];
    unsigned at = sizeof digits - 1;
    uint64_t rest = number < 0 ? 0 - (uint64_t)number : (uint64_t)number;
    digits[at] = 0;
    do
        digits[--at] = (char)('0' + rest % 10);
    while (rest /= 10);
    if (number < 0)
        digits[--at] = '-';
    console_put(digits + at);
}

static void say(const char *name, const char *what) {
    console_put(name);
    console_put(what);
}

/* The rail of a step. */
static const char *name_of(const pm_sequence_step *step) {
    unsigned at = 0;
    while (at < RAILS - 1 && (rails[at].part != step->host || rails[at].output != step->output))
        at++;
    return rails[at].name;
}

/* Why a list ended before each of its rails did what it is to. */
static const char *why(const pm_sequence_said *said) {
    switch (said->kind) {
    case PM_PART_RESTARTED: return ": the part restarted\n";
    case PM_RAIL_FAILS: return pm_has_nothing_to_deliver(said->verdict) ? ": it is commanded off\n" : ": it doesn't deliver\n";
    case PM_SPENT: return ": no good answer\n";
    case PM_REFUSED: return ": the order is refused\n";
    case PM_GOAL_BEYOND: return ": a fault limit is too near\n";
    default: return ": it holds another word\n";
    }
}

/* ---- The bus ---- */

static int is_heard; /* a part acknowledged its address */

static uint8_t put(void *context, const uint8_t *bytes, uint64_t count) {
    uint8_t ended = bus_write(bytes, (unsigned)count);
    (void)context;
    is_heard |= ended != PM_UNHEARD;
    return ended;
}

static uint64_t ask(void *context, const uint8_t *request, uint64_t count, uint8_t *answer, uint64_t room) {
    unsigned came = bus_read(request, (unsigned)count, answer, (unsigned)room);
    (void)context;
    is_heard |= came != 0;
    return came;
}

static uint32_t now(void *context) {
    (void)context;
    return bus_clock();
}

static void rest(void *context, uint32_t milliseconds) {
    (void)context;
    bus_wait(milliseconds);
}

static pm_patient bus = {put, ask, NULL, now, rest, PM_NO_PATIENCE, 0, 0, 0, 0, 0, 0};
static void *const at_buses[PARTS] = {&bus, &bus};

/* ---- The parts ---- */

/* Whether MFR_MODEL begins with what is named: 1; 0 by a good answer; -1 if none came. */
static int is_model(const part *it) {
    const pm_sending request = {PM_REQUEST, 2, 35, 0, {(uint8_t)(it->address << 1), MFR_MODEL}};
    uint8_t answer[35];
    pm_block text;
    for (int pass = 0; it->model && pass < PASSES; pass++) {
        uint64_t at = 0, count = pm_answer(&request, answer, pm_patient_read, &bus);
        if (count > answer[1] + 3u)
            count = answer[1] + 3u; /* what was read beyond a text is none of it */
        if (pm_read_block(it->address, MFR_MODEL, answer, count, &text) != PM_OK)
            continue;
        while (at < text.length && text.bytes[at] == (uint8_t)it->model[at])
            at++;
        return !it->model[at];
    }
    return it->model ? -1 : 1;
}

/* What turns a rail's output off, asked once: PM_HEEDS_OPERATION or another of these, 0 if no good answer came. */
static uint8_t turned_by(const rail *it) {
    pm_block byte;
    uint8_t answer = pm_ask_paged(parts[it->part].address, it->output, ON_OFF_CONFIG, 1, pm_patient_read, &bus, &byte);
    return answer == PM_OK ? pm_heeds_operation(byte.bytes[0]) : 0;
}

static const char *unheeded(uint8_t by) {
    return by == PM_HEEDS_PIN ? ", only its pin turns it off" : by == PM_HEEDS_NEITHER ? ", nothing but its supply turns it off" : "";
}

static int is_done(pm_host *host) { return pm_host_run(host, pm_patient_write, pm_patient_read, &bus).kind == PM_DONE; }

/* ---- The rails ---- */

static int told(void *context, const pm_sequence *is, uint8_t answer) {
    const pm_sequence_step *step = &steps[is->said.step];
    (void)context;
    if (answer == PM_TOLD && step->kind == PM_TURNS && is->said.kind == PM_RAIL_DOES && is->said.has_microvolts) {
        say(name_of(step), ": on, ");
        put_number(is->said.microvolts);
        console_put(" uV\n");
    }
    return 1;
}

/* Carries so many steps out: 1 if each is over, and each rail does what it is to. */
static int is_reached(unsigned count, uint16_t tries, uint8_t rules) {
    for (unsigned at = 0; at < count; at++)
        steps[at].looks = steps[at].kind == PM_SETS ? PM_LOOK : PM_LOOK_MUST; /* a rail gets its voltage while it is off */
    pm_sequence_new(&list, tries, rules);
    return pm_run_sequence(&list, at_hosts, at_buses, PARTS, steps, count, &record, 1, pm_patient_write, pm_patient_read, pm_patient_wait,
                           told) == PM_ENDED && list.said.kind == PM_REACHED;
}

/* Puts steps that look at the first rails, and order nothing, behind so many: how many there are then. */
static unsigned look_at(unsigned count, unsigned first) {
    for (unsigned at = 0; at < first; at++)
        steps[count++] = pm_surveys(rails[at].part, rails[at].output);
    return count;
}

/* ---- Down ---- */

/* The parts whose WRITE_PROTECT was 80h, which keeps OPERATION from being written: a bit for each. */
static unsigned lifted;

/* Lifts that of a part. */
static int is_lifted(uint8_t at) {
    pm_standing held;
    if (pm_host_check(&hosts[at], 0, PM_WRITE_PROTECT) != PM_OK || !is_done(&hosts[at]) ||
        pm_host_confirmed_word(&hosts[at], 0, PM_WRITE_PROTECT, &held) != PM_OK || held.word != ALL_PROTECTED)
        return 0;
    lifted |= 1u << at;
    return pm_host_order(&hosts[at], 0, PM_WRITE_PROTECT, 0x00) == PM_OK && is_done(&hosts[at]);
}

/* Turns a rail off, and says what became of it. Nothing is read before the order but MFR_MODEL. If that is another one, and OPERATION gives no good
 * answer, nothing is ordered, since nobody knows what that would do. 0 if the part acknowledged nothing. */
static int turn_off(const rail *it) {
    pm_host *host = &hosts[it->part];
    int is_off = 0, is_ordered, model;
    const char *by;
    is_heard = 0;
    model = is_model(&parts[it->part]);
    is_ordered = model != 0 || (pm_host_check(host, it->output, PM_OPERATION) == PM_OK && is_done(host));
    if (is_ordered) {
        steps[0] = pm_turns(it->part, it->output, 0x00);
        is_off = is_reached(1, OFF_TRIES, 0);
        if (!is_off && list.said.kind != PM_RAIL_FAILS && is_lifted(it->part)) /* the byte isn't held */
            is_off = is_reached(1, OFF_TRIES, 0);
    }
    if (!is_heard)
        return 0;
    by = unheeded(turned_by(it));
    say(it->name, is_off ? ": off" : is_ordered ? ": not known to be off" : ": not known to be off, nothing was ordered");
    console_put(by);
    console_put(model == 0 ? ", its part is another model\n" : "\n");
    return 1;
}

/* All rails go off, the last one first, whatever is known of them. A rail whose part acknowledged nothing is put off to the end, with the others of
 * that part, so that they hold up no other part. */
static void go_down(void) {
    unsigned silent = 0, last = 0, at;
    bus.has_deadline = 0;
    lifted = 0;
    for (at = RAILS; at-- > 0;)
        if ((silent >> rails[at].part & 1) || !turn_off(&rails[at])) {
            silent |= 1u << rails[at].part;
            last |= 1u << at;
        }
    for (at = RAILS; at-- > 0;)
        if ((last >> at & 1) && !turn_off(&rails[at]))
            say(rails[at].name, ": not known to be off, its part answers nothing\n");
    for (at = 0; at < PARTS; at++)
        if (lifted >> at & 1)
            say(parts[at].name, pm_host_order(&hosts[at], 0, PM_WRITE_PROTECT, ALL_PROTECTED) == PM_OK && is_done(&hosts[at])
                ? ": WRITE_PROTECT was lifted, and is 80 again\n" : ": WRITE_PROTECT was lifted, and isn't known to be 80 again\n");
}

/* ---- Up ---- */

/* Whether each part is the one that is named, and heeds OPERATION at each rail; a line names the first that doesn't. One that gives no good
 * ON_OFF_CONFIG isn't judged. */
static int is_ready(void) {
    for (unsigned at = 0; at < PARTS; at++)
        if (is_model(&parts[at]) != 1) {
            say(parts[at].name, ": not known to be the part that is wanted, nothing was ordered\n");
            return 0;
        }
    for (unsigned at = 0; at < RAILS; at++) {
        const char *by = unheeded(turned_by(&rails[at]));
        if (*by) {
            say(rails[at].name, ": OPERATION isn't heeded");
            say(by, ": nothing was ordered\n");
            return 0;
        }
    }
    return 1;
}

/* All rails come up, or are off again: 1 if each delivers. */
static int come_up(void) {
    unsigned count = 0;
    bus.has_deadline = 1;
    bus.deadline = bus_clock() + DEADLINE;
    for (unsigned at = 0; at < PARTS; at++)
        pm_host_restart(&hosts[at]);
    if (!is_ready())
        return 0;
    for (unsigned at = 0; at < RAILS; at++) {
        steps[count] = pm_sets(rails[at].part, rails[at].output, rails[at].microvolts);
        count = look_at(count + 1, at);
        steps[count++] = pm_turns(rails[at].part, rails[at].output, 0x80);
    }
    count = look_at(count, RAILS);
    if (is_reached(count, TRIES, PM_ENDS_AT_RESTART))
        return 1;
    say(name_of(&steps[list.said.step]), why(&list.said));
    go_down();
    return 0;
}

/* One round over the rails: 1 if each delivers its voltage; otherwise all are off, as far as that is known. */
static int is_well(int round) {
    bus.has_deadline = 0;
    if (is_reached(look_at(0, RAILS), TRIES, PM_ENDS_AT_RESTART))
        return 1;
    console_put("round ");
    put_number(round);
    console_put(", ");
    say(name_of(&steps[list.said.step]), why(&list.said));
    go_down();
    return 0;
}

int main(void) {
    int is_up = 0;
    if (pm_host_size() != sizeof hosts[0] || pm_host_version() != PM_HOST_VERSION || pm_sequence_size() != sizeof list ||
        pm_sequence_version() != PM_SEQUENCE_VERSION) {
        console_put("the library is another than the header\n");
        return 1;
    }
    for (unsigned at = 0; at < PARTS; at++)
        if (pm_host_new(&hosts[at], parts[at].address, parts[at].outputs, PASSES) != PM_OK)
            return 1;
    for (unsigned at = 0; at < RAILS; at++)
        if (pm_host_set_limits(&hosts[rails[at].part], rails[at].output, rails[at].least, rails[at].most) != PM_OK)
            return 1;
    for (int round = 0; round <= ROUNDS; round++) {
        is_up = is_up && is_well(round);
        for (int times = 0; !is_up && times < TIMES; times++)
            is_up = come_up();
    }
    console_put(is_up ? "all rails deliver\n" : "not all rails are known to deliver\n");
    return !is_up;
}
