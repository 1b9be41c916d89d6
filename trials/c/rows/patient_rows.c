/* pm_patient_run beside the rows of patient.txt, whose head says what they are: when it asks a part whether it is ready, what it sends again, and
 * what it hands over. It prints each row that differs, and a count. */
#include "pmhost_patient.h"
#include <stdio.h>
#include <stdlib.h>
#include <string.h>

typedef struct {
    char name[80], job, does[16], calls[160];
    unsigned passes, kind, word, ends;
    int32_t patience;
    uint8_t mask, has_deadline;
    uint32_t deadline;
} row;

/* Good answers behind the read address, to VOUT_COMMAND of output 0 and to CAPABILITY, both of 58h. */
static const uint8_t word_answer[] = {0x02, 0xCD, 0x34, 0xB9}, capability[] = {0x80, 0xD3};

/* The clock wraps round 10 ms after the first call. */
enum { BEGIN = -10 };

typedef struct {
    const row *of;
    int count;
    char calls[160];
    uint32_t clock, last;
} bus;

/* Notes a call by its letter, behind which stands its time if it isn't that of the call before: what the call does. */
static char next(bus *to, char letter) {
    size_t end = strlen(to->of->does) - 1, at = (size_t)to->count++, used = strlen(to->calls);
    uint32_t passed = to->clock - (uint32_t)BEGIN;
    snprintf(to->calls + used, sizeof to->calls - used, passed == to->last ? "%c" : "%c%u", letter, (unsigned)passed);
    to->last = passed;
    return to->of->does[at < end ? at : end];
}

static uint8_t put(void *context, const uint8_t *bytes, uint64_t count) {
    bus *to = (bus *)context;
    char does = next(to, 'W');
    (void)bytes;
    (void)count;
    return does == 'a' ? PM_ACKED : does == 'u' ? PM_UNHEARD : PM_NOT_ACKED;
}

/* The answer to a question: CAPABILITY, or the byte of readiness, with its packet error code. */
static void say(const row *of, const uint8_t *request, char does, uint8_t *answer) {
    uint8_t frame[4] = {request[0], request[1], (uint8_t)(request[0] | 1), (uint8_t)(does == 'b' ? 0x20 : 0x60)};
    memcpy(answer, capability, sizeof capability);
    if (does == 'f')
        answer[0] = 0xFF;
    if (of->mask != 0) {
        answer[0] = frame[3];
        answer[1] = (uint8_t)(pm_pec(frame, 4) ^ (does == 'x'));
    }
}

static uint64_t ask(void *context, const uint8_t *request, uint64_t count, uint8_t *answer, uint64_t room) {
    bus *to = (bus *)context;
    int is_question = count == 2 && request[1] == (to->of->mask != 0 ? 0xEF : 0x19) && room == 2;
    char does = next(to, is_question ? 'Q' : 'R');
    uint32_t passed = to->clock - (uint32_t)BEGIN;
    if (does == 'u' || does == 'n' || (does == 'k' && passed < 440) || (does == 'l' && passed < 4100))
        return 0;
    if (does == 'o')
        memset(answer, 0xFF, (size_t)room);
    else if (is_question)
        say(to->of, request, does, answer);
    else
        memcpy(answer, word_answer, (size_t)room);
    return does == 'm' ? room + 1 : room;
}

static uint32_t now(void *context) {
    return ((bus *)context)->clock;
}

static void wait(void *context, uint32_t milliseconds) {
    ((bus *)context)->clock += milliseconds;
}

static uint8_t begin(pm_host *host, char job) {
    switch (job) {
    case 'o': return pm_host_order(host, 0, PM_VOUT_COMMAND, 0x34CD);
    case 'n': return pm_host_order(host, 0, PM_OPERATION, 0x80);
    case 'f': return pm_host_order(host, 0, PM_OPERATION, 0x00);
    case 'v': return pm_host_check(host, 0, PM_VOUT_COMMAND);
    case 'p': return pm_host_check(host, 0, PM_WRITE_PROTECT);
    case 'r': return pm_host_restore(host);
    default: return pm_host_store(host);
    }
}

/* Whether a row came as it must. Behind a deadline nothing is waited for, and before it no longer than to it. */
static int is_right(const row *of) {
    pm_host host;
    bus to = {of, 0, {0}, (uint32_t)BEGIN, 0};
    pm_patient patient = {put, ask, &to, now, wait, of->patience, 0, (uint8_t)(of->mask != 0 ? 0xEF : 0), of->mask, of->has_deadline, 0,
                          (uint32_t)BEGIN + of->deadline};
    pm_step step = {0, 0};
    if (pm_host_new(&host, of->job == 'p' ? 0x4A : 0x58, 1, (uint8_t)of->passes) != PM_OK || pm_host_no_limits(&host, 0) != PM_OK)
        return 0;
    for (int times = of->job == 't' ? 2 : 1; times > 0; times--) {
        if (begin(&host, of->job) != PM_OK)
            return 0;
        step = pm_patient_run(&host, &patient);
    }
    uint32_t ends = to.clock - (uint32_t)BEGIN;
    uint8_t is_late = of->has_deadline && (int32_t)ends >= (int32_t)of->deadline;
    pm_patient_wait(&patient, 1000);
    uint32_t most = to.clock - (uint32_t)BEGIN, wanted = !of->has_deadline ? ends + 1000 : is_late ? ends : of->deadline;
    if (step.kind == of->kind && step.word == of->word && strcmp(to.calls, of->calls) == 0 && ends == of->ends && most == wanted &&
        patient.is_late == is_late)
        return 1;
    printf("%s: ended %u %02X after %s, at %u ms, late %u; then %u ms\n", of->name, (unsigned)step.kind, (unsigned)step.word, to.calls,
           (unsigned)ends, (unsigned)patient.is_late, (unsigned)most);
    return 0;
}

/* Reads a row; 0 of a line that is none. */
static int is_row(const char *line, row *of) {
    char patience[12], mask[4], deadline[12], word[4], calls[160];
    memset(of, 0, sizeof *of);
    if (line[0] == '#' || sscanf(line, "%c %u %11s %3s %11s %15s %u %3s %159s %u %79[^\n]", &of->job, &of->passes, patience, mask, deadline, of->does,
                                 &of->kind, word, calls, &of->ends, of->name) != 11)
        return 0;
    of->patience = *patience == '-' ? 0 : *patience == '0' ? PM_NO_PATIENCE : (int32_t)strtol(patience, NULL, 10);
    of->mask = *mask == '-' ? 0 : (uint8_t)strtoul(mask, NULL, 16);
    of->has_deadline = strcmp(deadline, "-") != 0;
    of->deadline = (uint32_t)strtol(deadline, NULL, 10);
    of->word = *word == '-' ? 0 : (unsigned)strtoul(word, NULL, 16);
    strcpy(of->calls, *calls == '-' ? "" : calls);
    return 1;
}

/* How long a list of one step takes over a bus that nobody answers, where each transfer needs 35 ms to fail: the table of docs/c.md. */
typedef struct {
    const char *name;
    pm_sequence_step step;
    uint16_t tries;
    uint8_t passes;
    int32_t patience;
    uint32_t milliseconds;
} dead_row;

enum { FAILS_AFTER = 35, DEAD_ROWS = 4 };

static uint8_t dead_put(void *context, const uint8_t *bytes, uint64_t count) {
    (void)bytes;
    (void)count;
    wait(context, FAILS_AFTER);
    return PM_UNHEARD;
}

static uint64_t dead_ask(void *context, const uint8_t *request, uint64_t count, uint8_t *answer, uint64_t room) {
    (void)request;
    (void)count;
    (void)answer;
    (void)room;
    wait(context, FAILS_AFTER);
    return 0;
}

static int is_dead_right(const dead_row *of) {
    pm_host host;
    pm_sequence list;
    pm_sequence_record record;
    bus to = {NULL, 0, {0}, (uint32_t)BEGIN, 0};
    pm_patient patient = {dead_put, dead_ask, &to, now, wait, of->patience, 0, 0, 0, 0, 0, 0};
    pm_host *const hosts[] = {&host};
    void *const buses[] = {&patient};
    if (pm_host_new(&host, 0x58, 1, of->passes) != PM_OK || pm_host_no_limits(&host, 0) != PM_OK)
        return 0;
    pm_sequence_new(&list, of->tries, PM_LEAVES);
    uint8_t ended = pm_run_sequence(&list, hosts, buses, 1, &of->step, 1, &record, 1, pm_patient_write, pm_patient_read, pm_patient_wait, NULL);
    uint32_t passed = to.clock - (uint32_t)BEGIN;
    if (ended == PM_ENDED && list.said.kind == PM_STEPS_LEFT && passed == of->milliseconds)
        return 1;
    printf("%s: ended %u, %u after %u ms\n", of->name, (unsigned)ended, (unsigned)list.said.kind, (unsigned)passed);
    return 0;
}

int main(int count, char **words) {
    const dead_row dead_rows[DEAD_ROWS] = {
        {"off", pm_turns(0, 0, 0x00), 4, 3, PM_NO_PATIENCE, 840},
        {"off, with patience", pm_turns(0, 0, 0x00), 4, 3, 0, 2940},
        {"off, with the tries of a set", pm_turns(0, 0, 0x00), 64, 3, 0, 47040},
        {"a set", pm_sets(0, 0, 1000000), 64, 3, 0, 6720},
    };
    int passed = 0, rows = DEAD_ROWS;
    char line[400];
    row is;
    FILE *file = fopen(count > 1 ? words[1] : "trials/c/rows/patient.txt", "r");
    if (!file)
        return puts("give trials/c/rows/patient.txt"), 2;
    while (fgets(line, sizeof line, file))
        if (is_row(line, &is)) {
            rows++;
            passed += is_right(&is);
        }
    fclose(file);
    for (int i = 0; i < DEAD_ROWS; i++)
        passed += is_dead_right(&dead_rows[i]);
    printf("pm_patient_run: %d rows passed, %d failed\n", passed, rows - passed);
    return passed != rows;
}
