/* The loop of pmhost.h over the part in the field, beside the rows of rows.txt, whose head says what they are, and which this program
 * reads: what the rail does behind each call, in words, and at which voltage it is. It prints each row that differs, and a count.
 *
 *   gcc -I crates/pm_host_c/include -I crates/pm_device_c/include trials/field/rows.c trials/field/field.c trials/field/frames.c \
 *       libpm_host_c.a libpm_device_c.a -o rows && ./rows trials/field/rows.txt */
#include <inttypes.h>
#include <stdio.h>
#include <stdlib.h>
#include <string.h>

#include "../../examples/c/delivered.h"
#include "pmhost_patient.h"
#include "field.h"

enum { ADDRESS = 0x58, TRIES = 40, PASSES = 3, LINES = 24, CALLS = 4, ROOM = 400 };
/* By their verdict; P8 of a goal at a fault limit. */
static const char *const KINDS[] = {"not-yet", "delivers", "commanded-off", "not-known-on", "off", "fault", "outside", "beyond",
                                    "power-good-alone", "no-power-good", "not-known", "went-off", "still-on", "P8", "delivers-by-READ_VOUT"};

/* A row: its lines before the first call, and its calls, each with what has to come of it. */
typedef struct { char call[64], is[64], end[64], says[ROOM], status[8]; } call_row;
typedef struct { char name[ROOM], again[ROOM], lines[LINES][64]; call_row calls[CALLS]; int line_count, call_count; } row;

/* What a chain has ordered: the register, and the word that it had behind its call. */
typedef struct { uint8_t output, code; uint16_t word; } ordered;

typedef struct {
    field_part part;
    pm_host host;
    pm_sequence_step like;  /* how each step is looked at */
    pm_heard before[2];     /* what stood of each output before the first order of the chain */
    pm_sequence_said found; /* of a rail that does what it is to */
    delivered_told told;
    ordered all[CALLS];
    int count;
} chain;

static void wait_for_ramp(void *context, uint32_t milliseconds) { ((chain *)context)->part.now += (uint64_t)milliseconds * 1000; }

static int keep_found(void *context, const pm_sequence *sequence, uint8_t answer) {
    if (answer == PM_TOLD) ((chain *)context)->found = sequence->said;
    return 1;
}

static uint8_t put(void *context, const uint8_t *bytes, uint64_t count) { return field_write(&((chain *)context)->part, bytes, count); }

static uint64_t ask(void *context, const uint8_t *request, uint64_t count, uint8_t *answer, uint64_t room) {
    return field_read(&((chain *)context)->part, request, count, answer, room);
}

/* ---- Rows ---- */

/* The text behind a key of a line, or NULL. */
static const char *behind(const char *line, const char *key) {
    size_t length = strlen(key);
    return strncmp(line, key, length) == 0 && line[length] == ':' ? line + length + 2 : NULL;
}

/* Keeps a text, as far as there is room. */
static void keep(char *place, size_t room, const char *text) {
    size_t length = strlen(text) < room - 1 ? strlen(text) : room - 1;
    memcpy(place, text, length);
    place[length] = 0;
}

static void take_line(row *it, const char *line) {
    call_row *call = it->call_count ? &it->calls[it->call_count - 1] : NULL;
    const char *text;
    if ((text = behind(line, "name"))) keep(it->name, sizeof it->name, text);
    else if ((text = behind(line, "again"))) keep(it->again, sizeof it->again, text);
    else if ((text = behind(line, "call")) && it->call_count < CALLS) keep(it->calls[it->call_count++].call, 64, text);
    else if (call && (text = behind(line, "is"))) keep(call->is, sizeof call->is, text);
    else if (call && (text = behind(line, "end"))) keep(call->end, sizeof call->end, text);
    else if (call && (text = behind(line, "says"))) keep(call->says, sizeof call->says, text);
    else if (call && (text = behind(line, "status"))) keep(call->status, sizeof call->status, text);
    else if (!call && it->line_count < LINES) keep(it->lines[it->line_count++], sizeof it->lines[0], line);
}

/* The text of a line before the first call, or another one. */
static const char *said(const row *it, const char *key, const char *otherwise) {
    for (int at = 0; at < it->line_count; at++)
        if (behind(it->lines[at], key)) return behind(it->lines[at], key);
    return otherwise;
}

/* ---- A chain of calls ---- */

/* Whether the part has what the row says at first. */
static int set_up_part(chain *it, const row *from) {
    if (field_new(&it->part, ADDRESS, 2)) return 0;
    for (int at = 0; at < from->line_count; at++) {
        const char *text = behind(from->lines[at], "part");
        char name[64];
        unsigned value, output = 0;
        if (!text) continue;
        if (sscanf(text, "%63s %x %u", name, &value, &output) < 2) return 0;
        if (field_set(&it->part, (uint8_t)output, name, !strcmp(name, "error") ? (int16_t)value : (int64_t)value)) return 0;
    }
    return 1;
}

static int set_up(chain *it, const row *from) {
    const char *limits = said(from, "limits", "refuse"), *lacks = said(from, "lacks", "");
    pm_sequence_step *like = &it->like;
    uint8_t kind = !strcmp(limits, "tell") ? PM_FAULT_LIMITS_TELL : !strcmp(limits, "skip") ? PM_FAULT_LIMITS_SKIP : PM_FAULT_LIMITS_REFUSE;
    pm_registers has = {1, 1, 1, !strstr(lacks, "2B")};
    uint8_t missing = (uint8_t)((strstr(lacks, "79") ? PM_LACKS_STATUS_WORD : 0) | (strstr(lacks, "8B") ? PM_LACKS_READ_VOUT : 0));
    int64_t least = 0, most = 0;
    memset(it, 0, sizeof *it);
    *like = pm_sets(0, 0, 0);
    like->fault_limits = kind;
    like->lacks = missing;
    like->tells_power_good = !strcmp(said(from, "power-good", "judge"), "tell");
    if (said(from, "within", NULL)) like->within = (uint16_t)atoi(said(from, "within", NULL));
    like->rounds = (uint16_t)atoi(said(from, "rounds", "7"));
    if (sscanf(said(from, "band", "800000 1300000"), "%" SCNd64 " %" SCNd64, &least, &most) != 2) return 0;
    return set_up_part(it, from) && !pm_host_new_with(&it->host, ADDRESS, 2, PASSES, &has) && !pm_host_set_limits(&it->host, 0, least, most)
        && !pm_host_set_limits(&it->host, 1, 800000, 1300000);
}

/* The step of a call, and its register; 0 of a survey. */
static pm_sequence_step make_step(const chain *it, const char *call, uint8_t *code) {
    pm_sequence_step step = it->like;
    pm_sequence_wish *wish;
    char kind[16] = "", first[16] = "", second[16] = "";
    unsigned output = 0;
    sscanf(call, "%15s %u %15s %15s", kind, &output, first, second);
    step.output = (uint8_t)output, step.before = it->before[output], step.command.kind = PM_STAY, *code = 0;
    if (!strcmp(kind, "survey")) return step.kind = PM_STEP_SURVEYS, step;
    if (!strcmp(kind, "power")) return *code = PM_OPERATION, step.kind = PM_TURNS, step.byte = (uint8_t)strtoul(first, NULL, 16), step;
    *code = (uint8_t)strtoul(!strcmp(kind, "word") ? first : second[0] ? second : "21", NULL, 16);
    wish = *code == PM_VOUT_MAX ? &step.max : *code == PM_VOUT_MARGIN_HIGH ? &step.margin_high : *code == PM_VOUT_MARGIN_LOW ? &step.margin_low
         : *code == PM_VOUT_MIN ? &step.min : &step.command;
    if (!strcmp(kind, "set")) return wish->kind = PM_MICROVOLTS, wish->microvolts = (int32_t)strtol(first, NULL, 10), step;
    return wish->kind = PM_WORD, wish->word = (uint16_t)strtoul(second, NULL, 16), step;
}

static const char *cell_name(uint8_t code) {
    static const struct { uint8_t code; const char *name; } names[] = {{0x01, "OPERATION"}, {0x10, "WRITE_PROTECT"}, {0x20, "VOUT_MODE"},
        {0x21, "VOUT_COMMAND"}, {0x24, "VOUT_MAX"}, {0x25, "VOUT_MARGIN_HIGH"}, {0x26, "VOUT_MARGIN_LOW"}, {0x2B, "VOUT_MIN"}};
    for (unsigned at = 0; at < sizeof names / sizeof *names; at++)
        if (names[at].code == code) return names[at].name;
    return "no register";
}

static const char *refusal(uint8_t number, pm_name *name) {
    memset(name, 0, sizeof *name);
    return number == PM_NO_ANSWER ? "no answer" : pm_refusal_name(number, name) == PM_OK ? name->text : "?";
}

/* The end of a list, as a row has it. */
static void tell_end(char *text, const pm_sequence_said *end) {
    pm_name name;
    if (end->kind == PM_REACHED || end->kind == PM_RAIL_FAILS || end->kind == PM_GOAL_BEYOND)
        snprintf(text, ROOM, "reached");
    else if (end->kind == PM_REFUSED)
        snprintf(text, ROOM, "refused %.2s %s", refusal(end->number, &name), cell_name(end->code));
    else if (end->kind == PM_STILL_DIFFERS)
        snprintf(text, ROOM, "differs %s %0*X", cell_name(end->code), end->code == PM_OPERATION ? 2 : 4, (unsigned)end->word);
    else if (end->kind == PM_SPENT)
        snprintf(text, ROOM, "spent %s %s", cell_name(end->code), refusal((uint8_t)end->fault, &name));
    else
        snprintf(text, ROOM, "kind %d", end->kind);
}

/* The register that a call orders is to be read once more. */
static void note(chain *it, uint8_t output, uint8_t code) {
    pm_standing standing = {0, 0};
    int at = 0;
    while (at < it->count && (it->all[at].output != output || it->all[at].code != code)) at++;
    if (code && pm_host_confirmed_word(&it->host, output, code, &standing) == PM_OK) {
        it->all[at] = (ordered){output, code, standing.word};
        it->count += at == it->count;
    }
}

static int differs(const char *name, const char *what, const char *found, const char *wanted) {
    if (!strcmp(found, wanted)) return 0;
    printf("%s: %s: it is '%s', and not '%s'\n", name, what, found, wanted);
    return 1;
}

/* One step, carried out: what was said of it last, and its record. */
static pm_sequence_said carry_out(chain *it, const pm_sequence_step *step, pm_sequence_record *record) {
    pm_host *const hosts[1] = {&it->host};
    void *const buses[1] = {it};
    pm_sequence sequence;
    memset(record, 0, sizeof *record);
    memset(&it->found, 0, sizeof it->found);
    pm_sequence_new(&sequence, TRIES, 0);
    if (pm_run_sequence(&sequence, hosts, buses, 1, step, 1, record, 1, put, ask, wait_for_ramp, keep_found) != PM_ENDED) sequence.said.kind = 0;
    it->before[step->output] = record->look.before;
    return sequence.said;
}

/* One call: whether it is as its row says. */
static int is_call_right(chain *it, const row *from, const call_row *wanted) {
    char is[ROOM], ended[ROOM], says[ROOM];
    uint8_t code;
    int64_t microvolts = 0;
    pm_sequence_record record;
    pm_sequence_step step = make_step(it, wanted->call, &code);
    uint32_t writes = it->part.writes;
    pm_sequence_said end = carry_out(it, &step, &record);
    int is_p8 = end.kind == PM_GOAL_BEYOND, is_well = end.kind == PM_REACHED, is_reached = is_well || is_p8 || end.kind == PM_RAIL_FAILS;
    const pm_sequence_said *of = is_well ? &it->found : &end;
    (void)field_get(&it->part, step.output, "microvolts", &microvolts);
    snprintf(is, sizeof is, "%s %" PRId64, !is_reached ? "ended" : is_p8 ? "P8" : KINDS[of->verdict], microvolts);
    tell_end(ended, &end);
    ended[strlen(wanted->end[0] ? wanted->end : "reached")] = 0;
    delivered_words(says, sizeof says, of, &step, &record.look, &it->host, it->part.writes != writes, &it->told);
    note(it, step.output, code);
    return !(differs(from->name, "is", is, wanted->is) | differs(from->name, "end", ended, wanted->end[0] ? wanted->end : "reached")
             | differs(from->name, "status", is_well ? "0" : "1", wanted->status) | (is_reached && differs(from->name, "says", says, wanted->says)));
}

/* Looks again at what a chain ordered: what is gone, in words. */
static void look_again(chain *it, char *text) {
    text[0] = 0;
    for (int at = 0; at < it->count && !text[0]; at++) {
        ordered *one = &it->all[at];
        pm_standing held = {0, 0};
        if (pm_host_check(&it->host, one->output, one->code) == PM_OK && pm_host_run(&it->host, put, ask, it).kind == PM_DONE
            && pm_host_confirmed_word(&it->host, one->output, one->code, &held) == PM_OK && held.word != one->word)
            snprintf(text, ROOM, "%s of output %d is %04X, and was %04X", cell_name(one->code), one->output, held.word, one->word);
    }
}

static int is_right(const row *from) {
    static chain it;
    char again[ROOM] = "";
    int is_well = 1;
    if (!set_up(&it, from)) return printf("%s: it isn't set up\n", from->name), 0;
    for (int at = 0; at < from->call_count; at++) {
        const call_row *wanted = &from->calls[at];
        if (is_well != (wanted->is[0] != 0)) return printf("%s: %s begins, or doesn't\n", from->name, wanted->call), 0;
        if (is_well && !is_call_right(&it, from, wanted)) return 0;
        is_well = is_well && !strcmp(wanted->status, "0");
    }
    if (from->call_count > 1 && is_well) look_again(&it, again);
    return !differs(from->name, "again", again, from->again);
}

/* ---- Words of what the part in the field doesn't do ---- */

typedef struct {
    const char *name;
    uint16_t status_word;
    uint8_t code, byte, verdict, of, bit, fault, has_microvolts;
    int64_t microvolts;
    const char *words;
} spoken;

static const spoken SPOKEN[] = {
    {"a new fault of the current", 0x4010, 0x7B, 0x80, 5, 0x7B, 7, 0, 0, 0,
     "STATUS_WORD 4010 IOUT_POUT, IOUT_OC_FAULT and STATUS_IOUT 80 IOUT_OC_FAULT: IOUT_OC_FAULT came with this call"},
    {"a new fault of the input", 0x2008, 0x7C, 0x10, 5, 0x7C, 4, 0, 0, 0,
     "STATUS_WORD 2008 INPUT, VIN_UV_FAULT and STATUS_INPUT 10 VIN_UV_FAULT: VIN_UV_FAULT came with this call"},
    {"a new fault of the temperature", 0x0004, 0x7D, 0x81, 5, 0x7D, 7, 0, 0, 0,
     "STATUS_WORD 0004 TEMPERATURE and STATUS_TEMPERATURE 81 OT_FAULT, bit 0: OT_FAULT came with this call"},
    {"READ_VOUT with another PEC", 0, 0x7A, 0, 10, 0x8B, 0, PM_F5_WRONG_PEC, 0, 0,
     "delivery not known: READ_VOUT gave no good answer: F5 WrongPec"},
    {"READ_VOUT of a rail of which nothing is known", 0, 0x7A, 0, 10, 0x8B, 0, 0, 0, 0,
     "delivery not known: what the output commands isn't known"},
    {"a rail below 0 V", 0, 0x7A, 0, 1, 0, 0, 0, 1, -1500050, "delivers -1.50005V"},
};

/* Whether an end is said in these words. */
static int is_said(const spoken *it) {
    pm_host host;
    pm_delivery look;
    pm_sequence_step step = pm_sets(0, 0, 0);
    pm_sequence_said said;
    delivered_told told = {0};
    char text[ROOM];
    memset(&look, 0, sizeof look);
    memset(&said, 0, sizeof said);
    if (pm_host_new(&host, ADDRESS, 1, PASSES)) return 0;
    pm_heard *const bytes[4] = {&look.status_vout, &look.status_iout, &look.status_input, &look.status_temperature};
    look.status_word = (pm_heard){1, 0, it->status_word};
    *bytes[it->code - 0x7A] = (pm_heard){it->byte != 0, 0, it->byte};
    said.kind = PM_RAIL_FAILS, said.verdict = it->verdict, said.code = it->of, said.bit = it->bit, said.fault = it->fault;
    said.has_microvolts = it->has_microvolts, said.microvolts = it->microvolts;
    delivered_words(text, sizeof text, &said, &step, &look, &host, 0, &told);
    return strcmp(text, it->words) == 0 || (printf("%s: %s\n", it->name, text), 0);
}

/* Whether a limit that was read is said of a step that had an order to give, and of no other. */
static int is_said_after_an_order(void) {
    static chain it;
    static row from;
    pm_sequence_record record;
    pm_sequence_step step;
    uint8_t code;
    delivered_told told = {0};
    char with[ROOM], without[ROOM];
    take_line(&from, "name: a limit is said after an order alone");
    take_line(&from, "part: VOUT_OV_WARN_LIMIT 1080");
    if (!set_up(&it, &from)) return 0;
    step = make_step(&it, "set 0 1050000", &code);
    if (carry_out(&it, &step, &record).kind != PM_REACHED) return 0;
    delivered_words(with, sizeof with, &it.found, &step, &record.look, &it.host, 1, &told);
    delivered_words(without, sizeof without, &it.found, &step, &record.look, &it.host, 0, &told);
    return (strstr(with, "is at or beyond") && !strstr(without, "is at or beyond")) || (printf("%s: %s\n", from.name, without), 0);
}

/* ---- A part that comes up anew ---- */

static int sent;

static uint8_t put_counted(void *context, const uint8_t *bytes, uint64_t count) {
    sent++;
    return field_write(context, bytes, count);
}

static uint32_t now(void *context) { return (uint32_t)(((field_part *)context)->now / 1000); }

static void pass(void *context, uint32_t milliseconds) { ((field_part *)context)->now += (uint64_t)milliseconds * 1000; }

/* A rail is turned on by a list with these rules over a patient bus, whose transfers take 10 ms. The part restarts before any one frame, hears nothing
 * for 100 ms, and comes up off, at 1 V: the limits allow 0.8 to 0.9 V. It's never on at 1 V, the order is sent once, and where the last look is
 * over before, the list is. */
static int comes_up_anew(uint8_t rules, uint32_t frames) {
    int is_right = 1, reached = 0;
    for (uint32_t at = 0; at <= frames; at++) {
        field_part part;
        pm_host host;
        pm_sequence list;
        pm_sequence_record record;
        pm_sequence_step step = pm_turns(0, 0, 0x80);
        pm_patient patient = {put_counted, field_read, &part, now, pass, 0, 0, 0, 0, 0, 0, 0};
        pm_host *const hosts[] = {&host};
        void *const buses[] = {&patient};
        const struct { const char *name; int64_t value; } words[] = {
            {"OPERATION", 0x00}, {"VOUT_COMMAND", 0x0DC3}, {"pin_command", 0x1000}, {"transfer_us", 10000}, {"boot_ms", 100}, {"restart_at", at}};
        int64_t command = 0, operation = 0;
        is_right &= field_new(&part, ADDRESS, 1) == 0 && pm_host_new(&host, ADDRESS, 1, 3) == PM_OK && pm_host_set_limits(&host, 0, 800000, 900000) == PM_OK;
        for (size_t each = 0; each < sizeof words / sizeof *words; each++)
            is_right &= field_set(&part, 0, words[each].name, words[each].value) == 0;
        if (at == 0) field_restart(&part);
        step.looks = 1;
        sent = 0;
        pm_sequence_new(&list, 60, rules);
        is_right &= pm_run_sequence(&list, hosts, buses, 1, &step, 1, &record, 1, pm_patient_write, pm_patient_read, pm_patient_wait, NULL) == PM_ENDED && sent <= 1;
        is_right &= field_get(&part, 0, "VOUT_COMMAND", &command) == 0 && field_get(&part, 0, "OPERATION", &operation) == 0;
        is_right &= !(command == 0x1000 && operation & 0x80);
        reached += list.said.kind == PM_REACHED;
    }
    if (!is_right || reached != 1) printf("a part that comes up anew, rules %u: reached %d times\n", (unsigned)rules, reached);
    return is_right && reached == 1;
}

int main(int count, char **words) {
    FILE *file = fopen(count > 1 ? words[1] : "trials/field/rows.txt", "r");
    static char line[ROOM];
    static row it;
    int passed = 0, failed = 0;
    if (!file) return puts("give trials/field/rows.txt"), 2;
    for (int is_open = 1; is_open;) {
        is_open = fgets(line, sizeof line, file) != NULL;
        line[strcspn(line, "\n")] = 0;
        if (is_open && line[0] && line[0] != '#') take_line(&it, line);
        if ((!is_open || !line[0]) && it.name[0]) {
            int is_good = is_right(&it);
            passed += is_good, failed += !is_good;
            memset(&it, 0, sizeof it);
        }
    }
    fclose(file);
    for (size_t at = 0; at < sizeof SPOKEN / sizeof *SPOKEN; at++) {
        int is_good = is_said(SPOKEN + at);
        passed += is_good, failed += !is_good;
    }
    int is_good = is_said_after_an_order();
    passed += is_good, failed += !is_good;
    for (uint8_t rules = 0; rules <= 3; rules += 3) {
        is_good = comes_up_anew(rules, 27);
        passed += is_good, failed += !is_good;
    }
    printf("%d passed, %d failed\n", passed, failed);
    return failed != 0 || passed == 0;
}
