/* What a part of field.h is and does besides frames: its rails, its names, and its restart. */
#include <stddef.h>
#include <string.h>

#include "rails.h"

enum { OPERATION = 0x01, WRITE_PROTECT = 0x10, STORE_USER_ALL = 0x15, VOUT_COMMAND = 0x21 };
/* Bits of ON_OFF_CONFIG: on by command and pin, OPERATION counts, the pin counts, and it is active high. */
enum { BY_COMMAND = 0x10, BY_OPERATION = 0x08, BY_PIN = 0x04, IS_HIGH_ON = 0x02 };
enum { ON_BY_BOTH = 0x1E, ULINEAR16_12 = 0x14 };

/* ---- Rails ---- */

int64_t field_microvolts(uint16_t word) {
    return (int64_t)word * 1000000 >> 12;
}

/* The microvolts of a word of two's complement. */
static int64_t field_trim(uint16_t word) {
    return (int64_t)(int16_t)word * 1000000 / 4096;
}

int64_t field_voltage(const field_part *part, const field_output *out) {
    if (part->now >= out->until) return out->to;
    return out->from + (out->to - out->from) * (int64_t)(part->now - out->since) / (int64_t)(out->until - out->since);
}

/* Whether the output is commanded on, by OPERATION and the RUN pin as ON_OFF_CONFIG has them. */
static int is_commanded_on(const field_part *part, uint8_t at) {
    const field_output *out = &part->out[at];
    uint16_t config = out->held.on_off_config;
    uint8_t on = 0;
    (void)pm_part_on_state(&part->chip, at, &on);
    int is_pin_on = out->is_run_low ? !(config & IS_HIGH_ON) : (config & IS_HIGH_ON) != 0;
    return !(config & BY_COMMAND) || ((!(config & BY_OPERATION) || on) && (!(config & BY_PIN) || is_pin_on));
}

/* Whether the output is at a margin at which OPERATION has faults ignored. */
static int ignores_faults(const field_part *part, uint8_t at) {
    uint16_t byte = 0;
    (void)pm_part_word(&part->chip, at, OPERATION, &byte);
    return (byte & 0xFC) == 0x94 || (byte & 0xFC) == 0xA4;
}

/* A ramp to a voltage begins, where it isn't on one already. */
static void go_to(field_part *part, field_output *out, int64_t to, uint16_t for_ms) {
    if (out->to == to) return;
    out->from = field_voltage(part, out);
    out->to = to, out->since = part->now, out->until = part->now + (uint64_t)for_ms * 1000;
}

void field_trip(field_part *part, field_output *out, uint16_t bit) {
    out->vout |= bit, out->has_tripped = 1;
    out->to = out->from = 0, out->since = out->until = part->now;
}

static void settle_output(field_part *part, uint8_t at) {
    field_output *out = &part->out[at];
    int64_t to = 0;
    int is_on = is_commanded_on(part, at);
    (void)pm_part_commanded_microvolts(&part->chip, at, &to);
    to += field_trim(out->held.trim) + field_trim(out->held.offset);
    if (!is_on) {
        out->has_tripped = 0;
        go_to(part, out, 0, out->off_ms);
    } else if (!out->has_tripped) {
        go_to(part, out, to, out->to == 0 ? out->on_ms : out->ramp_ms);
    } else {
        go_to(part, out, 0, 0);
    }
    int64_t volts = field_voltage(part, out);
    int is_guarded = is_on && !out->has_tripped && !ignores_faults(part, at);
    if (is_guarded && volts > field_microvolts(out->held.ov_fault)) field_trip(part, out, VOUT_OV_FAULT);
    int is_settled = is_on && !out->has_tripped && part->now >= out->until;
    if (is_guarded && is_settled && volts < field_microvolts(out->held.uv_fault)) field_trip(part, out, VOUT_UV_FAULT);
    if (is_on && volts > field_microvolts(out->held.ov_warn)) out->vout |= VOUT_OV_WARNING;
    if (is_settled && !out->has_tripped && volts < field_microvolts(out->held.uv_warn)) out->vout |= VOUT_UV_WARNING;
    volts = field_voltage(part, out);
    int is_good = volts >= field_microvolts(out->has_been_good ? out->held.good_off : out->held.good_on) && volts > 0;
    if (!is_good) out->good_at = 0;
    else if (!out->good_at) out->good_at = part->now + 1;
    out->has_been_good = is_good && part->now + 1 >= out->good_at + (uint64_t)out->good_ms * 1000;
}

void field_settle(field_part *part) {
    for (uint8_t at = 0; at < part->outputs; at++) settle_output(part, at);
}

/* ---- Cells of the model part, by its own frames ---- */

uint8_t field_pec(const uint8_t *bytes, uint64_t count, uint8_t crc) {
    for (uint64_t at = 0; at < count; at++) {
        crc ^= bytes[at];
        for (int bit = 0; bit < 8; bit++) crc = (uint8_t)(crc & 0x80 ? crc << 1 ^ 0x07 : crc << 1);
    }
    return crc;
}

/* The model part hears a write of its own. */
static void tell_chip(field_part *part, uint8_t *frame, uint64_t count) {
    pm_part_reply reply;
    frame[0] = (uint8_t)(part->address << 1);
    frame[count] = field_pec(frame, count, 0);
    (void)pm_part_hear(&part->chip, frame, count + 1, 0, &reply);
}

static void protect(field_part *part, uint16_t word) {
    uint8_t frame[4] = {0, WRITE_PROTECT, (uint8_t)word, 0};
    tell_chip(part, frame, 3);
}

/* Gives a cell a word, whatever protects it. */
static void give_cell(field_part *part, uint8_t output, uint8_t code, uint16_t word) {
    uint8_t frame[8] = {0, 0x05, (uint8_t)(code == OPERATION ? 3 : 4), output, code, (uint8_t)word, (uint8_t)(word >> 8), 0};
    uint16_t was = 0;
    (void)pm_part_word(&part->chip, 0, WRITE_PROTECT, &was);
    protect(part, 0);
    tell_chip(part, frame, code == OPERATION ? 6 : 7);
    protect(part, was);
}

static void store_chip(field_part *part) {
    uint8_t frame[3] = {0, STORE_USER_ALL, 0};
    uint16_t was = 0;
    (void)pm_part_word(&part->chip, 0, WRITE_PROTECT, &was);
    protect(part, 0);
    tell_chip(part, frame, 2);
    protect(part, was);
}

/* ---- Start and restart ---- */

uint64_t field_size(void) { return sizeof(field_part); }

uint8_t field_new(field_part *part, uint8_t address, uint8_t outputs) {
    pm_part_config config;
    memset(&config, 0, sizeof config);
    memset(part, 0, sizeof *part);
    config.address = address, config.outputs = outputs, config.m = 1, config.r = 3;
    for (int at = 0; at < FIELD_OUTPUTS; at++)
        config.starts[at] = (pm_part_output){ULINEAR16_12, 0, 0x80, 0x1000, 0x4000, 0x1100, 0x0F00, 0};
    uint8_t number = pm_part_new(&part->chip, &config);
    if (number) return number;
    part->address = address, part->outputs = outputs, part->mode = ULINEAR16_12, part->step = 1, part->config_all = 0x04;
    part->transfer_us = 100;
    for (int at = 0; at < outputs; at++) {
        part->out[at].held = (field_words){0xFFFF, 0xFFFF, 0, 0, 0x0400, 0x0200, ON_BY_BOTH, 0xFFFF, 0xFFFF, 0xFFFF, 0, 0};
        part->out[at].stored = part->out[at].held;
    }
    field_settle(part);
    return 0;
}

void field_order(field_part *part, uint8_t output, uint8_t byte) {
    give_cell(part, output, OPERATION, byte);
}

void field_restart(field_part *part) {
    (void)pm_part_restart(&part->chip);
    part->boots_until = part->now + (uint64_t)part->boot_ms * 1000;
    part->was_busy = part->cml = 0;
    for (uint8_t at = 0; at < part->outputs; at++) {
        field_output *out = &part->out[at];
        out->held = out->stored;
        out->vout = out->iout = out->input = out->temperature = out->has_tripped = out->has_been_good = 0;
        out->from = out->to = 0, out->since = out->until = part->now, out->good_at = 0;
        if (out->pin_command) give_cell(part, at, VOUT_COMMAND, out->pin_command);
    }
    field_settle(part);
}

/* ---- Names ---- */

typedef struct { const char *name; size_t at; uint8_t size; } place;

#define OF_OUTPUT(name, field) {name, offsetof(field_output, field), 2}
#define OF_PART(name, field) {name, offsetof(field_part, field), sizeof(((field_part *)0)->field)}

/* Registers of an output that are stored: field_words has them twice. */
static const place WORDS[] = {
    OF_OUTPUT("VOUT_OV_FAULT_LIMIT", held.ov_fault), OF_OUTPUT("VOUT_OV_WARN_LIMIT", held.ov_warn),
    OF_OUTPUT("VOUT_UV_WARN_LIMIT", held.uv_warn), OF_OUTPUT("VOUT_UV_FAULT_LIMIT", held.uv_fault),
    OF_OUTPUT("POWER_GOOD_ON", held.good_on), OF_OUTPUT("POWER_GOOD_OFF", held.good_off), OF_OUTPUT("ON_OFF_CONFIG", held.on_off_config),
    OF_OUTPUT("TON_DELAY", held.ton_delay), OF_OUTPUT("TON_RISE", held.ton_rise), OF_OUTPUT("TON_MAX_FAULT_LIMIT", held.ton_max),
    OF_OUTPUT("VOUT_TRIM", held.trim), OF_OUTPUT("VOUT_CAL_OFFSET", held.offset)};
static const place OUTPUTS[] = {
    OF_OUTPUT("is_run_low", is_run_low), OF_OUTPUT("is_good_low", is_good_low), OF_OUTPUT("pin_command", pin_command),
    OF_OUTPUT("on_ms", on_ms), OF_OUTPUT("off_ms", off_ms), OF_OUTPUT("ramp_ms", ramp_ms), OF_OUTPUT("good_ms", good_ms),
    OF_OUTPUT("reserved", reserved), OF_OUTPUT("is_off_early", is_off_early), OF_OUTPUT("stored_trim", stored.trim),
    {"trip_at", offsetof(field_output, trip_at), 4}, OF_OUTPUT("error", error),
    OF_OUTPUT("has_tripped", has_tripped), OF_OUTPUT("STATUS_VOUT", vout), OF_OUTPUT("STATUS_IOUT", iout),
    OF_OUTPUT("STATUS_INPUT", input), OF_OUTPUT("STATUS_TEMPERATURE", temperature)};
static const place PARTS[] = {
    OF_PART("busy_ms", busy_ms), OF_PART("store_ms", store_ms), OF_PART("restore_ms", restore_ms), OF_PART("busy_kind", busy_kind),
    OF_PART("MFR_CONFIG_ALL", config_all), OF_PART("step", step), OF_PART("clamps", clamps), OF_PART("transfer_us", transfer_us),
    OF_PART("restart_at", restart_at), OF_PART("boot_ms", boot_ms),
    OF_PART("other_at", other_at), OF_PART("other_byte", other_byte), OF_PART("store_cml", store_cml),
    OF_PART("away_at_write", away_at_write), OF_PART("away_for", away_for),
    OF_PART("gone_code", gone_code),
    OF_PART("gone_at_write", gone_at_write), OF_PART("gone_at_frame", gone_at_frame), OF_PART("back_at_frame", back_at_frame), OF_PART("lost_at_frame", lost_at_frame), OF_PART("no_page_plus", no_page_plus), OF_PART("no_pec", no_pec), OF_PART("transfers", transfers), OF_PART("writes", writes), OF_PART("stores", stores), OF_PART("questions", questions),
    OF_PART("now", now), OF_PART("STATUS_CML", cml)};
static const struct { const char *name; uint8_t code; } CELLS[] = {
    {"OPERATION", OPERATION}, {"VOUT_COMMAND", VOUT_COMMAND}, {"VOUT_MAX", 0x24}, {"VOUT_MARGIN_HIGH", 0x25}, {"VOUT_MARGIN_LOW", 0x26},
    {"VOUT_MIN", 0x2B}, {"WRITE_PROTECT", WRITE_PROTECT}};

#define COUNT(table) (sizeof(table) / sizeof(table)[0])

static const place *find(const place *table, size_t count, const char *name) {
    for (size_t at = 0; at < count; at++)
        if (!strcmp(table[at].name, name)) return &table[at];
    return 0;
}

/* Where a named number stands, and how many bytes it has. */
static uint8_t *spot(field_part *part, uint8_t output, const char *name, uint8_t *size) {
    const place *found = output < part->outputs ? find(WORDS, COUNT(WORDS), name) : 0;
    if (!found && output < part->outputs) found = find(OUTPUTS, COUNT(OUTPUTS), name);
    if (found) return *size = found->size, (uint8_t *)&part->out[output] + found->at;
    found = find(PARTS, COUNT(PARTS), name);
    return found ? (*size = found->size, (uint8_t *)part + found->at) : 0;
}

static int cell_of(const char *name) {
    for (size_t at = 0; at < COUNT(CELLS); at++)
        if (!strcmp(CELLS[at].name, name)) return CELLS[at].code;
    return -1;
}

uint8_t field_set(field_part *part, uint8_t output, const char *name, int64_t value) {
    uint8_t size = 0, *at = spot(part, output, name, &size);
    int code = cell_of(name);
    if (at) {
        memcpy(at, &value, size);
        if (output < part->outputs && find(WORDS, COUNT(WORDS), name)) part->out[output].stored = part->out[output].held;
    } else if (!strcmp(name, "lacks")) {
        part->lacks[value >> 5 & 7] |= (uint32_t)1 << (value & 31);
    } else if (!strcmp(name, "READ_TEMPERATURE_1") || !strcmp(name, "READ_VIN")) {
        return pm_part_set_reading(&part->chip, 0, name[5] == 'V' ? 0x88 : 0x8D, (uint16_t)value) != 0;
    } else if (code == WRITE_PROTECT) {
        protect(part, (uint16_t)value);
    } else if (code >= 0 && output < part->outputs) {
        give_cell(part, output, (uint8_t)code, (uint16_t)value);
        store_chip(part);
    } else {
        return 1;
    }
    field_settle(part);
    return 0;
}

uint8_t field_get(field_part *part, uint8_t output, const char *name, int64_t *value) {
    uint8_t size = 0, *at = spot(part, output, name, &size);
    uint16_t word = 0;
    int code = cell_of(name);
    *value = 0;
    field_settle(part);
    if (at) return memcpy(value, at, size), 0;
    if (output < part->outputs && !strcmp(name, "microvolts")) return *value = field_voltage(part, &part->out[output]), 0;
    if (code < 0 || pm_part_word(&part->chip, output, (uint8_t)code, &word)) return 1;
    return *value = word, 0;
}
