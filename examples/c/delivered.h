/* What a rail does, in the words of `pmhost`: for a program that has standard output. It takes what a list said of a step, and its record. */
#ifndef DELIVERED_H
#define DELIVERED_H

#include <inttypes.h>
#include <stdarg.h>
#include <stdio.h>
#include <string.h>

#include "pmhost.h"

/* What a chain of calls was told once of a part. */
typedef struct { int limits; } delivered_told;

/* A line that grows, as far as there is room. */
typedef struct { char *text; size_t room, used; } delivered_line;

static inline void delivered_put(delivered_line *line, const char *form, ...) {
    va_list words;
    va_start(words, form);
    int count = vsnprintf(line->text + line->used, line->room - line->used, form, words);
    va_end(words);
    line->used = count < 0 ? line->used : line->used + (size_t)count < line->room ? line->used + (size_t)count : line->room - 1;
}

/* The standard's name of a register. */
static inline const char *delivered_name(uint8_t code) {
    switch (code) {
    case 0x21: return "VOUT_COMMAND";
    case 0x25: return "VOUT_MARGIN_HIGH";
    case 0x26: return "VOUT_MARGIN_LOW";
    case 0x40: return "VOUT_OV_FAULT_LIMIT";
    case 0x42: return "VOUT_OV_WARN_LIMIT";
    case 0x43: return "VOUT_UV_WARN_LIMIT";
    case 0x44: return "VOUT_UV_FAULT_LIMIT";
    case 0x79: return "STATUS_WORD";
    case 0x7A: return "STATUS_VOUT";
    case 0x7B: return "STATUS_IOUT";
    case 0x7C: return "STATUS_INPUT";
    case 0x7D: return "STATUS_TEMPERATURE";
    default: return "READ_VOUT";
    }
}

/* The name of a bit of a status register, or NULL of one that has none. */
static inline const char *delivered_bit(uint8_t code, int bit) {
    static const char *const words[16] = {
        "NONE_OF_THE_ABOVE", "CML", "TEMPERATURE", "VIN_UV_FAULT", "IOUT_OC_FAULT", "VOUT_OV_FAULT", "OFF", "BUSY",
        "UNKNOWN", "OTHER", "FANS", "POWER_GOOD#", "MFR_SPECIFIC", "INPUT", "IOUT_POUT", "VOUT"};
    static const char *const bytes[4][8] = {
        {"TRACKING", "TOFF_MAX_WARNING", "TON_MAX_FAULT", "VOUT_MAX_MIN", "VOUT_UV_FAULT", "VOUT_UV_WARNING", "VOUT_OV_WARNING", "VOUT_OV_FAULT"},
        {"POUT_OP_WARNING", "POUT_OP_FAULT", "POWER_LIMITING", "CURRENT_SHARE_FAULT", "IOUT_UC_FAULT", "IOUT_OC_WARNING", "IOUT_OC_LV_FAULT",
         "IOUT_OC_FAULT"},
        {"PIN_OP_WARNING", "IIN_OC_WARNING", "IIN_OC_FAULT", "UNIT_OFF_LOW_VIN", "VIN_UV_FAULT", "VIN_UV_WARNING", "VIN_OV_WARNING", "VIN_OV_FAULT"},
        {NULL, NULL, NULL, NULL, "UT_FAULT", "UT_WARNING", "OT_WARNING", "OT_FAULT"}};
    return code == 0x79 ? words[bit] : bit < 8 ? bytes[code - 0x7A][bit] : NULL;
}

static inline void delivered_put_bit(delivered_line *line, uint8_t code, int bit) {
    const char *name = delivered_bit(code, bit);
    if (name)
        delivered_put(line, "%s", name);
    else
        delivered_put(line, "bit %d", bit);
}

/* The bits that are 1, the high one first. */
static inline void delivered_put_bits(delivered_line *line, uint8_t code, uint16_t word) {
    for (int bit = 15, has_some = 0; bit >= 0; bit--)
        if (word >> bit & 1) {
            delivered_put(line, "%s", has_some++ ? ", " : "");
            delivered_put_bit(line, code, bit);
        }
}

/* A voltage in volts, without zeros at its end. */
static inline void delivered_put_volts(delivered_line *line, int64_t microvolts) {
    uint64_t size = microvolts < 0 ? 0 - (uint64_t)microvolts : (uint64_t)microvolts, rest = size % 1000000;
    int digits = 6;
    while (digits > 0 && rest % 10 == 0) rest /= 10, digits--;
    delivered_put(line, "%s%" PRIu64, microvolts < 0 ? "-" : "", size / 1000000);
    if (digits > 0)
        delivered_put(line, ".%0*" PRIu64, digits, rest);
    delivered_put(line, "V");
}

/* A word in volts, by the format that the host knows of an output. */
static inline void delivered_put_word(delivered_line *line, const pm_host *host, uint8_t output, uint16_t word) {
    pm_format format;
    int64_t microvolts;
    if (pm_host_format(host, output, &format) == PM_OK && pm_microvolts(&format, word, &microvolts) == PM_OK)
        delivered_put_volts(line, microvolts);
    else
        delivered_put(line, "%04X", word);
}

/* The status registers with their bits, and which faults stood before the first order. */
static inline void delivered_put_status(delivered_line *line, const pm_delivery *look) {
    const pm_heard *registers[] = {&look->status_vout, &look->status_iout, &look->status_input, &look->status_temperature};
    uint16_t status = look->status_word.word, old = status & look->before.word & 0xE03C;
    int has_new = (status & ~look->before.word) != 0;
    delivered_put(line, "STATUS_WORD %04X%s", status, status ? " " : "");
    delivered_put_bits(line, 0x79, status);
    if (old) {
        delivered_put(line, " (");
        delivered_put_bits(line, 0x79, has_new ? old : 0);
        delivered_put(line, "%sset before this call)", has_new ? " " : "");
    }
    for (uint8_t at = 0; at < 4; at++)
        if (registers[at]->asked && registers[at]->fault == 0) {
            delivered_put(line, " and %s %02X%s", delivered_name((uint8_t)(0x7A + at)), registers[at]->word, registers[at]->word ? " " : "");
            delivered_put_bits(line, (uint8_t)(0x7A + at), registers[at]->word);
        }
}

/* READ_VOUT, and how it stands. */
static inline void delivered_put_reading(delivered_line *line, const pm_delivery *look, const pm_host *host, const pm_sequence_said *it) {
    pm_limits limits;
    delivered_put(line, "READ_VOUT ");
    delivered_put_volts(line, it->microvolts);
    if (it->verdict == PM_OUTSIDE_LIMITS && pm_host_limits(host, look->output, &limits) == PM_OK) {
        delivered_put(line, " is OUTSIDE ");
        delivered_put_volts(line, limits.least);
        delivered_put(line, " to ");
        delivered_put_volts(line, limits.most);
    } else if (it->verdict == PM_BEYOND) {
        delivered_put(line, " is more than %d", look->within / 10);
        if (look->within % 10)
            delivered_put(line, ".%d", look->within % 10);
        delivered_put(line, "%% away from what is commanded");
    }
}

/* Power good is missing, and where it begins. */
static inline void delivered_put_power_good(delivered_line *line, const pm_delivery *look, const pm_host *host, const pm_sequence_said *it) {
    pm_format format;
    int64_t begins = 0;
    int is_known = look->power_good_on.asked && look->power_good_on.fault == 0 && pm_host_format(host, look->output, &format) == PM_OK
        && pm_microvolts(&format, look->power_good_on.word, &begins) == PM_OK;
    delivered_put(line, "power good %s", !is_known ? "is missing" : it->microvolts < begins ? "begins at " : "is missing, and begins at ");
    if (is_known)
        delivered_put_volts(line, begins);
}

/* What isn't known of an output, by its STATUS_WORD or another register. */
static inline void delivered_put_unknown(delivered_line *line, const pm_delivery *look, const pm_sequence_said *it) {
    int is_off = look->look == 3, said = is_off ? PM_LACKS_STATUS_WORD : PM_LACKS_STATUS_WORD | PM_LACKS_READ_VOUT;
    int is_missing = it->code == 0x79 && look->lacks & (PM_LACKS_STATUS_WORD | PM_FOUND_NO_STATUS_WORD);
    pm_name name = {{0}};
    delivered_put(line, is_off ? "commanded off; not known to be off: " : "delivery not known: ");
    if (it->code == 0x8B && it->fault == 0)
        delivered_put(line, "what the output commands isn't known");
    else if (is_missing)
        delivered_put(line, "the part %s STATUS_WORD%s", (look->lacks & said) == said ? "lacks" : "seems to lack", is_off ? "" : " and READ_VOUT");
    else if (it->fault == PM_NO_ANSWER)
        delivered_put(line, "%s gave no good answer: no answer", delivered_name(it->code));
    else if (pm_refusal_name((uint8_t)it->fault, &name) == PM_OK)
        delivered_put(line, "%s gave no good answer: %s", delivered_name(it->code), name.text);
}

static inline void delivered_put_verdict(delivered_line *line, const pm_delivery *look, const pm_host *host, const pm_sequence_said *it) {
    switch (it->verdict) {
    case PM_DELIVERS: case PM_DELIVERS_BY_READ_VOUT:
        delivered_put(line, "delivers %s", it->has_microvolts ? "" : "by STATUS_WORD");
        if (it->has_microvolts)
            delivered_put_volts(line, it->microvolts);
        if (it->verdict == PM_DELIVERS_BY_READ_VOUT)
            delivered_put(line, " by READ_VOUT");
        break;
    case PM_COMMANDED_OFF: delivered_put(line, "commanded off"); break;
    case PM_NOT_KNOWN_ON: delivered_put(line, "not known to be on"); break;
    case PM_IS_OFF: delivered_put_status(line, look), delivered_put(line, ": the rail is off"); break;
    case PM_NEW_FAULT:
        delivered_put_status(line, look);
        delivered_put(line, ": ");
        delivered_put_bit(line, it->code, it->bit);
        delivered_put(line, " came with this call");
        break;
    case PM_OUTSIDE_LIMITS: case PM_BEYOND: delivered_put_reading(line, look, host, it); break;
    case PM_POWER_GOOD_ALONE:
        delivered_put_reading(line, look, host, it);
        delivered_put(line, "; ");
        delivered_put_status(line, look);
        delivered_put(line, ": ");
        delivered_put_power_good(line, look, host, it);
        break;
    case PM_NO_POWER_GOOD: delivered_put_status(line, look), delivered_put(line, ": power good is missing"); break;
    case PM_DELIVERY_NOT_KNOWN: delivered_put_unknown(line, look, it); break;
    case PM_WENT_OFF: delivered_put(line, "the part says that it is off"); break;
    case PM_STILL_ON:
        delivered_put(line, "commanded off, and the part says that it is on: ");
        delivered_put_status(line, look);
        break;
    default: delivered_put(line, "delivery not asked to its end"); break;
    }
    if ((it->verdict == PM_DELIVERS || it->verdict == PM_OUTSIDE_LIMITS || it->verdict == PM_BEYOND) && look->status_word.word) {
        delivered_put(line, "; ");
        delivered_put_status(line, look);
    }
}

/* The word that a step asks for of VOUT_COMMAND or a margin, by the format that the host knows; of a byte that leaves the output on the word
 * that the selected register holds. Whether it has one. */
static inline int delivered_goal(const pm_host *host, const pm_sequence_step *step, uint8_t code, uint16_t *word) {
    const pm_sequence_wish *wish = code == PM_VOUT_COMMAND ? &step->command : code == PM_VOUT_MARGIN_HIGH ? &step->margin_high : &step->margin_low;
    int margin = step->byte & 0x30;
    uint8_t selected = margin == 0x20 ? PM_VOUT_MARGIN_HIGH : margin == 0x10 ? PM_VOUT_MARGIN_LOW : PM_VOUT_COMMAND;
    pm_standing held = {0, 0};
    pm_format format;
    if (step->kind == PM_TURNS) {
        int is_held = pm_host_confirmed_word(host, step->output, code, &held) == PM_OK && held.is_confirmed;
        *word = held.word;
        return is_held && (step->byte & 0x80) && selected == code;
    }
    *word = wish->word;
    return wish->kind == PM_WORD || (wish->kind == PM_MICROVOLTS && pm_host_format(host, step->output, &format) == PM_OK
                                     && pm_nearest_word(&format, wish->microvolts, word) == PM_OK);
}

/* Whether a word is at or beyond a limit that gave a good answer, which is one above it or below. */
static inline int delivered_is_beyond(const pm_host *host, uint8_t output, uint16_t word, const pm_heard *limit, int is_above) {
    pm_format format;
    int64_t value, end;
    if (!limit->asked || limit->fault || pm_host_format(host, output, &format) != PM_OK || pm_microvolts(&format, word, &value) != PM_OK
        || pm_microvolts(&format, limit->word, &end) != PM_OK)
        return 0;
    return is_above ? value >= end : value <= end;
}

/* The first of two limits that a step's goal of a register is at or beyond: what is wanted, and the limit. Whether it is beyond one. */
static inline int delivered_put_goal(delivered_line *line, const pm_host *host, const pm_sequence_step *step, uint8_t goal, uint8_t above,
                                     const pm_heard *most, uint8_t below, const pm_heard *least, const char *which) {
    uint16_t word;
    int is_above;
    if (!delivered_goal(host, step, goal, &word))
        return 0;
    is_above = delivered_is_beyond(host, step->output, word, most, 1);
    if (!is_above && !delivered_is_beyond(host, step->output, word, least, 0))
        return 0;
    delivered_put(line, "%s%s ", line->used && !which[0] ? "; " : "", delivered_name(goal));
    delivered_put_word(line, host, step->output, word);
    delivered_put(line, " is at or beyond %s%s ", delivered_name(is_above ? above : below), which);
    delivered_put_word(line, host, step->output, is_above ? most->word : least->word);
    return 1;
}

static const uint8_t delivered_goals[3] = {PM_VOUT_COMMAND, PM_VOUT_MARGIN_HIGH, PM_VOUT_MARGIN_LOW};

/* What is said of limits: those that gave no good answer, once, and those that what is wanted is at or beyond, if something was ordered. */
static inline void delivered_put_limits(delivered_line *line, const pm_delivery *look, const pm_host *host, const pm_sequence_step *step,
                                        int has_ordered, delivered_told *told) {
    const pm_heard *limits[] = {&look->ov_fault_limit, &look->ov_warn_limit, &look->uv_warn_limit, &look->uv_fault_limit};
    static const uint8_t codes[] = {0x40, 0x42, 0x43, 0x44};
    int silent = 0;
    for (int at = 0; at < 4; at++)
        if (!told->limits && limits[at]->asked && limits[at]->fault)
            delivered_put(line, "%s%s", silent++ ? ", " : line->used ? "; " : "", delivered_name(codes[at]));
    if (silent)
        delivered_put(line, " gave no good answer, and %sn't judged", silent == 1 ? "is" : "are"), told->limits = 1;
    for (int at = 0; has_ordered && at < 3; at++) {
        delivered_put_goal(line, host, step, delivered_goals[at], 0x40, limits[0], 0x44, limits[3], "");
        delivered_put_goal(line, host, step, delivered_goals[at], 0x42, limits[1], 0x43, limits[2], "");
    }
}

/* The words of what a list said of the rail of a step: of PM_RAIL_DOES and PM_RAIL_FAILS, and of PM_GOAL_BEYOND. `look` is that of the step's
 * record. `has_ordered` says whether something was ordered. */
static inline void delivered_words(char *text, size_t room, const pm_sequence_said *said, const pm_sequence_step *step, const pm_delivery *look,
                                   const pm_host *host, int has_ordered, delivered_told *told) {
    delivered_line line = {text, room, 0};
    text[0] = 0;
    if (said->kind == PM_GOAL_BEYOND) {
        int is_beyond = 0;
        delivered_put(&line, "P8 BeyondFaultLimit: ");
        for (int at = 0; at < 3 && !is_beyond; at++)
            is_beyond = delivered_put_goal(&line, host, step, delivered_goals[at], 0x40, &look->ov_fault_limit, 0x44, &look->uv_fault_limit,
                                           ", which is");
        delivered_put(&line, ": move the limit first");
        return;
    }
    delivered_put_verdict(&line, look, host, said);
    delivered_put_limits(&line, look, host, step, has_ordered, told);
}

#endif
