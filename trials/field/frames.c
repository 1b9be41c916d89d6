/* What a part of field.h makes of frames: those that it answers by itself, and those that the model part behind it hears. */
#include <string.h>

#include "rails.h"

enum {
    OPERATION = 0x01, ON_OFF_CONFIG = 0x02, CLEAR_FAULTS = 0x03, PAGE_PLUS_WRITE = 0x05, PAGE_PLUS_READ = 0x06, WRITE_PROTECT = 0x10,
    STORE_USER_ALL = 0x15, RESTORE_USER_ALL = 0x16, VOUT_COMMAND = 0x21, VOUT_MAX = 0x24, VOUT_MARGIN_LOW = 0x26, VOUT_MIN = 0x2B,
    STATUS_BYTE = 0x78, STATUS_WORD = 0x79, STATUS_VOUT = 0x7A, STATUS_IOUT = 0x7B, STATUS_INPUT = 0x7C, STATUS_TEMPERATURE = 0x7D,
    STATUS_CML = 0x7E, READ_VOUT = 0x8B, MFR_ID = 0x99, MFR_MODEL = 0x9A, MFR_SERIAL = 0x9E, MFR_CONFIG_ALL = 0xD1, MFR_COMMON = 0xEF
};
/* Bits of STATUS_WORD and of STATUS_CML, and the byte of MFR_COMMON of a part that is ready, and of one that is busy. */
enum { WORD_VOUT = 0x8000, WORD_IOUT = 0x4000, WORD_INPUT = 0x2000, WORD_NOT_GOOD = 0x0800, BYTE_BUSY = 0x80, BYTE_OFF = 0x40,
       BYTE_OV = 0x20, BYTE_OC = 0x10, BYTE_VIN_UV = 0x08, BYTE_TEMPERATURE = 0x04, BYTE_CML = 0x02 };
enum { CML_COMMAND = 0x80, CML_DATA = 0x40, CML_PEC = 0x20 };
enum { IS_READY = 0x7F, IS_BUSY = 0x3F, PEC_REQUIRED = 0x04, IS_SHORT = 0x32 };

/* A frame: its code, the page of a PAGE_PLUS packet, and its data. */
typedef struct { uint8_t code, page, is_paged; const uint8_t *data; uint64_t count; } packet;

static packet packet_of(const uint8_t *bytes, uint64_t count, int is_request) {
    packet found = {count > 1 ? bytes[1] : 0, 0, 0, bytes + 2, count > 3 ? count - 3 : 0};
    if (count >= 5 && (found.code == PAGE_PLUS_WRITE || (is_request && found.code == PAGE_PLUS_READ)))
        found = (packet){bytes[4], bytes[3], 1, bytes + 5, count > 6 ? count - 6 : 0};
    return found;
}

static int lacks(const field_part *part, uint8_t code) {
    int is_back = part->back_at_frame && part->frames > part->back_at_frame && !(part->lost_at_frame && part->frames > part->lost_at_frame);
    int is_late = (part->gone_at_write && part->writes >= part->gone_at_write) || (part->gone_at_frame && part->frames > part->gone_at_frame && !is_back);
    return (is_late && (part->gone_code == 0x100 || part->gone_code == code)) || (part->lacks[code >> 5] >> (code & 31) & 1) != 0;
}

/* ---- Answers ---- */

static uint8_t give(const field_part *part, const uint8_t *request, uint64_t count, const uint8_t *payload, uint8_t size, uint8_t *answer,
                    uint64_t *length) {
    answer[0] = (uint8_t)(part->address << 1 | 1);
    memcpy(answer + 1, payload, size);
    answer[size + 1] = field_pec(answer, (uint64_t)size + 1, field_pec(request, count, 0));
    *length = (uint64_t)size + 2;
    return FIELD_ACKED;
}

/* A number of one or two bytes; a PAGE_PLUS packet has its count in front. */
static uint8_t give_number(const field_part *part, const uint8_t *request, uint64_t count, packet asked, uint16_t word, uint8_t size,
                           uint8_t *answer, uint64_t *length) {
    uint8_t payload[3] = {size, (uint8_t)word, (uint8_t)(word >> 8)};
    return asked.is_paged ? give(part, request, count, payload, (uint8_t)(size + 1), answer, length)
                          : give(part, request, count, payload + 1, size, answer, length);
}

static uint16_t status_vout_of(const field_part *part, uint8_t at) {
    uint8_t base = 0;
    (void)pm_part_status_vout(&part->chip, at, &base);
    return base | part->out[at].vout;
}

static uint16_t status_word_of(const field_part *part, uint8_t at) {
    const field_output *out = &part->out[at];
    uint16_t word = 0, vout = status_vout_of(part, at);
    (void)pm_part_status_word(&part->chip, at, &word);
    word = (uint16_t)(word & ~(BYTE_OFF | WORD_NOT_GOOD | BYTE_BUSY));
    if (vout) word |= WORD_VOUT;
    if (vout & VOUT_OV_FAULT) word |= BYTE_OV;
    if (out->iout) word |= (uint16_t)(WORD_IOUT | (out->iout & 0x80 ? BYTE_OC : 0));
    if (out->input) word |= (uint16_t)(WORD_INPUT | (out->input & 0x10 ? BYTE_VIN_UV : 0));
    if (out->temperature) word |= BYTE_TEMPERATURE;
    if (part->cml) word |= BYTE_CML;
    if (part->was_busy) word |= BYTE_BUSY;
    if (field_voltage(part, out) <= 0 || (out->is_off_early && out->to == 0)) word |= BYTE_OFF;
    if (!out->has_been_good || out->is_good_low) word |= WORD_NOT_GOOD;
    return word;
}

static uint16_t read_vout_of(const field_part *part, uint8_t at) {
    const field_output *out = &part->out[at];
    int64_t volts = field_voltage(part, out), word = (volts * 4096 + 500000) / 1000000;
    if (volts > 0) word += out->error;
    return (uint16_t)(word < 0 ? 0 : word > 0xFFFF ? 0xFFFF : word);
}

/* OPERATION as it is held, with the bits that read 1. 0, or 1 where there is none. */
static uint8_t read_cell(const field_part *part, uint8_t at, uint8_t code, uint16_t *word) {
    uint16_t held = 0;
    if (pm_part_word(&part->chip, at, code, &held)) return 1;
    return *word = (uint16_t)(*word | held), 0;
}

/* The word that a register of an output has where this file answers it: its size, or 0 where the model part answers. */
static uint8_t word_of(const field_part *part, uint8_t code, uint8_t at, uint16_t *word) {
    const field_output *out = &part->out[at];
    switch (code) {
    case OPERATION: *word = out->reserved; return *word && !read_cell(part, at, code, word) ? 1 : 0;
    case ON_OFF_CONFIG: *word = out->held.on_off_config; return 1;
    case 0x40: *word = out->held.ov_fault; return 2;
    case 0x42: *word = out->held.ov_warn; return 2;
    case 0x43: *word = out->held.uv_warn; return 2;
    case 0x44: *word = out->held.uv_fault; return 2;
    case 0x22: *word = out->held.trim; return 2;
    case 0x23: *word = out->held.offset; return 2;
    case 0x5E: *word = out->held.good_on; return 2;
    case 0x5F: *word = out->held.good_off; return 2;
    case 0x60: case 0x61: case 0x62:
        *word = code == 0x60 ? out->held.ton_delay : code == 0x61 ? out->held.ton_rise : out->held.ton_max;
        return *word == 0xFFFF ? 0 : 2;
    case STATUS_BYTE: *word = (uint16_t)(status_word_of(part, at) & 0xFF); return 1;
    case STATUS_WORD: *word = status_word_of(part, at); return 2;
    case STATUS_VOUT: *word = status_vout_of(part, at); return 1;
    case STATUS_IOUT: *word = out->iout; return 1;
    case STATUS_INPUT: *word = out->input; return 1;
    case STATUS_TEMPERATURE: *word = out->temperature; return 1;
    case READ_VOUT: *word = read_vout_of(part, at); return 2;
    default: return 0;
    }
}

static uint8_t ask_chip(field_part *part, const uint8_t *bytes, uint64_t count, uint8_t *answer, uint64_t *length) {
    pm_part_reply reply = {0, 0, {0}};
    uint8_t number = pm_part_hear(&part->chip, bytes, count, 1, &reply);
    if (number != PM_HEARD_ANSWERED) return FIELD_REFUSED;
    memcpy(answer, reply.bytes, reply.length);
    *length = reply.length;
    return FIELD_ACKED;
}

static uint8_t answer_request(field_part *part, const uint8_t *bytes, uint64_t count, packet asked, uint8_t *answer, uint64_t *length) {
    static const struct { uint8_t code; uint8_t block[8]; } BLOCKS[] = {
        {MFR_ID, {3, 'P', 'M', 'F'}}, {MFR_MODEL, {6, 'F', 'I', 'E', 'L', 'D', '1'}}, {MFR_SERIAL, {4, '0', '0', '4', '7'}}};
    uint16_t word = 0;
    uint8_t page = 0, size;
    (void)pm_part_page(&part->chip, &page);
    page = asked.is_paged ? asked.page : page;
    if (lacks(part, asked.code)) return part->cml |= CML_COMMAND, FIELD_REFUSED;
    for (unsigned at = 0; at < sizeof BLOCKS / sizeof BLOCKS[0]; at++)
        if (!asked.is_paged && asked.code == BLOCKS[at].code)
            return give(part, bytes, count, BLOCKS[at].block, (uint8_t)(BLOCKS[at].block[0] + 1), answer, length);
    if (!asked.is_paged && (asked.code == MFR_CONFIG_ALL || asked.code == MFR_COMMON))
        return give_number(part, bytes, count, asked, asked.code == MFR_COMMON ? IS_READY : part->config_all, 1, answer, length);
    if (asked.code == STATUS_CML && part->cml && !asked.is_paged) {
        uint8_t base = 0;
        (void)pm_part_status_cml(&part->chip, &base);
        return give_number(part, bytes, count, asked, (uint16_t)(base | part->cml), 1, answer, length);
    }
    size = page < part->outputs ? word_of(part, asked.code, page, &word) : 0;
    return size ? give_number(part, bytes, count, asked, word, size, answer, length) : ask_chip(part, bytes, count, answer, length);
}

/* ---- Writes ---- */

/* A word of a voltage as the part takes it. */
static uint16_t taken(field_part *part, uint8_t at, uint8_t code, uint16_t word) {
    uint16_t least = 0, most = 0xFFFF, was = word;
    word = (uint16_t)(word - word % (part->step ? part->step : 1));
    if (part->clamps && code != VOUT_MAX && code != VOUT_MIN) {
        (void)pm_part_word(&part->chip, at, VOUT_MAX, &most);
        (void)pm_part_word(&part->chip, at, VOUT_MIN, &least);
        if (word > most || word < least) part->out[at].vout |= VOUT_MAX_MIN;
        word = word > most ? most : word < least ? least : word;
    }
    return word == was ? was : word;
}

static int is_voltage(uint8_t code) {
    return code == VOUT_COMMAND || (code >= VOUT_MAX && code <= VOUT_MARGIN_LOW) || code == VOUT_MIN;
}

/* Writes a register that this file has. 0 where it has none of this code. */
static int take_own(field_part *part, packet said, uint8_t at) {
    field_words *held = &part->out[at].held;
    uint16_t protect = 0, word = (uint16_t)(said.count > 1 ? said.data[0] | said.data[1] << 8 : said.count ? said.data[0] : 0);
    uint16_t *places[] = {&held->ov_fault, 0, &held->ov_warn, &held->uv_warn, &held->uv_fault};
    uint16_t *place = said.code >= 0x40 && said.code <= 0x44 ? places[said.code - 0x40] : said.code == 0x5E ? &held->good_on
        : said.code == 0x5F ? &held->good_off : said.code == 0x22 ? &held->trim : said.code == 0x23 ? &held->offset : said.code == ON_OFF_CONFIG ? &held->on_off_config : 0;
    if (said.code == MFR_CONFIG_ALL && !said.is_paged) place = &part->config_all;
    if (!place) return 0;
    (void)pm_part_word(&part->chip, 0, WRITE_PROTECT, &protect);
    if (protect || said.count != (said.code == ON_OFF_CONFIG || said.code == MFR_CONFIG_ALL ? 1u : 2u)) part->cml |= CML_DATA;
    else *place = word;
    return 1;
}

/* What follows from a command that the model part has taken. */
static void follow(field_part *part, packet said, uint8_t page) {
    if (said.code == CLEAR_FAULTS) {
        part->cml = part->was_busy = 0;
        for (uint8_t at = 0; at < part->outputs; at++) {
            field_output *out = &part->out[at];
            if (!said.is_paged || at == page) out->vout = out->iout = out->input = out->temperature = 0;
        }
    } else if (said.code == STORE_USER_ALL) {
        part->stores++;
        for (uint8_t at = 0; at < part->outputs; at++) part->out[at].stored = part->out[at].held;
    } else if (said.code == RESTORE_USER_ALL) {
        field_restart(part);
    }
}

static void take_write(field_part *part, uint8_t *frame, uint64_t count) {
    packet said = packet_of(frame, count, 0);
    pm_part_reply reply;
    uint8_t page = 0;
    (void)pm_part_page(&part->chip, &page);
    if (said.is_paged) page = said.page;
    if (frame[count - 1] != field_pec(frame, count - 1, 0)) {
        part->cml |= CML_PEC;
    } else if (lacks(part, said.code)) {
        part->cml |= CML_COMMAND;
    } else if (page >= part->outputs || !take_own(part, said, page)) {
        if (is_voltage(said.code) && page < part->outputs && said.count == 2) {
            uint16_t word = taken(part, page, said.code, (uint16_t)(said.data[0] | said.data[1] << 8));
            frame[count - 3] = (uint8_t)word, frame[count - 2] = (uint8_t)(word >> 8);
            frame[count - 1] = field_pec(frame, count - 1, 0);
        }
        if (said.code == STORE_USER_ALL && part->store_cml) part->stores++, part->cml |= part->store_cml;
        else if (pm_part_hear(&part->chip, frame, count, 0, &reply) == PM_HEARD_TAKEN) follow(part, said, page);
    }
    uint16_t for_ms = said.code == STORE_USER_ALL ? part->store_ms : said.code == RESTORE_USER_ALL ? part->restore_ms : part->busy_ms;
    part->ready = part->now + (uint64_t)for_ms * 1000;
}

/* A write without its packet error code is taken where none is required: the model part says whether one is missing. */
static void take(field_part *part, const uint8_t *bytes, uint64_t count) {
    uint8_t frame[FIELD_ANSWER + 1];
    pm_part trial = part->chip;
    pm_part_reply reply = {0, 0, {0}};
    if (count >= FIELD_ANSWER) {
        part->cml |= CML_DATA;
        return;
    }
    memcpy(frame, bytes, count);
    int is_short = pm_part_hear(&trial, frame, count, 0, &reply) == PM_HEARD_K1_FRAME && reply.frame_fault == IS_SHORT;
    if (!(part->config_all & PEC_REQUIRED) && (is_short || (count == 3 && frame[1] == MFR_CONFIG_ALL))) {
        frame[count] = field_pec(frame, count, 0);
        count++;
    }
    take_write(part, frame, count);
}

/* ---- The wire ---- */

static uint8_t hear_busy(field_part *part, const uint8_t *bytes, uint64_t count, uint8_t is_request, uint8_t *answer, uint64_t *length) {
    part->questions++;
    if (is_request && count == 2 && bytes[1] == MFR_COMMON && part->busy_kind != FIELD_DEAF) {
        packet asked = packet_of(bytes, count, 1);
        return give_number(part, bytes, count, asked, IS_BUSY, 1, answer, length);
    }
    part->was_busy = 1;
    if (part->busy_kind != FIELD_ONES) return part->busy_kind == FIELD_DEAF ? FIELD_UNHEARD : FIELD_REFUSED;
    memset(answer, 0xFF, FIELD_ANSWER);
    *length = is_request ? FIELD_ANSWER : 0;
    return FIELD_ACKED;
}

/* A request, of a part that may lack PAGE_PLUS or the packet error codes of its answers. */
static uint8_t hear_request(field_part *part, const uint8_t *bytes, uint64_t count, uint8_t *answer, uint64_t *length) {
    packet asked = packet_of(bytes, count, 1);
    if (asked.is_paged && part->no_page_plus) {
        part->cml |= CML_COMMAND;
        memset(answer, 0xFF, FIELD_ANSWER);
        *length = part->no_page_plus == 2 ? FIELD_ANSWER : 0;
        return part->no_page_plus == 2 ? FIELD_ACKED : FIELD_REFUSED;
    }
    uint8_t ended = answer_request(part, bytes, count, asked, answer, length);
    if (part->no_pec && *length > 0) answer[*length - 1] = 0xFF;
    return ended;
}

/* A frame that is sent to it: 0 where the bus is away. */
static int is_there(field_part *part, uint8_t is_request) {
    uint32_t sent = part->frames++;
    if (part->restart_at && sent == part->restart_at) field_restart(part);
    if (part->other_at && sent == part->other_at) field_order(part, 0, (uint8_t)part->other_byte);
    for (uint8_t at = 0; at < part->outputs; at++)
        if (part->out[at].trip_at && sent == part->out[at].trip_at) field_trip(part, &part->out[at], VOUT_UV_FAULT);
    if (!is_request && part->away_at_write && part->writes + 1 == part->away_at_write && !part->away_until)
        part->away_until = sent + part->away_for;
    return sent >= part->away_until && part->now >= part->boots_until;
}

uint8_t field_hear(field_part *part, const uint8_t *bytes, uint64_t count, uint8_t is_request, uint8_t *answer, uint64_t *length) {
    *length = 0;
    if (!is_there(part, is_request) || count == 0 || bytes[0] != part->address << 1) return FIELD_UNHEARD;
    part->transfers++;
    if (part->now < part->ready) return hear_busy(part, bytes, count, is_request, answer, length);
    field_settle(part);
    if (is_request) return hear_request(part, bytes, count, answer, length);
    part->writes++;
    if (part->no_page_plus && count > 1 && bytes[1] == PAGE_PLUS_WRITE) {
        part->cml |= CML_COMMAND;
        return part->no_page_plus == 2 ? FIELD_ACKED : FIELD_REFUSED;
    }
    take(part, bytes, count);
    field_settle(part);
    return FIELD_ACKED;
}

uint8_t field_write(void *context, const uint8_t *bytes, uint64_t count) {
    field_part *part = context;
    uint8_t answer[FIELD_ANSWER];
    uint64_t length = 0;
    uint8_t ended = field_hear(part, bytes, count, 0, answer, &length);
    part->now += part->transfer_us;
    return ended == FIELD_ACKED ? 0xA5 : ended == FIELD_UNHEARD ? 0x3C : 0x5A;
}

uint64_t field_read(void *context, const uint8_t *request, uint64_t count, uint8_t *answer, uint64_t room) {
    field_part *part = context;
    uint8_t came[FIELD_ANSWER];
    uint64_t length = 0;
    uint8_t ended = field_hear(part, request, count, 1, came, &length);
    part->now += part->transfer_us;
    if (ended != FIELD_ACKED || length < 2) return 0;
    length = length - 1 < room ? length - 1 : room;
    memcpy(answer, came + 1, length);
    return length;
}
