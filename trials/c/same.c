/* Random calls of every export, damaged memory and refusals among them. Every answer and every byte that a call may
 * write goes into two sums, so two builds that print the same line answered and wrote the same.
 *
 *     same [FIRST_SEED [SEEDS [STEPS]]]
 *
 * A line for each seed: how many calls were made, were taken, and ended a job; how many exports were called; the sums;
 * and how many answers weren't widened with zeros, where the processor's calling convention asks that of the library. */
#include "pmhost.h"
#include "pmpart.h"
#include <stdio.h>
#include <stdlib.h>
#include <string.h>

#ifndef FIRST_SEED
#define FIRST_SEED 1
#endif
#ifndef SEEDS
#define SEEDS 1
#endif
#ifndef STEPS
#define STEPS 300000
#endif

/* On 32-bit ARM, RISC-V and WebAssembly a callee widens a result of 8 or 16 bits to a register. Such a result is taken
 * here by a second name, as a whole register. Elsewhere the upper bits are nobody's. */
#if (defined __arm__ || defined __riscv || defined __wasm__)
#define WIDENED 1
uint32_t wide_pec(const uint8_t *bytes, uint64_t count) __asm__("pm_pec");
uint32_t wide_version(void) __asm__("pm_host_version");
uint32_t wide_restart_seen(const pm_host *host) __asm__("pm_host_restart_seen");
uint32_t wide_check(pm_host *host, uint8_t output, uint8_t code) __asm__("pm_host_check");
uint32_t wide_hear(pm_part *part, const uint8_t *bytes, uint64_t count, uint8_t is_request, pm_part_reply *reply)
    __asm__("pm_part_hear");
uint32_t wide_word(const pm_format *format, int64_t microvolts, uint16_t *word) __asm__("pm_nearest_word");
#else
#define WIDENED 0
#define wide_pec pm_pec
#define wide_version pm_host_version
#define wide_restart_seen pm_host_restart_seen
#define wide_check pm_host_check
#define wide_hear pm_part_hear
#define wide_word pm_nearest_word
#endif

enum { HOSTS = 3, HALVES = PM_HOST_SIZE / 2, GUARD = 4, ROOM = 320, EXPORTS = 76, STEPS_OF_LISTS = 4 };

/* Hosts at addresses that eight divides, with guards around them: the last is damaged. */
static uint64_t memory[HOSTS][(GUARD + HALVES + GUARD) / 4];
static struct { uint16_t before[3]; pm_part part; uint16_t after[3]; } kept;
static uint8_t room[ROOM];

/* What calls write, with guards. */
static struct {
    uint8_t a[3]; pm_sending sending; uint8_t b; pm_part_reply reply; uint16_t c; pm_words words; uint16_t d; pm_standing standing;
    uint16_t e; pm_format format; uint16_t f; pm_packet packet; uint16_t g; uint16_t word; uint16_t h[4]; int64_t microvolts;
    uint16_t i[4]; pm_limits limits; uint16_t j[4]; pm_band band; uint16_t k[4]; pm_name name; pm_payload payload; uint16_t l[4];
    pm_rail rail; uint16_t m[4]; pm_course_end end; uint16_t n[2]; pm_course_job job; uint16_t o[4]; pm_judgement judgement; uint8_t q[3]; pm_block block; uint8_t r[3];
} out;

/* A course, with guards around it. */
static struct { uint16_t before[4]; pm_course course; uint16_t after[4]; } asked;

/* A sequence, its steps and its records, with guards around them. */
static struct {
    uint16_t before[4]; pm_sequence sequence; pm_sequence_step steps[STEPS_OF_LISTS]; pm_sequence_record records[STEPS_OF_LISTS]; uint16_t after[4];
} listed;

/* What is known of all cells, which is large: with guards of its own. */
static struct { uint16_t before[3]; pm_known known; uint16_t after[3]; } cells;

static uint64_t seed;
static uint32_t sum, turned, calls, taken, ends, narrow;
static uint64_t called[2];

static uint32_t draw(uint32_t below) {
    seed ^= seed << 13;
    seed ^= seed >> 7;
    seed ^= seed << 17;
    return (uint32_t)(seed >> 32) % below;
}

static void add(uint32_t word) {
    sum = (sum ^ word) * 0x01000193u;
    turned = (turned << 5 | turned >> 27) + word;
}

static void add_halves(const uint16_t *halves, unsigned count) {
    for (unsigned i = 0; i + 1 < count; i += 2)
        add((uint32_t)halves[i] | (uint32_t)halves[i + 1] << 16);
    if (count % 2)
        add(halves[count - 1]);
}

static void add_bytes(const void *from, unsigned count) {
    const uint8_t *bytes = (const uint8_t *)from;
    for (unsigned i = 0; i < count; i++)
        add(bytes[i]);
}

static uint16_t *halves_at(unsigned number) {
    return (uint16_t *)(memory[number] + GUARD / 4);
}

static pm_host *host_at(unsigned number) {
    return (pm_host *)(memory[number] + GUARD / 4);
}

/* An answer of export number `which`: a register's width where the library has to widen it. */
static uint32_t heard(unsigned which, uint32_t answer, uint32_t most) {
    calls++;
    taken += answer == 0;
    called[which / 64] |= (uint64_t)1 << which % 64;
    narrow += answer > most;
    add(which << 24 ^ answer);
    return answer & most;
}

static void wrote(const void *thing, unsigned count) {
    add_bytes(thing, count);
    if (draw(16) == 0)
        add_bytes(&out, sizeof out);
}

static uint8_t draw_output(void) {
    return (uint8_t)(draw(16) ? draw(3) : draw(256));
}

static uint8_t draw_code(void) {
    static const uint8_t codes[] = {0x01, 0x10, 0x21, 0x24, 0x25, 0x26, 0x2B, 0x20, 0x03, 0x30, 0x8B, 0x7A};
    unsigned kind = draw(16);
    return (uint8_t)(kind == 0 ? draw(256) : kind < 12 ? codes[draw(7)] : codes[draw(sizeof codes)]);
}

static uint16_t draw_word(void) {
    static const uint16_t words[] = {0x00, 0x80, 0x94, 0xB0, 0x20, 0x40, 0x34CD, 0x1000, 0xFFFF, 0x7FFF, 0x8000};
    unsigned kind = draw(8);
    return (uint16_t)(kind == 0 ? draw(65536) : kind < 3 ? 0x1000 + draw(20) : words[draw(sizeof words / sizeof *words)]);
}

static int64_t draw_microvolts(void) {
    int64_t high = draw(65536), middle = draw(65536), low = draw(65536), sign = draw(2) ? 1 : -1;
    switch (draw(6)) {
    case 0: return sign * (1000000000000000 + (int64_t)draw(3) - 1);
    case 1: return (int64_t)((uint64_t)high << 48 | (uint64_t)middle << 32 | (uint64_t)low << 16 | draw(65536));
    case 2: return sign * (high << 24 | middle << 8 | (low & 255));
    default: return (high << 16 | low) % 5000000;
    }
}

static pm_format draw_format(void) {
    pm_format format;
    unsigned is_any = draw(8) == 0;
    format.kind = (uint8_t)(is_any ? draw(256) : draw(4));
    format.exponent = (int8_t)(is_any ? (int)draw(256) - 128 : (int)draw(30) - 15);
    format.m = (int16_t)((int)draw(65536) - 32768);
    format.b = (int16_t)((int)draw(65536) - 32768);
    if (draw(4) == 0)
        format.m = (int16_t)((int)draw(5) - 2);
    return format;
}

static pm_packet draw_packet(void) {
    pm_packet packet;
    packet.kind = (uint8_t)(draw(16) ? 1 + draw(7) : draw(256));
    packet.page = draw_output();
    packet.code = draw_code();
    packet.count = (uint8_t)(draw(16) ? draw(3) : draw(256));
    packet.word = draw_word();
    return packet;
}

static void damage(uint8_t *bytes, unsigned count) {
    for (unsigned left = 1 + draw(3); left; left--) {
        unsigned place = draw(count);
        bytes[place] ^= (uint8_t)(1u << draw(8));
    }
}

/* A part: most times of a sound configuration. */
static void new_part(void) {
    static const uint8_t modes[] = {0x14, 0x17, 0x40, 0x1F, 0x0C};
    pm_part_config config;
    uint8_t *bytes = (uint8_t *)&config;
    for (unsigned i = 0; i < sizeof config; i++)
        bytes[i] = (uint8_t)draw(256);
    config.address = 0x58;
    config.outputs = (uint8_t)(1 + draw(4));
    config.r = (int8_t)((int)draw(7) - 3);
    config.m = (int16_t)(1 + draw(300));
    config.protect = 0;
    for (unsigned i = 0; i < 8; i++) {
        pm_part_output *output = &config.starts[i];
        output->mode = modes[draw(sizeof modes)];
        output->operation = 0x80;
        output->command = draw_word();
    }
    if (draw(8) == 0)
        damage(bytes, sizeof config);
    heard(24, pm_part_new(&kept.part, &config), 255);
    if (draw(8) == 0)
        damage((uint8_t *)&kept.part, sizeof kept.part);
}

static void new_host(unsigned number) {
    uint8_t address = (uint8_t)(draw(8) ? 0x58 : draw(256));
    uint8_t outputs = (uint8_t)(draw(8) ? 1 + draw(8) : draw(256));
    uint8_t passes = (uint8_t)(draw(8) ? 1 + draw(4) : draw(256));
    pm_registers has;
    has.vout_max = (uint8_t)draw(8), has.vout_margin_high = (uint8_t)draw(4);
    has.vout_margin_low = (uint8_t)draw(4), has.vout_min = (uint8_t)draw(4);
    if (draw(2))
        heard(0, pm_host_new(host_at(number), address, outputs, passes), 255);
    else
        heard(47, pm_host_new_with(host_at(number), address, outputs, passes, &has), 255);
}

/* Begins a job; what stands in `host` goes into the sums with the caller. */
static void begin(pm_host *host) {
    uint8_t output = draw_output(), code = draw_code();
    uint16_t word = draw_word();
    int64_t microvolts = draw_microvolts();
    switch (draw(10)) {
    case 0: heard(1, pm_host_order_microvolts(host, output, code, microvolts), 255); break;
    case 1: heard(2, wide_check(host, output, code), 255); break;
    case 2: heard(3, pm_host_learn(host, output), 255); break;
    case 3: heard(4, pm_host_clear(host, output), 255); break;
    case 4: heard(5, pm_host_store(host), 255); break;
    case 5: heard(6, pm_host_restore(host), 255); break;
    default: heard(7, pm_host_order(host, output, code, word), 255); break;
    }
}

/* The converter hears a frame, or what is left of it. */
static unsigned hear(const uint8_t *bytes, unsigned count, unsigned is_request) {
    uint8_t *at = room + draw(4);
    memset(&out.reply, (int)draw(256), sizeof out.reply);
    memmove(at, bytes, count);
    if (draw(8) == 0 && count)
        damage(at, count);
    if (draw(12) == 0)
        count = draw(count + 3);
    unsigned answer = heard(8, wide_hear(&kept.part, at, count, (uint8_t)(is_request ? 1 + draw(255) : 0), &out.reply), 255);
    wrote(&out.reply, sizeof out.reply);
    add_halves((const uint16_t *)&kept, sizeof kept / 2);
    return answer;
}

static void told(unsigned which, pm_step step) {
    heard(which, (uint32_t)step.kind << 8 ^ step.word, UINT32_MAX);
    ends += step.kind > PM_NEXT && step.kind <= PM_LEARNED;
}

/* How many steps of a list there are, or have room. */
static unsigned draw_count(void) {
    return draw(8) ? (unsigned)STEPS_OF_LISTS : draw(STEPS_OF_LISTS);
}

/* Who hands out a frame and hears what became of it. */
enum { BY_HOST, BY_COURSE, BY_SEQUENCE };

/* What is to be sent goes to the converter, and what comes of it to the host, or to the course or the sequence. */
static void exchange(pm_host *host, int by) {
    unsigned fate = draw(10), steps = by == BY_SEQUENCE ? draw_count() : 0, backs = by == BY_SEQUENCE ? draw_count() : 0;
    memset(&out.sending, (int)draw(256), sizeof out.sending);
    if (by == BY_COURSE)
        heard(61, pm_course_frame(&asked.course, host, &out.sending), 255);
    else if (by == BY_SEQUENCE)
        heard(72, pm_sequence_next(&listed.sequence, host, listed.steps, steps, listed.records, backs, &out.sending), 255);
    else
        heard(9, pm_host_frame(host, &out.sending), 255);
    wrote(&out.sending, sizeof out.sending);
    unsigned count = out.sending.length % (sizeof out.sending.bytes + 1), is_request = out.sending.kind == PM_REQUEST;
    if (fate == 0)
        is_request = !is_request;
    unsigned answer = fate == 1 ? 0 : hear(out.sending.bytes, count, is_request);
    if (!is_request) {
        uint8_t acked = (uint8_t)(fate == 2 ? draw(256) : answer == PM_HEARD_TAKEN ? 1 + draw(255) : 0);
        if (by == BY_COURSE && fate > 5) {
            told(67, pm_course_after_write(&asked.course, host, acked, (uint8_t)draw(3), &out.sending));
            wrote(&out.sending, sizeof out.sending);
        } else if (by == BY_COURSE)
            told(62, pm_course_write_ended(&asked.course, host, acked));
        else if (by == BY_SEQUENCE)
            told(73, pm_sequence_write_ended(&listed.sequence, host, acked));
        else
            told(10, pm_host_write_ended(host, acked));
        return;
    }
    uint8_t *at = room + draw(4);
    count = out.reply.length % (sizeof out.reply.bytes + 1);
    memcpy(at, out.reply.bytes, count);
    if (fate == 3 && count)
        damage(at, count);
    if (fate == 4)
        count = draw(ROOM - 4);
    if (by == BY_COURSE && fate > 5) {
        told(68, pm_course_after_read(&asked.course, host, at, count, (uint8_t)draw(3), &out.sending));
        wrote(&out.sending, sizeof out.sending);
    } else if (by == BY_COURSE)
        told(63, pm_course_read_ended(&asked.course, host, at, fate == 5 ? 0 : count));
    else if (by == BY_SEQUENCE)
        told(74, pm_sequence_read_ended(&listed.sequence, host, at, fate == 5 ? 0 : count));
    else
        told(11, pm_host_read_ended(host, at, fate == 5 ? 0 : count));
}

/* Limits of an output, near those that an order is drawn from; the names of numbers. */
static void limit(pm_host *host) {
    uint8_t output = draw_output();
    int64_t least = draw_microvolts(), most = (int64_t)((uint64_t)least + (uint64_t)draw_microvolts());
    if (draw(2))
        heard(27, pm_host_no_limits(host, output), 255);
    else
        heard(28, pm_host_set_limits(host, output, draw(4) ? (int64_t)(0 - (uint64_t)least) : least, most), 255);
}

static void names(void) {
    memset(&out, (int)draw(256), sizeof out);
    if (draw(2))
        heard(29, pm_refusal_name((uint8_t)draw(256), &out.name), 255);
    else
        heard(30, pm_end_name((uint16_t)(draw(8) ? draw(6) : draw(65536)), &out.name), 255);
    add_bytes(&out, sizeof out);
}

/* What is known. A call that only reads changes no host: that goes into the sums too. */
static void ask(const pm_host *host) {
    uint8_t output = draw_output(), code = draw_code();
    memset(&out, (int)draw(256), sizeof out);
    switch (draw(9)) {
    case 5: heard(31, pm_host_limits(host, output, &out.limits), 255); break;
    case 6: heard(32, pm_host_limits_state(host, output), 255); break;
    case 7: heard(33, pm_host_band(host, output, &out.band), 255); break;
    case 8: memset(&cells, (int)draw(256), sizeof cells);
        heard(34, pm_host_known_cells(host, &cells.known), 255);
        add_halves((const uint16_t *)&cells, sizeof cells / 2); break;
    case 0: heard(12, pm_host_confirmed_word(host, output, code, &out.standing), 255); break;
    case 1: heard(13, pm_host_possible_words(host, output, code, &out.words), 255); break;
    case 2: heard(14, pm_host_format(host, output, &out.format), 255); break;
    case 3: heard(15, wide_restart_seen(host), 255); break;
    default: heard(16, (uint32_t)pm_host_size() ^ wide_version() << 16 ^ (uint32_t)(pm_host_size() >> 32), UINT32_MAX);
        heard(17, wide_version(), 65535);
        heard(35, pm_version(), 65535); break;
    }
    add_bytes(&out, sizeof out);
}

/* Wishes, most times of few registers. */
static pm_wanted draw_wanted(void) {
    pm_wanted wanted;
    pm_wish *wishes[] = {&wanted.command, &wanted.max, &wanted.margin_high, &wanted.margin_low, &wanted.min};
    for (unsigned i = 0; i < 5; i++) {
        wishes[i]->has = (uint16_t)(draw(3) ? 0 : draw(8) ? 1 : draw(65536));
        wishes[i]->word = draw_word();
    }
    return wanted;
}

/* What an output commands, and a course. */
static void rails(pm_host *host) {
    uint8_t output = draw_output(), code = draw_code(), byte = (uint8_t)draw_word();
    uint16_t tries = (uint16_t)(draw(8) ? 12 + draw(40) : draw(65536));
    int64_t microvolts = draw_microvolts();
    pm_wanted wanted = draw_wanted();
    pm_course *course = &asked.course;
    memset(&out, (int)draw(256), sizeof out);
    switch (draw(12)) {
    case 0: heard(48, pm_host_rail(host, output, &out.rail), 255); break;
    case 1: heard(49, pm_course_survey(course, output, tries), 255); break;
    case 2: heard(50, pm_course_words(course, output, &wanted, tries), 255); break;
    case 3: heard(51, pm_course_microvolts(course, output, code, microvolts, tries), 255); break;
    case 4: heard(52, pm_course_power(course, output, byte, tries), 255); break;
    case 5:
        if (draw(2))
            heard(53, pm_course_want(course, code, microvolts), 255);
        else
            heard(53, pm_course_accept(course, host, draw(1 << 20)), 255);
        break;
    case 6:
        if (draw(2))
            heard(54, pm_course_next(course, host, &out.job), 255);
        else
            heard(64, pm_course_goal(course, host, code, &out.word), 255);
        break;
    case 7: heard(55, (uint32_t)pm_course_size() ^ (uint32_t)(pm_course_size() >> 32), UINT32_MAX);
        heard(56, pm_course_version(), 65535); break;
    case 8: heard(59, pm_course_ended(course, &out.end), 255); break;
    case 9: heard(60, pm_course_job_now(course, &out.job), 255); break;
    case 10:
        if (draw(8) == 0)
            damage((uint8_t *)course, sizeof *course);
        break;
    default: /* frame after frame: it mostly ends */
        for (unsigned frames = draw(40); frames; frames--)
            exchange(host, BY_COURSE);
        heard(59, pm_course_ended(course, &out.end), 255); break;
    }
    add_bytes(&out, sizeof out);
    add_halves((const uint16_t *)&asked, sizeof asked / 2);
}

/* Reads by PAGE_PLUS of any code: a request, and an answer that is right most times. */
static void paged(void) {
    uint8_t address = (uint8_t)(draw(16) ? 0x58 : draw(256)), output = draw_output(), code = draw_code();
    uint8_t size = (uint8_t)(draw(16) ? draw(4) : draw(256)), came[40], whole[64];
    unsigned refused = heard(66, pm_paged_request(address, output, code, size, &out.sending), 255), count = out.sending.length % 17;
    for (unsigned i = 0; i < sizeof came; i++)
        came[i] = (uint8_t)draw(256);
    unsigned length = draw(4) ? size % 33 + 3u : draw(sizeof came + 1);
    came[0] = (uint8_t)(address << 1 | 1), came[1] = (uint8_t)(draw(8) ? length - 3 : draw(256));
    if (!refused && length > 2 && draw(4)) {
        memcpy(whole, out.sending.bytes, count);
        memcpy(whole + count, came, length - 1);
        came[length - 1] = (uint8_t)wide_pec(whole, count + length - 1);
    }
    heard(65, pm_read_paged(address, output, code, size, came, length, &out.block), 255);
}

/* A wish and a step, most times such as there are. */
static pm_sequence_wish draw_wish(void) {
    pm_sequence_wish wish;
    memset(&wish, 0, sizeof wish);
    wish.kind = (uint16_t)(draw(16) ? draw(3) : draw(65536));
    wish.word = draw_word();
    wish.microvolts = (int32_t)draw_microvolts();
    return wish;
}

static pm_sequence_step draw_step(void) {
    pm_sequence_step step;
    memset(&step, 0, sizeof step);
    step.host = (uint8_t)(draw(8) ? draw(HOSTS) : draw(256));
    step.output = draw_output();
    step.kind = (uint8_t)(draw(16) ? 1 + draw(2) : draw(256));
    step.byte = (uint8_t)(draw(2) ? draw(2) * 0x80 : draw(256));
    step.command = draw_wish();
    step.max = draw_wish();
    step.margin_high = draw_wish();
    step.margin_low = draw_wish();
    step.min = draw_wish();
    step.looks = (uint8_t)(draw(16) ? draw(3) : draw(256));
    step.fault_limits = (uint8_t)(draw(16) ? draw(3) : draw(256));
    step.lacks = (uint8_t)(draw(4) ? 0 : draw(5));
    step.tells_power_good = (uint8_t)draw(2);
    step.within = (uint16_t)(draw(8) ? draw(100) : draw(65536));
    step.rounds = (uint16_t)(draw(8) ? draw(4) : draw(65536));
    step.wait = draw(2) ? 0 : draw(20);
    step.before.asked = (uint8_t)draw(2);
    step.before.word = draw_word();
    return step;
}

/* A sequence over the hosts. */
static void sequences(pm_host *host) {
    uint16_t tries = (uint16_t)(draw(8) ? 4 + draw(40) : draw(65536));
    uint8_t rules = (uint8_t)(draw(8) ? draw(16) : draw(256));
    unsigned place = draw(STEPS_OF_LISTS);
    memset(&out, (int)draw(256), sizeof out);
    switch (draw(12)) {
    case 0: pm_sequence_new(&listed.sequence, tries, rules); heard(71, 0, 255); break;
    case 1: heard(69, (uint32_t)pm_sequence_size() ^ (uint32_t)(pm_sequence_size() >> 32), UINT32_MAX);
        heard(70, pm_sequence_version(), 65535); break;
    case 2:
        for (unsigned i = 0; i < STEPS_OF_LISTS; i++)
            listed.steps[i] = draw_step();
        break;
    case 3:
        if (draw(8) == 0)
            damage((uint8_t *)&listed.sequence, sizeof listed.sequence);
        break;
    case 4: heard(75, pm_sequence_judge(&listed.records[place], host, draw_word(), &out.judgement), 255); break;
    case 5:
        if (draw(8) == 0)
            damage((uint8_t *)&listed.records[place].look, sizeof listed.records[place].look);
        break;
    default: /* frame after frame, by the host that it names */
        for (unsigned frames = draw(40); frames; frames--)
            exchange(draw(16) ? host_at(listed.sequence.host % HOSTS) : host, BY_SEQUENCE);
        break;
    }
    add_bytes(&out, sizeof out);
    add_halves((const uint16_t *)&listed, sizeof listed / 2);
}

static void numbers(void) {
    pm_format format = draw_format();
    uint16_t word = draw_word();
    int64_t microvolts = draw_microvolts();
    memset(&out, (int)draw(256), sizeof out);
    switch (draw(4)) {
    case 0: case 1: heard(18, pm_microvolts(&format, word, &out.microvolts), 255); break;
    case 2: heard(19, wide_word(&format, microvolts, &out.word), 255); break;
    default:
        if (draw(2))
            heard(57, pm_at_most(&format, microvolts, &out.word), 255);
        else
            heard(58, pm_at_least(&format, microvolts, &out.word), 255);
        break;
    }
    add_bytes(&out, sizeof out);
}

static void packets(void) {
    pm_packet packet = draw_packet();
    uint8_t address = (uint8_t)(draw(16) ? 0x58 : draw(256)), *at = room + draw(4);
    memset(&out, (int)draw(256), sizeof out);
    unsigned refused = heard(20, pm_packet_write(address, &packet, &out.sending), 255);
    add_bytes(&out, sizeof out);
    unsigned count = refused ? draw(ROOM - 4) : out.sending.length % (sizeof out.sending.bytes + 1);
    if (!refused)
        memcpy(at, out.sending.bytes, count);
    if (draw(4) == 0 && count)
        damage(at, count);
    if (draw(8) == 0)
        count = draw(24);
    heard(21, wide_pec(at, count), 255);
    if (draw(3) == 0) {
        uint8_t came[9];
        for (unsigned i = 0; i < sizeof came; i++)
            came[i] = (uint8_t)draw(256);
        unsigned length = (unsigned)draw(sizeof came + 1);
        came[0] = (uint8_t)(address << 1 | 1), came[1] = (uint8_t)(draw(3));
        if (!refused && length > 1) {
            uint8_t whole[32];
            memcpy(whole, out.sending.bytes, 16);
            memcpy(whole + count % 17, came, length - 1);
            came[length - 1] = (uint8_t)wide_pec(whole, count % 17 + length - 1);
        }
        heard(36, pm_packet_read_answer(address, &packet, came, length, &out.payload), 255);
    } else if (draw(2))
        heard(22, pm_packet_read_write(address, at, count, &out.packet), 255);
    else
        heard(23, pm_packet_read_request(address, at, count, &out.packet), 255);
    add_bytes(&out, sizeof out);
}

static void parts(void) {
    uint8_t output = draw_output(), code = draw_code(), small = (uint8_t)draw(256);
    unsigned count = draw(ROOM - 4), is_request = draw(2);
    pm_part *part = &kept.part;
    memset(&out, (int)draw(256), sizeof out);
    switch (draw(16)) {
    case 0: new_part(); break;
    case 1: heard(25, (uint32_t)pm_part_size() ^ (uint32_t)(pm_part_size() >> 32), UINT32_MAX); break;
    case 2: hear(room, count, is_request); break;
    case 3: case 4: heard(26, pm_part_commanded_microvolts(part, output, &out.microvolts), 255); break;
    case 5: heard(37, pm_part_stored_word(part, output, code, &out.word), 255); break;
    case 6: heard(38, pm_part_page(part, &small), 255); break;
    case 7: heard(39, pm_part_on_state(part, output, &small), 255); break;
    case 8: heard(40, pm_part_status_byte(part, output, &small), 255); break;
    case 9: heard(41, pm_part_status_word(part, output, &out.word), 255); break;
    case 10: heard(42, pm_part_status_vout(part, output, &small), 255); break;
    case 11: heard(43, pm_part_status_cml(part, &small), 255); break;
    case 12: heard(44, pm_part_restart(part), 255); break;
    case 13: /* a draw at a time: compilers don't agree on the order of arguments */
        code = (uint8_t)(draw(4) ? 0x88 + draw(6) : draw(256));
        heard(45, pm_part_set_reading(part, output, code, draw_word()), 255);
        break;
    default: heard(46, pm_part_word(part, output, code, &out.word), 255); break;
    }
    add(small);
    add_bytes(&out, sizeof out);
    add_halves((const uint16_t *)&kept, sizeof kept / 2);
}

/* The last host's memory is damaged, or made of any bytes whatever. */
static void damage_host(void) {
    uint8_t *bytes = (uint8_t *)host_at(HOSTS - 1);
    uint16_t *halves = halves_at(HOSTS - 1);
    if (draw(40) == 0)
        for (unsigned i = 2 * draw(3); i < HALVES; i++)
            halves[i] = (uint16_t)draw(65536);
    else if (draw(4) == 0)
        damage(bytes, 96);
    else
        damage(bytes, PM_HOST_SIZE);
}

static void step(void) {
    unsigned number = draw(HOSTS), kind = draw(100);
    pm_host *host = host_at(number);
    if (kind < 3)
        new_host(number);
    else if (kind < 4)
        heard(27, pm_host_restart(host), 255);
    else if (kind < 5)
        limit(host);
    else if (kind < 21)
        begin(host);
    else if (kind < 56)
        exchange(host, BY_HOST);
    else if (kind < 60)
        rails(host);
    else if (kind < 62)
        sequences(host);
    else if (kind < 64)
        paged();
    else if (kind < 70)
        ask(host);
    else if (kind < 78 && draw(8))
        numbers();
    else if (kind < 78)
        names();
    else if (kind < 88)
        packets();
    else if (kind < 98)
        parts();
    else
        damage_host();
    if (kind < 56 || draw(8) == 0)
        add_halves((const uint16_t *)memory[number], sizeof memory[number] / 2);
}

static int life(unsigned number, uint32_t steps) {
    seed = 0x9E3779B97F4A7C15u ^ number;
    sum = 0x811C9DC5u;
    turned = calls = taken = ends = narrow = 0;
    called[0] = called[1] = 0;
    for (unsigned i = 0; i < 16; i++)
        draw(2);
    for (unsigned i = 0; i < ROOM; i++)
        room[i] = (uint8_t)draw(256);
    memset(memory, 0, sizeof memory);
    memset(&kept, 0, sizeof kept);
    memset(&listed, 0, sizeof listed);
    memset(&out, 0, sizeof out);
    new_part();
    for (uint32_t i = 0; i < steps; i++)
        step();
    unsigned exports = 0;
    for (unsigned i = 0; i < EXPORTS; i++)
        exports += (unsigned)(called[i / 64] >> i % 64 & 1);
    printf("seed %u: %u calls of %u exports, %u taken, %u ends, %08X %08X, %u not widened\n", number, (unsigned)calls, exports,
           (unsigned)taken, (unsigned)ends, (unsigned)sum, (unsigned)turned, (unsigned)narrow);
    return exports != EXPORTS || narrow != 0 || ends == 0;
}

int main(int count, char **words) {
    unsigned first = count > 1 ? (unsigned)strtoul(words[1], NULL, 10) : FIRST_SEED;
    unsigned seeds = count > 2 ? (unsigned)strtoul(words[2], NULL, 10) : SEEDS;
    uint32_t steps = count > 3 ? (uint32_t)strtoul(words[3], NULL, 10) : STEPS;
    int failed = 0;
    for (unsigned i = 0; i < seeds; i++)
        failed |= life(first + i, steps);
    return failed;
}
