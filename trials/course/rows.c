/* Runs the rows of rows.txt and of accept.txt, whose heads say what they are, by pm_host_run_course over a bus that has each row's answers,
 * and four of courses that can't be carried out. It prints what differs of a row, and a count.
 *
 *     rows FILE ..
 */
#include "pmhost.h"
#include <stdio.h>
#include <stdlib.h>
#include <string.h>

enum { ADDRESS = 0x58, TOKENS = 120 };

/* A row, as its lines say it. */
typedef struct {
    char row[120], host[200], before[400], course[200], bus[2000], end[80], accept[80], then[2000], ends[80];
} row;

/* A bus: the frames that are to come, and what differed from them first. */
typedef struct {
    char *tokens[TOKENS];
    int count, at;
    uint8_t page;
    const pm_course *course; /* whose job the frames are of; NULL before it */
    char wrong[200];
} bus;

/* ---- Frames of tokens ---- */

static uint8_t pec_after(uint8_t pec, const uint8_t *bytes, uint64_t count) {
    for (uint64_t i = 0; i < count; i++) {
        pec ^= bytes[i];
        for (int bit = 0; bit < 8; bit++)
            pec = (uint8_t)(pec & 0x80 ? pec << 1 ^ 7 : pec << 1);
    }
    return pec;
}

static unsigned hex(const char *from, int digits) {
    char text[5] = "";
    memcpy(text, from, (size_t)digits);
    return (unsigned)strtoul(text, NULL, 16);
}

static unsigned code_of(const char *token) {
    return hex(token + 1, 2);
}

/* The bytes of a token's word, the low one first: how many. */
static unsigned word_of(const char *token, uint8_t *bytes) {
    const char *digits = token + 4;
    unsigned length = (unsigned)strspn(digits, "0123456789ABCDEF") / 2;
    for (unsigned i = 0; i < length; i++) /* five bytes stand in the order in which they come */
        bytes[token[0] == 'c' ? i : length - 1 - i] = (uint8_t)hex(digits + 2 * i, 2);
    return length;
}

/* The frame of a token: how many bytes. */
static unsigned frame_of(const char *token, uint8_t page, uint8_t *frame) {
    uint8_t code = (uint8_t)code_of(token), word[8];
    unsigned length = word_of(token, word), count = 0;
    frame[count++] = ADDRESS << 1;
    if (token[0] == 'c') {
        static const uint8_t rest[] = {0x30, 0x02, 0x21, 0x00};
        memcpy(frame + 1, rest, 4);
        return 5;
    }
    if (code == PM_WRITE_PROTECT) {
        frame[count++] = code;
    } else {
        frame[count++] = token[0] == 'r' ? 0x06 : 0x05;
        frame[count++] = (uint8_t)(token[0] == 'r' ? 2 : 2 + length);
        frame[count++] = page;
        frame[count++] = code;
    }
    if (token[0] == 'r')
        return count;
    memcpy(frame + count, word, length);
    count += length;
    frame[count] = pec_after(0, frame, count);
    return count + 1;
}

/* What comes back for a token, behind the read address: how many bytes. */
static unsigned answer_of(const char *token, const uint8_t *request, unsigned count, uint8_t *answer) {
    uint8_t word[8], address = ADDRESS << 1 | 1;
    unsigned length = word_of(token, word), at = 0;
    if (length == 0)
        return 0;
    if (code_of(token) != PM_WRITE_PROTECT)
        answer[at++] = (uint8_t)(length + (strchr(token, '#') ? 1 : 0));
    memcpy(answer + at, word, length);
    at += length;
    answer[at] = pec_after(pec_after(pec_after(0, request, count), &address, 1), answer, at);
    if (strchr(token, '*'))
        answer[at] ^= 1;
    return at + 1;
}

/* Whether the course says that the job of a token is under way. */
static int is_under_way(const pm_course *course, const char *token) {
    pm_course_job job;
    uint8_t word[8] = {0, 0}, code = (uint8_t)code_of(token);
    if (pm_course_job_now(course, &job) != PM_OK)
        return 0;
    if (token[0] == 'c' || code == 0x20)
        return job.kind == PM_JOB_LEARN && job.code == 0x20 && job.word == 0;
    if (token[0] == 'r')
        return job.code == code && ((job.kind == PM_JOB_CHECK && job.word == 0) || job.kind == PM_JOB_ORDER);
    word_of(token, word);
    return job.kind == PM_JOB_ORDER && job.code == code && job.word == (word[0] | word[1] << 8);
}

/* Takes the next token, whose frame has to be this one: NULL where it isn't. */
static const char *take(bus *on, const uint8_t *bytes, uint64_t count, int is_read) {
    uint8_t frame[24];
    const char *token = on->at < on->count ? on->tokens[on->at] : NULL;
    if (*on->wrong)
        return NULL;
    if (token && (token[0] != 'w') == is_read && frame_of(token, on->page, frame) == count && memcmp(frame, bytes, (size_t)count) == 0) {
        if (on->course && !is_under_way(on->course, token))
            snprintf(on->wrong, sizeof on->wrong, "frame %d, %s: the course names another job", on->at + 1, token);
        on->at++;
        return token;
    }
    int length = snprintf(on->wrong, sizeof on->wrong, "frame %d is to be %s and is", on->at + 1, token ? token : "none");
    for (uint64_t i = 0; i < count; i++)
        length += snprintf(on->wrong + length, sizeof on->wrong - (size_t)length, " %02X", bytes[i]);
    return NULL;
}

static uint8_t put(void *context, const uint8_t *bytes, uint64_t count) {
    const char *token = take((bus *)context, bytes, count, 0);
    return token && !strchr(token, '!') ? PM_ACKED : PM_NOT_ACKED;
}

static uint64_t ask(void *context, const uint8_t *request, uint64_t count, uint8_t *answer, uint64_t room) {
    uint8_t bytes[16];
    const char *token = take((bus *)context, request, count, 1);
    unsigned length = token ? answer_of(token, request, (unsigned)count, bytes) : 0;
    memcpy(answer, bytes, length < room ? length : (size_t)room);
    return length;
}

/* ---- Rows ---- */

static void split(char *text, bus *on) {
    on->count = on->at = 0;
    for (char *word = strtok(text, " "); word && on->count < TOKENS; word = strtok(NULL, " "))
        on->tokens[on->count++] = word;
}

/* A number that a line has behind a name, or another one. */
static long said(const char *line, const char *name, long otherwise) {
    const char *at = strstr(line, name);
    return at ? strtol(at + strlen(name), NULL, 10) : otherwise;
}

static int make_host(const char *line, pm_host *host) {
    const char *lacks = strstr(line, "lacks="), *limits = strstr(line, "limits=");
    pm_registers has = {1, 1, 1, 1};
    for (const char *at = lacks ? lacks + 6 : ""; strlen(at) >= 2; at += at[2] == ',' ? 3 : (long)strlen(at)) {
        unsigned code = hex(at, 2);
        *(code == PM_VOUT_MAX ? &has.vout_max : code == PM_VOUT_MIN ? &has.vout_min
          : code == PM_VOUT_MARGIN_HIGH ? &has.vout_margin_high : &has.vout_margin_low) = 0;
        if (at[2] != ',')
            break;
    }
    if (pm_host_new_with(host, ADDRESS, (uint8_t)said(line, "outputs=", 1), (uint8_t)said(line, "passes=", 1), &has) != PM_OK)
        return 0;
    if (!limits)
        return pm_host_no_limits(host, 0) == PM_OK;
    char *rest;
    long least = strtol(limits + 7, &rest, 10);
    return pm_host_set_limits(host, 0, least, strtol(rest + 1, NULL, 10)) == PM_OK;
}

/* The jobs of the host before the course. */
static int prepare(pm_host *host, bus *on) {
    while (on->at < on->count) {
        const char *token = on->tokens[on->at];
        uint8_t word[8] = {0, 0}, code = (uint8_t)code_of(token);
        word_of(token, word);
        uint8_t number = token[0] == 'w' ? pm_host_order(host, 0, code, (uint16_t)(word[0] | word[1] << 8))
                         : code == 0x20  ? pm_host_learn(host, 0) : pm_host_check(host, 0, code);
        if (number != PM_OK || pm_host_run(host, put, ask, on).kind > PM_LEARNED || *on->wrong)
            return 0;
    }
    return 1;
}

/* A wish: a word, or a voltage. */
static int wish(pm_course *course, pm_wanted *wanted, const char *text, int is_voltage) {
    uint8_t code = (uint8_t)hex(text, 2);
    pm_wish *of = code == PM_VOUT_COMMAND ? &wanted->command : code == PM_VOUT_MAX ? &wanted->max
                  : code == PM_VOUT_MARGIN_HIGH ? &wanted->margin_high : code == PM_VOUT_MARGIN_LOW ? &wanted->margin_low : &wanted->min;
    if (text[2] == ':')
        return !is_voltage || pm_course_want(course, code, strtoll(text + 3, NULL, 10)) == PM_OK;
    of->has = 1;
    of->word = (uint16_t)hex(text + 3, 4);
    return 1;
}

static int make_course(const char *line, pm_course *course, uint8_t *page) {
    char text[200];
    bus words;
    pm_wanted wanted = {{0, 0}, {0, 0}, {0, 0}, {0, 0}, {0, 0}};
    uint16_t tries = (uint16_t)said(line, "tries=", 40);
    strcpy(text, line);
    split(text, &words);
    *page = (uint8_t)atoi(words.tokens[1]);
    if (strcmp(words.tokens[0], "survey") == 0)
        return pm_course_survey(course, *page, tries) == PM_OK;
    if (strcmp(words.tokens[0], "power") == 0)
        return pm_course_power(course, *page, (uint8_t)hex(words.tokens[2], 2), tries) == PM_OK;
    if (strncmp(words.tokens[words.count - 1], "tries=", 6) == 0)
        words.count--;
    if (words.count == 3 && words.tokens[2][2] == ':') /* a voltage alone */
        return pm_course_microvolts(course, *page, (uint8_t)hex(words.tokens[2], 2), strtoll(words.tokens[2] + 3, NULL, 10), tries) == PM_OK;
    for (int i = 2; i < words.count; i++)
        wish(course, &wanted, words.tokens[i], 0);
    int is_made = pm_course_words(course, *page, &wanted, tries) == PM_OK;
    for (int i = 2; i < words.count; i++)
        is_made &= wish(course, &wanted, words.tokens[i], 1);
    return is_made;
}

static const char *name_of(uint16_t number) {
    static pm_name name;
    return number == 0 ? "good" : number == PM_NO_ANSWER ? "no answer" : number == PM_NO_ACKNOWLEDGEMENT ? "not acknowledged"
           : pm_refusal_name((uint8_t)number, &name) == PM_OK ? name.text : "?";
}

static void say_end(pm_course_end end, char *to, size_t room) {
    pm_name name = {""};
    switch (end.kind) {
    case PM_REACHED: snprintf(to, room, "reached"); break;
    case PM_REFUSED:
        pm_refusal_name(end.number, &name);
        snprintf(to, room, "refused %s %02X", name.text, end.code); break;
    case PM_STILL_DIFFERS: snprintf(to, room, "differs %02X %04X", end.code, end.word); break;
    case PM_SPENT: snprintf(to, room, "spent %02X %s", end.code, name_of(end.fault)); break;
    case PM_OTHER_FORMAT: snprintf(to, room, "format %02X", end.word); break;
    case PM_OTHER_SOURCE: snprintf(to, room, "source %02X", end.word); break;
    default: snprintf(to, room, "kind %u", end.kind); break;
    }
}

/* Carries a course out over these frames: whether it ends so. */
static int is_carried_out(const char *name, pm_host *host, pm_course *course, bus *on, char *frames, const char *end) {
    char ended[80] = "not begun";
    split(frames, on);
    on->course = course;
    say_end(pm_host_run_course(host, course, put, ask, on), ended, sizeof ended);
    if (!*on->wrong && on->at < on->count)
        snprintf(on->wrong, sizeof on->wrong, "frame %d is to be %s and doesn't come", on->at + 1, on->tokens[on->at]);
    if (!*on->wrong && strcmp(ended, end) == 0)
        return 1;
    printf("%s: ended %s, is to be %s; %s\n", name, ended, end, on->wrong);
    return 0;
}

/* Whether the word that is held is taken or refused as a row says, and how the course ends then. */
static int is_accepted(row *of, pm_host *host, pm_course *course, bus *on) {
    char *said_of = of->accept, said[80] = "taken";
    pm_course was = *course;
    pm_name name;
    uint8_t number = pm_course_accept(course, host, (uint32_t)strtoul(said_of, &said_of, 10));
    if (number != PM_OK && pm_refusal_name(number, &name) == PM_OK)
        snprintf(said, sizeof said, "refused %s", name.text);
    if (strcmp(said, said_of + 1) != 0 || (number != PM_OK && memcmp(&was, course, sizeof was) != 0)) {
        printf("%s: %s, is to be%s\n", of->row, said, said_of);
        return 0;
    }
    return !*of->ends || is_carried_out(of->row, host, course, on, of->then, of->ends);
}

/* Whether a row comes as it must: what differs is printed. */
static int is_right(row *of) {
    static pm_host host;
    pm_course course;
    bus on;
    memset(&on, 0, sizeof on);
    split(of->before, &on);
    if (!make_host(of->host, &host) || !prepare(&host, &on) || !make_course(of->course, &course, &on.page)) {
        printf("%s: its host, what is before it or its course can't be made; %s\n", of->row, on.wrong);
        return 0;
    }
    if (*of->end && !is_carried_out(of->row, &host, &course, &on, of->bus, of->end))
        return 0;
    return !*of->accept || is_accepted(of, &host, &course, &on);
}

/* Whether a course is refused so. */
static int is_refused(const char *name, uint8_t number, pm_course_end end) {
    if (end.kind == PM_REFUSED && end.number == number && end.code == 0)
        return 1;
    printf("%s: kind %u, number %02X\n", name, end.kind, end.number);
    return 0;
}

/* A course over memory that holds none, over memory that holds no host, before it begins and once it has ended, and while another job is
 * open, after which it goes on. */
static int refused_courses(void) {
    static pm_host host, none;
    static pm_course course, empty;
    static bus on;
    char other[] = "r10=00", frames[] = "r20=14 r01=80 r21=1000 r24=4000 r2B=0000";
    pm_course_job next;
    if (pm_host_new(&host, ADDRESS, 1, 1) != PM_OK || pm_course_survey(&course, 0, 9) != PM_OK ||
        pm_host_check(&host, 0, PM_WRITE_PROTECT) != PM_OK)
        return 0;
    int passed = is_refused("the memory holds no course", PM_NO_COURSE, pm_host_run_course(&host, &empty, put, ask, &on)) +
                 is_refused("the memory holds no host", PM_NO_HOST, pm_host_run_course(&none, &course, put, ask, &on)) +
                 is_refused("another job is open", PM_H3_BUSY, pm_host_run_course(&host, &course, put, ask, &on));
    split(other, &on);
    int is_over = pm_host_run(&host, put, ask, &on).kind == PM_DONE && pm_course_next(&course, &host, &next) == PM_OK &&
                  next.kind == PM_JOB_LEARN && next.code == 0x20;
    split(frames, &on);
    if (is_over && pm_host_run_course(&host, &course, put, ask, &on).kind == PM_REACHED && on.at == on.count &&
        pm_course_next(&course, &host, &next) == PM_ENDED && next.kind == PM_JOB_NONE)
        return passed + 1 + is_refused("a course that has ended, over memory that holds no host", PM_NO_HOST,
                                       pm_host_run_course(&none, &course, put, ask, &on));
    printf("another job is over: the course doesn't go on; %s\n", on.wrong);
    return passed;
}

/* Adds a line to its row: where the line's own text goes. */
static char *place_of(row *to, const char *line, char *last) {
    static const char *const words[] = {"row", "host", "before", "course", "bus", "end", "accept", "then", "ends"};
    char *places[] = {to->row, to->host, to->before, to->course, to->bus, to->end, to->accept, to->then, to->ends};
    for (int i = 0; i < 9; i++)
        if (strncmp(line, words[i], strlen(words[i])) == 0 && (line[strlen(words[i])] == ' ' || line[strlen(words[i])] == 0))
            return places[i];
    return line[0] == ' ' ? last : NULL;
}

/* Runs the rows of a file. 0 if it can't be read. */
static int run(const char *path, int *passed, int *failed) {
    FILE *file = fopen(path, "r");
    char line[400], *last = NULL;
    static row now;
    if (!file)
        return 0;
    for (;;) {
        int is_over = !fgets(line, sizeof line, file);
        line[is_over ? 0 : strcspn(line, "\n")] = 0;
        if (line[0] == '#')
            continue;
        if (line[0] == 0) { /* a row ends */
            if (*now.row)
                *(is_right(&now) ? passed : failed) += 1;
            memset(&now, 0, sizeof now);
            if (is_over)
                break;
            continue;
        }
        last = place_of(&now, line, last);
        if (!last)
            return 0;
        const char *text = line + (line[0] == ' ' ? 0 : strcspn(line, " "));
        text += strspn(text, " ");
        if (*last)
            strcat(last, " ");
        strcat(last, text);
    }
    fclose(file);
    return 1;
}

int main(int count, char **words) {
    int passed = 0, failed = 0;
    for (int at = 1; at < count; at++)
        if (!run(words[at], &passed, &failed))
            return 2;
    int refused = refused_courses();
    passed += refused;
    failed += 5 - refused;
    printf("courses: %d rows passed, %d failed\n", passed, failed);
    return failed != 0 || passed == 0;
}
