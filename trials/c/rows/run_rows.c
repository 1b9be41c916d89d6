/* pm_host_run beside rows of its own: what a write answers, how many bytes a read says, and what it leaves in the buffer.
 * Each row has the job's end and the calls that the bus must have seen. It prints each row that differs, and a count. */
#include "pmhost.h"
#include <stdio.h>
#include <string.h>

/* What a read does, the last letter of a row for ever:
 *   g  it puts a good answer, and says its length          n  it puts nothing, and says 0
 *   d  the same with another PEC                           o  it puts a good answer, and says one byte more than the room
 *   c  the same cut by a byte                              h  it puts a good answer, and says the greatest number
 *   s  it leaves a good answer, and says 0                 e  it puts nothing, and says the whole room
 *   w  it wipes the host's memory                         x  it puts a good answer of the word 1234h */
typedef struct {
    const char *name;
    char job;            /* o order of 34CDh, v check of VOUT_COMMAND, p check of WRITE_PROTECT, l learn, c clear of output 1,
                          * s store, r restore, - none */
    uint8_t passes;
    uint8_t acks[3];     /* what the first three writes answer; all behind them as the third */
    const char *reads;
    uint16_t kind, word; /* how it ends */
    int writes, asked;   /* how many calls of each kind */
} row;

#define ALL(number) {number, number, number}

/* The numbers are those that firmware compiles in: they stand here by hand. */
static const row rows[] = {
    {"an order that goes well", 'o', 3, ALL(0xA5), "g", 1, 0, 1, 1},
    {"an order whose acknowledgement is lost", 'o', 3, ALL(0x5A), "g", 1, 0, 1, 1},
    {"an order of another word", 'o', 3, ALL(0xA5), "x", 2, 0x1234, 3, 3},
    {"a store", 's', 3, ALL(0xA5), "n", 1, 0, 1, 0},
    {"a restore", 'r', 3, ALL(0xA5), "n", 1, 0, 1, 0},
    {"a clear", 'c', 3, ALL(0xA5), "n", 1, 0, 1, 0},
    {"a write that answers 0", 's', 3, ALL(0), "n", 3, 0, 3, 0},
    {"a write that answers 1", 's', 3, ALL(1), "n", 3, 0, 3, 0},
    {"a write that answers 5Ah", 's', 3, ALL(0x5A), "n", 3, 0, 3, 0},
    {"a write that answers 3Ch", 's', 3, ALL(0x3C), "n", 3, 0, 3, 0},
    {"a write that answers FFh", 's', 3, ALL(0xFF), "n", 3, 0, 3, 0},
    {"a write that answers A4h", 's', 3, ALL(0xA4), "n", 3, 0, 3, 0},
    {"a restore that answers 1", 'r', 3, ALL(1), "n", 3, 0, 3, 0},
    {"a clear that answers 1", 'c', 3, ALL(1), "n", 3, 0, 3, 0},
    {"acknowledged at the third", 's', 3, {0x5A, 0x3C, 0xA5}, "n", 1, 0, 3, 0},
    {"acknowledged at the second", 's', 3, {1, 0xA5, 0}, "n", 1, 0, 2, 0},
    {"a word is read", 'v', 3, ALL(0), "g", 1, 0, 0, 1},
    {"a byte is read", 'p', 3, ALL(0), "g", 1, 0, 0, 1},
    {"a format is read", 'l', 3, ALL(0), "g", 4, 0, 0, 2},
    {"the answer comes at the third", 'v', 3, ALL(0), "ndg", 1, 0, 0, 3},
    {"one byte more than the room", 'v', 3, ALL(0), "o", 3, 0, 0, 3},
    {"the greatest number", 'v', 3, ALL(0), "h", 3, 0, 0, 3},
    {"none came, and an old answer is in the buffer", 'v', 3, ALL(0), "s", 3, 0, 0, 3},
    {"none came", 'v', 3, ALL(0), "n", 3, 0, 0, 3},
    {"nothing is put, and the whole room said", 'v', 3, ALL(0), "e", 3, 0x34, 0, 3},
    {"an answer, and then nothing is put", 'v', 3, ALL(0), "de", 3, 0x34, 0, 3},
    {"another PEC", 'v', 3, ALL(0), "d", 3, 0x35, 0, 3},
    {"cut by a byte", 'v', 3, ALL(0), "c", 3, 0x32, 0, 3},
    {"another PEC, and then none", 'v', 3, ALL(0), "ddn", 3, 0, 0, 3},
    {"none, and then another PEC", 'v', 3, ALL(0), "nnd", 3, 0x35, 0, 3},
    {"no answer to an order", 'o', 3, ALL(0xA5), "n", 3, 0, 3, 3},
    {"fifteen passes", 'o', 15, ALL(0x5A), "nnnnnnnnnnnnnng", 1, 0, 15, 15},
    {"fifteen passes without an answer", 'o', 15, ALL(0x3C), "n", 3, 0, 15, 15},
    {"one pass", 'o', 1, ALL(0), "d", 3, 0x35, 1, 1},
    {"no job is open", '-', 3, ALL(0xA5), "g", 3, 0, 0, 0},
    {"the memory holds no host", '0', 3, ALL(0xA5), "g", 0xE0, 0, 0, 0},
    {"the memory is wiped in the midst", 'v', 3, ALL(0xA5), "w", 0xE0, 0, 0, 1},
};

/* Each request of these jobs, the bytes of its good answer behind the read address, and how many there is room for. */
typedef struct {
    uint8_t request[5];
    unsigned length;
    uint8_t answer[8];
    unsigned room;
} exchange;

static const exchange exchanges[] = {
    {{0xB0, 0x06, 0x02, 0x00, 0x21}, 5, {0x02, 0xCD, 0x34, 0xB9}, 4},
    {{0xB0, 0x06, 0x02, 0x00, 0x20}, 5, {0x01, 0x40, 0xE5}, 3},
    {{0xB0, 0x30, 0x02, 0x21, 0x00}, 5, {0x05, 0x01, 0x00, 0x00, 0x00, 0x03, 0x6B}, 7},
    {{0xB0, 0x10}, 2, {0x80, 0xE9}, 2},
};
static const uint8_t other_word[] = {0x02, 0x34, 0x12, 0xE2};
enum { EXCHANGES = sizeof exchanges / sizeof exchanges[0], ROWS = sizeof rows / sizeof rows[0] };

typedef struct {
    const row *of;
    pm_host *host;
    int writes, asked;
    const char *wrong; /* what a call was handed that it mustn't be */
} bus;

static uint8_t put(void *context, const uint8_t *bytes, uint64_t count) {
    bus *to = (bus *)context;
    int at = to->writes++;
    if (count < 3 || count > 16 || bytes[0] != 0xB0 || pm_pec(bytes, count - 1) != bytes[count - 1])
        to->wrong = "a packet";
    return to->of->acks[at < 2 ? at : 2];
}

static uint64_t ask(void *context, const uint8_t *request, uint64_t count, uint8_t *answer, uint64_t room) {
    bus *to = (bus *)context;
    size_t last = strlen(to->of->reads) - 1, at = (size_t)to->asked++;
    char does = to->of->reads[at < last ? at : last];
    const exchange *found = NULL;
    for (int i = 0; i < EXCHANGES; i++)
        if (exchanges[i].length == count && memcmp(exchanges[i].request, request, (size_t)count) == 0)
            found = &exchanges[i];
    if (!found || found->room != room) {
        to->wrong = found ? "the room" : "a request";
        return 0;
    }
    for (uint64_t i = 0; i < room; i++)
        if (answer[i])
            to->wrong = "a buffer that isn't zero";
    if (does == 'w')
        memset(to->host, 0, sizeof *to->host);
    if (does == 'n' || does == 'e' || does == 'w')
        return does == 'e' ? room : 0;
    memcpy(answer, does == 'x' ? other_word : found->answer, (size_t)room);
    if (does == 'd')
        answer[room - 1] ^= 1;
    return does == 's' ? 0 : does == 'o' ? room + 1 : does == 'h' ? UINT64_MAX : does == 'c' ? room - 1 : room;
}

static uint8_t begin(pm_host *host, char job) {
    switch (job) {
    case 'o': return pm_host_order(host, 0, PM_VOUT_COMMAND, 0x34CD);
    case 'v': return pm_host_check(host, 0, PM_VOUT_COMMAND);
    case 'p': return pm_host_check(host, 0, PM_WRITE_PROTECT);
    case 'l': return pm_host_learn(host, 0);
    case 'c': return pm_host_clear(host, 1);
    case 's': return pm_host_store(host);
    case 'r': return pm_host_restore(host);
    case '0': memset(host, 0, sizeof *host); return PM_OK;
    default: return PM_OK;
    }
}

/* Whether a row came as it must: its end, its calls, and the word that is confirmed then. */
static int is_right(const row *of, uint16_t confirmed) {
    pm_host host;
    pm_standing standing = {0, 0};
    bus to = {of, &host, 0, 0, NULL};
    if (pm_host_new(&host, 0x58, 2, of->passes) != PM_OK || pm_host_no_limits(&host, 0) != PM_OK || begin(&host, of->job) != PM_OK) {
        printf("%s: the job is refused\n", of->name);
        return 0;
    }
    pm_step step = pm_host_run(&host, put, ask, &to);
    uint8_t number = pm_host_confirmed_word(&host, 0, PM_VOUT_COMMAND, &standing);
    uint16_t word = number == PM_OK && standing.is_confirmed == 1 ? standing.word : 0;
    if (!to.wrong && step.kind == of->kind && step.word == of->word && to.writes == of->writes && to.asked == of->asked &&
        word == confirmed)
        return 1;
    printf("%s: ended %u %04X after %d writes and %d reads, confirmed %04X; wanted %u %04X after %d and %d, %04X%s%s\n", of->name,
           (unsigned)step.kind, (unsigned)step.word, to.writes, to.asked, (unsigned)word, (unsigned)of->kind, (unsigned)of->word,
           of->writes, of->asked, (unsigned)confirmed, to.wrong ? "; handed wrongly: " : "", to.wrong ? to.wrong : "");
    return 0;
}

int main(void) {
    int passed = 0;
    for (int i = 0; i < ROWS; i++) {
        int is_read = rows[i].job == 'o' || rows[i].job == 'v';
        uint16_t confirmed = !is_read ? 0 : rows[i].kind == 1 ? 0x34CD : rows[i].kind == 2 ? rows[i].word : 0;
        passed += is_right(&rows[i], confirmed);
    }
    printf("pm_host_run: %d rows passed, %d failed\n", passed, ROWS - passed);
    return passed != ROWS;
}
