/* pm_target beside rows of its own: what a frame or a restart makes of a part of two outputs, and which calls the hook had. It prints
 * each row that differs, and a count. The rows go on from one another. */
#include "pmpart.h"
#include <stdio.h>
#include <string.h>

/* A frame with its packet error code, or none for a restart; then the answer of the call, and the calls: the output, and its microvolts or
 * `off`. */
typedef struct {
    const char *name;
    uint8_t frame[9], count;
    uint8_t is_request, answer;
    const char *calls;
} row;

static const row rows[] = {
    {"3.3 V of output 1", {0xB0, 0x05, 0x04, 0x01, 0x21, 0xCD, 0x34, 0x4C}, 8, 0, 0x82, "1 3300048; "},
    {"the same once more", {0xB0, 0x05, 0x04, 0x01, 0x21, 0xCD, 0x34, 0x4C}, 8, 0, 0x82, ""},
    {"a wrong PEC", {0xB0, 0x05, 0x04, 0x00, 0x21, 0xCD, 0x34, 0x5B}, 8, 0, 0x41, ""},
    {"another address", {0xB2, 0x05, 0x04, 0x00, 0x21, 0xCD, 0x34, 0x5A}, 8, 0, 0x81, ""},
    {"an output that isn't there", {0xB0, 0x05, 0x04, 0x02, 0x21, 0xCD, 0x34, 0x76}, 8, 0, 0x44, ""},
    {"a request changes nothing", {0xB0, 0x06, 0x02, 0x01, 0x21}, 5, 1, 0x83, ""},
    {"a ceiling below what is held", {0xB0, 0x05, 0x04, 0x00, 0x24, 0x00, 0x08, 0x2A}, 8, 0, 0x82, "0 500000; "},
    {"an order above the ceiling", {0xB0, 0x05, 0x04, 0x00, 0x21, 0x00, 0x30, 0x42}, 8, 0, 0x82, ""},
    {"the ceiling is lifted", {0xB0, 0x05, 0x04, 0x00, 0x24, 0x00, 0x40, 0xD5}, 8, 0, 0x82, "0 3000000; "},
    {"the other output is off", {0xB0, 0x05, 0x03, 0x01, 0x01, 0x00, 0xE0}, 7, 0, 0x82, "1 off; "},
    {"an order while it is off", {0xB0, 0x05, 0x04, 0x01, 0x21, 0x00, 0x10, 0xB4}, 8, 0, 0x82, ""},
    {"it is on again", {0xB0, 0x05, 0x03, 0x01, 0x01, 0x80, 0x69}, 7, 0, 0x82, "1 1000000; "},
    {"margin high", {0xB0, 0x05, 0x03, 0x00, 0x01, 0xA8, 0xDA}, 7, 0, 0x82, "0 1062500; "},
    {"a reading isn't commanded", {0xB0, 0x06, 0x02, 0x00, 0x8B}, 5, 1, 0x83, ""},
    {"PAGE of output 1", {0xB0, 0x00, 0x01, 0xED}, 4, 0, 0x82, ""},
    {"0.5 V of output 1 by PAGE", {0xB0, 0x21, 0x00, 0x08, 0x88}, 5, 0, 0x82, "1 500000; "},
    {"all is stored", {0xB0, 0x15, 0x24}, 3, 0, 0x82, ""},
    {"another voltage", {0xB0, 0x05, 0x04, 0x01, 0x21, 0xCD, 0x34, 0x4C}, 8, 0, 0x82, "1 3300048; "},
    {"a restore", {0xB0, 0x16, 0x2D}, 3, 0, 0x82, "1 500000; "},
    {"off before a restart", {0xB0, 0x05, 0x03, 0x01, 0x01, 0x00, 0xE0}, 7, 0, 0x82, "1 off; "},
    {"a restart", {0}, 0, 0, 0, "1 500000; "},
    {"all writes are protected", {0xB0, 0x10, 0x80, 0x34}, 4, 0, 0x82, ""},
    {"an order that is protected", {0xB0, 0x05, 0x04, 0x01, 0x21, 0xCD, 0x34, 0x4C}, 8, 0, 0x45, ""},
};

static char calls[256];

static void called(void *context, uint8_t output, uint8_t is_on, int64_t microvolts) {
    char *end = calls + strlen(calls);
    size_t room = sizeof calls - strlen(calls);
    if (context != calls || (!is_on && microvolts != 0))
        snprintf(end, room, "another context; ");
    else if (is_on)
        snprintf(end, room, "%d %ld; ", output, (long)microvolts);
    else
        snprintf(end, room, "%d off; ", output);
}

static int is_so(const char *name, uint8_t answer, uint8_t wanted, const char *said) {
    int is_right = answer == wanted && strcmp(calls, said) == 0;
    if (!is_right)
        printf("%s: answers %02X, calls '%s'\n", name, answer, calls);
    calls[0] = 0;
    return is_right;
}

int main(void) {
    static pm_part part;
    static pm_target target;
    pm_part_config config;
    pm_part_reply reply;
    const pm_part_output first = {0x14, 0, 0x80, 0x1000, 0x4000, 0x1100, 0x0F00, 0}; /* on, 1 V */
    const pm_part_output second = {0x14, 0, 0x00, 0x1000, 0x4000, 0x1100, 0x0F00, 0};
    int right = 0, count = 4;
    memset(&config, 0, sizeof config);
    memset(&target, 0x01, sizeof target); /* a memory that holds anything */
    config.address = 0x58, config.outputs = 2, config.m = 1, config.starts[0] = first, config.starts[1] = second;
    if (pm_part_new(&part, &config) != PM_PART_OK)
        return 1;
    pm_target_begin(&target, &part, 2, called, calls);
    right += is_so("each output at the begin", 0, 0, "0 1000000; 1 off; ");
    config.starts[1] = first;
    if (pm_part_new(&part, &config) != PM_PART_OK)
        return 1;
    pm_target_begin(&target, &part, 2, called, calls);
    right += is_so("each output at another begin", 0, 0, "0 1000000; 1 1000000; ");
    for (unsigned i = 0; i < sizeof rows / sizeof *rows; i++, count++) {
        const row *it = &rows[i];
        uint8_t answer = it->count ? pm_target_hear(&target, it->frame, it->count, it->is_request, &reply) : pm_target_restart(&target);
        right += is_so(rows[i].name, answer, rows[i].answer, rows[i].calls);
    }
    memset(&part, 0, sizeof part);
    right += is_so("a memory that holds no part", pm_target_restart(&target), 0xE5, "0 off; 1 off; ");
    config.outputs = 1, config.r = -12, config.starts[0].mode = 0x40; /* DIRECT: a word is as many 10^12 V */
    if (pm_part_new(&part, &config) != PM_PART_OK)
        return 1;
    pm_target_begin(&target, &part, 1, called, calls);
    right += is_so("a voltage that can't be told", 0, 0, "0 off; ");
    printf("%d of %d rows\n", right, count);
    return right != count;
}
