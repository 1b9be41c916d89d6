/* pm_heeds_operation beside the rows of on_off.txt, and pm_ask_paged over answers that are written by hand: it prints each row that differs, and a
 * count. */
#include "pmhost.h"
#include <stdio.h>
#include <string.h>

static int passed, failed;

static void row(const char *name, unsigned is, unsigned wanted) {
    if (is == wanted) {
        passed++;
        return;
    }
    failed++;
    printf("%s: %02X, and not %02X\n", name, is, wanted);
}

/* The numbers are those that firmware compiles in: they stand here by hand. */
static unsigned number_of(const char *what) { return !strcmp(what, "OPERATION") ? 0x9B : !strcmp(what, "pin") ? 0x9C : !strcmp(what, "supply") ? 0x9D : 0; }

static void bytes_of(FILE *file) {
    char line[200], what[16];
    unsigned byte;
    while (fgets(line, sizeof line, file))
        if (line[0] != '#' && sscanf(line, "%2x %15s", &byte, what) == 2) {
            line[strcspn(line, "\n")] = 0;
            row(line, pm_heeds_operation((uint8_t)byte), number_of(what));
        }
}

/* A register that is read by PAGE_PLUS: what comes after the read address, and what the call makes of it. */
typedef struct {
    const char *name;
    uint8_t code, size, room, came, answer[8], is, length, first;
    uint8_t letters; /* a block of so many letters A, in the place of the answer; ones beyond it */
} asked;

static const asked asked_rows[] = {
    {"ON_OFF_CONFIG", 0x02, 1, 3, 3, {0x01, 0x16, 0xC0}, 0, 1, 0x16, 0},
    {"another PEC", 0x02, 1, 3, 3, {0x01, 0x16, 0xC1}, 0x35, 9, 9, 0},
    {"another count", 0x02, 1, 3, 3, {0x02, 0x16, 0xC0}, 0x34, 9, 9, 0},
    {"one byte less", 0x02, 1, 3, 2, {0x01, 0x16}, 0x32, 9, 9, 0},
    {"no answer", 0x02, 1, 3, 0, {0}, 0x31, 9, 9, 0},
    {"an answer that nobody counted", 0x02, 1, 3, 9, {0x01, 0x16, 0xC0}, 0x31, 9, 9, 0},
    {"a block that ends before its room", 0x9A, 0, 34, 34, {0x02, 'A', 'B', 0xE1, 0xFF, 0xFF, 0xFF, 0xFF}, 0, 2, 'A', 0},
    {"a block of no letter", 0x9A, 0, 34, 34, {0x00, 0xA8, 0xFF, 0xFF, 0xFF, 0xFF, 0xFF, 0xFF}, 0, 0, 0, 0},
    {"a block with one byte beyond it", 0x9A, 0, 34, 34, {0}, 0, 31, 'A', 31},
    {"a block as long as its room", 0x9A, 0, 34, 34, {0}, 0, 32, 'A', 32},
    {"a block that is cut", 0x9A, 0, 34, 3, {0x02, 'A', 'B', 0xE1}, 0x32, 9, 9, 0},
    {"a block whose count is above 32", 0x9A, 0, 34, 34, {0x21, 'A', 'B'}, 0x34, 9, 9, 0},
    {"a code that PAGE_PLUS doesn't carry", 0x00, 1, 0, 3, {0}, 0xE4, 9, 9, 0},
    {"a greater size", 0x02, 33, 0, 3, {0}, 0xE4, 9, 9, 0},
};
static uint64_t room_seen, asks;

static uint64_t ask(void *context, const uint8_t *request, uint64_t count, uint8_t *answer, uint64_t room) {
    const asked *is = (const asked *)context;
    static const uint8_t wanted[4] = {0xB0, 0x06, 0x02, 0x01};
    asks++;
    room_seen = room;
    if (count == 5 && memcmp(request, wanted, 4) == 0 && request[4] == is->code)
        memcpy(answer, is->answer, room < 8 ? (size_t)room : 8);
    if (is->letters) {
        uint8_t bytes[40] = {0xB0, 0x06, 0x02, 0x01, 0x9A, 0xB1};
        bytes[6] = is->letters;
        memset(bytes + 7, 'A', is->letters);
        memset(answer, 0xFF, (size_t)room);
        memcpy(answer, bytes + 6, is->letters + 1u);
        answer[is->letters + 1u] = pm_pec(bytes, is->letters + 7u);
    }
    return is->came;
}

static void one_asked(const asked *is) {
    asked at = *is;
    pm_block block;
    memset(&block, 9, sizeof block);
    room_seen = asks = 0;
    row(is->name, pm_ask_paged(0x58, 1, is->code, is->size, ask, &at, &block), is->is);
    row(is->name, block.length, is->length);
    row(is->name, block.bytes[0], is->first);
    row(is->name, (unsigned)room_seen, is->room);
    row(is->name, (unsigned)asks, is->is != 0xE4); /* in one try */
}

int main(int count, char **words) {
    FILE *file = fopen(count > 1 ? words[1] : "trials/c/rows/on_off.txt", "r");
    if (!file)
        return puts("give trials/c/rows/on_off.txt"), 2;
    bytes_of(file);
    fclose(file);
    for (size_t at = 0; at < sizeof asked_rows / sizeof *asked_rows; at++)
        one_asked(asked_rows + at);
    printf("%d passed, %d failed\n", passed, failed);
    return failed != 0;
}
