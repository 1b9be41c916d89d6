/* The model of a PMBus 1.3 power converter as a static library: a part to try firmware against, with PAGE, a user
 * store, latched status and readings. It is an archive of its own: firmware that links a host (pmhost.h) needs nothing of
 * it. One header for processors of 64 and of 32 bits.
 *
 * What each call answers and does is proved of the library (crates/pm_device_c), by the converter's own definitions. No
 * prover reads this header: the programs of examples/c compare its size.
 *
 * What the caller owes, on every call:
 *   - each pointer is valid for what it points to, aligned for its type, and never null; with a count of
 *     0 the pointer to bytes may be any that isn't null;
 *   - what a call writes overlaps nothing else that it is given;
 *   - counts are in elements, uint64_t on every processor, and tell the truth;
 *   - one call at a time works on a part, and each call has PM_PART_STACK bytes of stack.
 *
 * The library takes no memory, keeps nothing between calls, calls nothing and never blocks.
 *
 * A part lives in memory of yours, a pm_part, with no pointer in it, so it may be copied. Any bytes may stand there:
 * pm_part_new makes a part of them, and each other call asks first whether it is one. It answers PM_NO_PART if the mark or
 * the version is another, or the configuration is one that pm_part_new refuses. It answers it, too, if PAGE names no output, a
 * cell doesn't accept its word, or WRITE_PROTECT has another word in the store than its start. */
#ifndef PM_PART_H
#define PM_PART_H

#include <stdint.h>

#ifdef __cplusplus
extern "C" {
#endif

/* The version of a part's layout, its size in bytes, and the stack that a call takes at most. */
#define PM_PART_VERSION 1
#define PM_PART_SIZE 372
#define PM_PART_STACK 8192

/* What a call answers: 0, or why it is refused. A refused call changes nothing and writes nothing; pm_part_hear
 * answers something else, and says what. */
enum {
    PM_PART_OK = 0,
    PM_PART_NO_OUTPUT = 0x04,   /* H4: the output isn't there */
    PM_PART_TOO_LARGE = 0x15,   /* N5: beyond 10^15 microvolts in size */
    PM_V1_OUTPUT_COUNT = 0x51,  /* a number of outputs other than 1 to 8 */
    PM_V2_BAD_START = 0x52,     /* OPERATION or WRITE_PROTECT doesn't accept its start word */
    PM_V3_ADDRESS = 0x53,       /* an address outside 08h to 77h */
    PM_V4_BAD_MODE = 0x54,      /* a VOUT_MODE that is neither ULINEAR16 nor DIRECT */
    PM_V5_BAD_COEFFICIENTS = 0x55, /* some output is DIRECT, and m is 0 or r outside -12 to 12 */
    PM_PART_NO_CELL = 0xE1,     /* the command code is no cell's, or of no cell that is stored */
    PM_NO_PART = 0xE5,          /* the memory holds no part */
    PM_NO_READING = 0xE8        /* the command code is no reading's */
};

/* What a part makes of a frame: silence, if it is for another device; a write that is taken; a read that is
 * answered; or a refusal. A refusal changes no setting, no word in the store and no PAGE, and sets one bit of
 * STATUS_CML. */
enum {
    PM_HEARD_SILENT = 0x81,
    PM_HEARD_TAKEN = 0x82,
    PM_HEARD_ANSWERED = 0x83,
    PM_HEARD_K1_FRAME = 0x41,            /* a frame that is cut, too long, wrongly counted or has a wrong PEC */
    PM_HEARD_K2_UNSUPPORTED_CODE = 0x42, /* a code that isn't spoken here */
    PM_HEARD_K3_UNSUPPORTED_DATA = 0x43, /* a word that the cell doesn't accept, or coefficients that the part doesn't have */
    PM_HEARD_K4_BAD_PAGE = 0x44,         /* a page with no output */
    PM_HEARD_K5_PROTECTED = 0x45,        /* WRITE_PROTECT doesn't let it through */
    PM_HEARD_K6_NESTED = 0x46,           /* a code that PAGE_PLUS may not carry */
    PM_HEARD_K7_READ_ONLY = 0x47         /* a code of the other direction */
};

/* How an output starts: VOUT_MODE, and the words of its registers. */
typedef struct {
    uint8_t mode;
    uint8_t unused;
    uint16_t operation, command, max, high, low, min;
} pm_part_output;

/* What a part is made from; outputs that aren't there mean nothing. */
typedef struct {
    uint8_t address; /* 08h to 77h */
    uint8_t outputs; /* 1 to 8 */
    int8_t r;        /* the coefficients of each output with VOUT_MODE 40h */
    uint8_t unused;
    int16_t m, b;
    uint16_t protect; /* WRITE_PROTECT */
    pm_part_output starts[8];
} pm_part_config;

/* A part. Its memory is the library's own: ask it by the calls below. */
typedef struct { uint16_t memory[PM_PART_SIZE / 2]; } pm_part;

typedef char pm_part_has_its_size[sizeof(pm_part) == PM_PART_SIZE ? 1 : -1];

/* The size of a pm_part: compare it at start with PM_PART_SIZE. */
uint64_t pm_part_size(void);

/* Makes a part, whatever stood there: each cell and the store have the start words, PAGE and the readings are 0, and no
 * status is latched but what shows at once. V1 to V5, the first that applies in that order. */
uint8_t pm_part_new(pm_part *part, const pm_part_config *config);

/* What it answers to a request: 0 bytes if it answers none. The bytes after the answer stay as they were.
 * `frame_fault` says which fault the frame has after PM_HEARD_K1_FRAME: 0x32 F2 Short, 0x33 F3 Long, 0x34 F4 WrongCount,
 * 0x35 F5 WrongPec; otherwise it is 0. */
typedef struct { uint8_t length; uint8_t frame_fault; uint8_t bytes[16]; } pm_part_reply;

/* It hears one frame, which a repeated start ends if `is_request` isn't 0, otherwise a stop. Answers what it made of
 * it (PM_HEARD_..): the reply has no bytes for all but PM_HEARD_ANSWERED. PM_NO_PART, and then nothing is written, the reply
 * neither. */
uint8_t pm_part_hear(pm_part *part, const uint8_t *bytes, uint64_t count, uint8_t is_request, pm_part_reply *reply);

/* It restarts, as after a loss of its supply: the outputs' cells have their words in the store, WRITE_PROTECT its start
 * word, and PAGE is 0. Latched bits are clear but for those that show at once. The store and the readings stay.
 * PM_NO_PART. */
uint8_t pm_part_restart(pm_part *part);

/* Gives a reading another word: READ_VOUT (8Bh) and READ_IOUT (8Ch) of an output, READ_VIN (88h) and
 * READ_TEMPERATURE_1 (8Dh) of the device, whatever the output. PM_NO_PART, PM_NO_READING, PM_PART_NO_OUTPUT. */
uint8_t pm_part_set_reading(pm_part *part, uint8_t output, uint8_t code, uint16_t word);

/* The word of a cell, and the one that it has in the store: a register of an output by its command code, or
 * WRITE_PROTECT (10h) whatever the output, which has none in the store. PM_NO_PART, PM_PART_NO_CELL,
 * PM_PART_NO_OUTPUT. */
uint8_t pm_part_word(const pm_part *part, uint8_t output, uint8_t code, uint16_t *word);
uint8_t pm_part_stored_word(const pm_part *part, uint8_t output, uint8_t code, uint16_t *word);

/* PAGE. PM_NO_PART. */
uint8_t pm_part_page(const pm_part *part, uint8_t *page);

/* The voltage that an output commands, on or off, in microvolts, rounded down. PM_NO_PART, PM_PART_NO_OUTPUT,
 * PM_PART_TOO_LARGE. */
uint8_t pm_part_commanded_microvolts(const pm_part *part, uint8_t output, int64_t *microvolts);

/* 1 if OPERATION has an output on, otherwise 0. PM_NO_PART, PM_PART_NO_OUTPUT. */
uint8_t pm_part_on_state(const pm_part *part, uint8_t output, uint8_t *on);

/* The status registers of an output, and STATUS_CML, the device's. PM_NO_PART, PM_PART_NO_OUTPUT. */
uint8_t pm_part_status_byte(const pm_part *part, uint8_t output, uint8_t *status);
uint8_t pm_part_status_word(const pm_part *part, uint8_t output, uint16_t *status);
uint8_t pm_part_status_vout(const pm_part *part, uint8_t output, uint8_t *status);
uint8_t pm_part_status_cml(const pm_part *part, uint8_t *status);

/* What follows is inline and compiled by you: it is tested, and not proved.
 *
 * A part as the PMBus target of a converter's own firmware: pm_target_hear and pm_target_restart are pm_part_hear and
 * pm_part_restart, after which your function hears each output whose commanded voltage isn't what it heard last. It
 * hears whether the output is on, and the microvolts that it commands, rounded down; of an output that is off, 0. An
 * output whose voltage can't be asked for, since the memory holds no part or the voltage is beyond 10^15 microvolts, is
 * heard as off. Your function may not call a target. The part stays yours, to be asked, and to be given readings. */
typedef void (*pm_commanded)(void *context, uint8_t output, uint8_t is_on, int64_t microvolts);

typedef struct {
    pm_part *part;
    pm_commanded commanded;
    void *context;
    uint8_t outputs; /* as in the part's configuration */
    uint8_t on[8];   /* what was heard last */
    int64_t microvolts[8];
} pm_target;

/* Hands on each output that isn't as it was heard last, or every one. */
static inline void pm_target_tell(pm_target *target, int is_every) {
    for (uint8_t output = 0; output < target->outputs && output < 8; output++) {
        uint8_t on = 0;
        int64_t microvolts = 0;
        if (pm_part_on_state(target->part, output, &on) != PM_PART_OK || !on ||
            pm_part_commanded_microvolts(target->part, output, &microvolts) != PM_PART_OK)
            on = 0, microvolts = 0;
        if (!is_every && on == target->on[output] && microvolts == target->microvolts[output])
            continue;
        target->on[output] = on, target->microvolts[output] = microvolts;
        target->commanded(target->context, output, on, microvolts);
    }
}

/* Begins with a part that pm_part_new made, and hands on each of its outputs once. */
static inline void pm_target_begin(pm_target *target, pm_part *part, uint8_t outputs, pm_commanded commanded, void *context) {
    target->part = part, target->commanded = commanded, target->context = context, target->outputs = outputs;
    pm_target_tell(target, 1);
}

static inline uint8_t pm_target_hear(pm_target *target, const uint8_t *bytes, uint64_t count, uint8_t is_request, pm_part_reply *reply) {
    uint8_t heard = pm_part_hear(target->part, bytes, count, is_request, reply);
    pm_target_tell(target, 0);
    return heard;
}

static inline uint8_t pm_target_restart(pm_target *target) {
    uint8_t restarted = pm_part_restart(target->part);
    pm_target_tell(target, 0);
    return restarted;
}

#ifdef __cplusplus
}
#endif

#endif
