/* The PMBus host core as a static library: a host that sets supply voltages over PMBus 1.3, and calls for packets and
 * numbers that need no host. One header for processors of 64 and of 32 bits. A model converter to try firmware against
 * is a library of its own, pmpart.h.
 *
 * What each call answers and does is proved of the library (crates/pm_host_c). No prover reads this header: the
 * programs of examples/c compare its sizes and the numbers that they use.
 *
 * What the caller owes, on every call:
 *   - each pointer is valid for what it points to, aligned for its type, and never null; with a count of
 *     0 the pointer to bytes may be any that isn't null;
 *   - what a call writes overlaps nothing else that it is given;
 *   - counts are in elements, uint64_t on every processor, and tell the truth;
 *   - one call at a time works on a host, a course or a sequence: no call waits for another one or refuses it, so threads that share
 *     a host hold a lock of yours over each whole job or course, and over all hosts of a list from its begin to its end;
 *   - each call has PM_STACK bytes of stack, pm_refusal_name PM_NAME_STACK, and pm_sequence_next, pm_sequence_write_ended and
 *     pm_sequence_read_ended PM_SEQUENCE_STACK.
 *
 * The library takes no memory, keeps nothing between calls, calls nothing and never blocks.
 *
 * A host lives in memory of yours, a pm_host. Any bytes may stand there: pm_host_new and pm_host_new_with make a
 * host of them. Each other call asks first whether it is a host, and answers PM_NO_HOST if it isn't, as for zeros and for a
 * host of another version. It looks at 13 of the 2,064 bytes: the mark, the version, the setup and the stage of the open
 * job. While an order is open it looks at what is known of its cell, too. Most damage isn't noticed: of flipped bits and
 * overwritten bytes about 0.4 %. Damaged memory that still reads as a host is safe to use, and what it says may be wrong; its
 * limits may be others, or unknown. Keep it from others.
 *
 * What stands in a pm_host is a function of what it holds: two hosts that were made and used the same are equal byte for
 * byte. It holds no pointer, so it may be copied, and kept over a sleep or a warm reset. Who keeps one
 * keeps a checksum with it, as a CRC-32 over all PM_HOST_SIZE bytes. Take it before the sleep, or after each
 * call that changes the host if a reset may come at any time. Compare it before the first call
 * afterwards. If the two differ, make a new host by pm_host_new, and narrow its limits again. */
#ifndef PM_H
#define PM_H

#include <stddef.h>
#include <stdint.h>

/* Before each call whose answer must be asked, since nothing was sent if it is a refusal: a compiler warns if the answer is dropped. */
#if (defined __cplusplus && __cplusplus >= 201703L) || (defined __STDC_VERSION__ && __STDC_VERSION__ >= 202311L)
#define PM_MUST_USE [[nodiscard]]
#elif defined __GNUC__
#define PM_MUST_USE __attribute__((warn_unused_result))
#else
#define PM_MUST_USE
#endif

#ifdef __cplusplus
extern "C" {
#endif

/* The version of the library, the greater part in the upper byte; pm_version answers that of the one that was linked. */
#define PM_VERSION 0x0001

/* The versions of the layouts of a host, a course, what is heard of a rail, and a sequence, and their sizes in bytes. A call takes at most
 * PM_STACK bytes of stack, and those that are named above PM_SEQUENCE_STACK. pm_refusal_name takes PM_NAME_STACK, since a loader may bind
 * memmove in it. docs/c.md has what calls take on each processor. An archive says its own bound as stack-bytes in its section .comment. */
#define PM_HOST_VERSION 6
#define PM_HOST_SIZE 2064
#define PM_COURSE_VERSION 1
#define PM_COURSE_SIZE 104
#define PM_DELIVERY_VERSION 2
#define PM_DELIVERY_SIZE 66
#define PM_SEQUENCE_VERSION 1
#define PM_SEQUENCE_SIZE 376
#define PM_SEQUENCE_STEP_SIZE 64
#define PM_SEQUENCE_RECORD_SIZE 132
#define PM_STACK 4096
#define PM_SEQUENCE_STACK 8192
#define PM_NAME_STACK 4096

/* What a call answers: 0, or why it is refused. A refused call changes nothing, but for these. pm_host_frame, pm_course_frame,
 * pm_course_after_write, pm_course_after_read and pm_sequence_next then write PM_NOTHING. pm_pec, pm_host_restart_seen and
 * pm_host_limits_state answer something else: each says what. Of these numbers the last answers PM_NO_LIMITS only. PM_ENDED refuses
 * nothing, and is none of them. pm_refusal_name gives the name of each, and of those of pmpart.h. */
enum {
    PM_OK = 0,
    PM_H1_OUTPUT_COUNT = 0x01,    /* a number of outputs other than 1 to 8 */
    PM_H2_PASSES = 0x02,          /* a number of passes other than 1 to 15 */
    PM_H3_BUSY = 0x03,            /* a job is open */
    PM_H4_UNKNOWN_OUTPUT = 0x04,  /* the output isn't there */
    PM_H5_BAD_WORD = 0x05,        /* the cell doesn't take the word, or isn't a voltage */
    PM_H6_TOO_UNCERTAIN = 0x06,   /* 16 words are possible for the cell, and this is another */
    PM_H7_FORMAT_UNKNOWN = 0x07,  /* the format of the output's voltages isn't known */
    PM_N1_ZERO_SLOPE = 0x11,      /* m of DIRECT is 0 */
    PM_N2_EXPONENT_RANGE = 0x12,  /* R of DIRECT is outside -12 to 12 */
    PM_N3_BELOW_LEAST = 0x13,     /* below all of the format's values */
    PM_N4_ABOVE_GREATEST = 0x14,  /* above all of the format's values */
    PM_N5_TOO_LARGE = 0x15,       /* beyond 10^15 microvolts in size */
    PM_L1_LIMITS_INVERTED = 0x21, /* limits whose least is above their most */
    PM_L2_FORMAT_UNKNOWN = 0x22,  /* the output has limits, and its format isn't known: learn it first */
    PM_L3_BELOW_LIMIT = 0x23,     /* the word's value is below the output's limits */
    PM_L4_ABOVE_LIMIT = 0x24,     /* the word's value is above the output's limits */
    PM_L5_NOT_KNOWN_WITHIN = 0x25, /* this byte leaves the output on, and it isn't known to be within its limits */
    PM_L6_LIMITS_WIDENED = 0x26,  /* the new limits let through what the old ones don't */
    PM_L7_MISSING_REGISTER = 0x27, /* the part doesn't have the register, or the margin that a byte of OPERATION selects */
    PM_L8_NO_LIMITS = 0x28,       /* no limits are known of the output: pm_host_set_limits, or pm_host_no_limits */
    PM_P1_FORMAT_UNKNOWN = 0x61,  /* P1, P4 to P7: why a course or a plan gives no order. The output's format isn't learned */
    PM_P4_NOT_KNOWN = 0x64,       /* what a register or WRITE_PROTECT holds isn't known: check it */
    PM_P5_BELOW_MIN = 0x65,       /* a word will be below VOUT_MIN as that will be */
    PM_P6_ABOVE_MAX = 0x66,       /* a word will be above VOUT_MAX as that will be */
    PM_P7_PROTECTED = 0x67,       /* WRITE_PROTECT doesn't allow each order that is still to come */
    PM_P8_BEYOND_FAULT_LIMIT = 0x68, /* a word is at or beyond VOUT_OV_FAULT_LIMIT or VOUT_UV_FAULT_LIMIT */
    PM_P9_NOT_NEAR = 0x69,        /* the word that a register holds isn't near enough to what is wanted: pm_course_accept */
    PM_NO_HOST = 0xE0,            /* the memory holds no host of this version */
    PM_NO_CELL = 0xE1,            /* the command code is no cell's */
    PM_OTHER_FRAME = 0xE2,        /* no frame of this kind is being sent */
    PM_NO_ADDRESS = 0xE3,         /* no address from 08h to 77h: 58h, say, and not the byte B0h that begins a write */
    PM_NO_PACKET = 0xE4,          /* no packet has these numbers */
    PM_NO_LIMITS = 0xE6,          /* the output has no limits */
    PM_NO_NAME = 0xE7,            /* the number has no name */
    PM_NO_COURSE = 0xE9,          /* the memory holds no course of this version, or none to which a voltage can be added */
    PM_NO_ROOM = 0xEA,            /* there is room for fewer steps of the way back than there are steps */
    PM_NO_BAND = 0xEB,            /* OPERATION may be a byte that hands the output's voltage to AVSBus */
    PM_NO_DELIVERY = 0xEC,        /* nothing was heard of the step's rail */
    PM_NO_GOAL = 0xED,            /* the course asks for no word of this register */
    PM_NO_STEP = 0xEF,            /* a step has a kind, a host, a wish or a look that there isn't, or none is there to be left; or a list has
                                   * more than 65,535 steps */
    PM_NO_SEQUENCE = 0xF0,        /* the memory holds no sequence of this version */
    PM_F1_NOT_OURS = 0x31,        /* F1 to F8: what is wrong with the bytes of a packet */
    PM_F2_SHORT = 0x32,
    PM_F3_LONG = 0x33,
    PM_F4_WRONG_COUNT = 0x34,
    PM_F5_WRONG_PEC = 0x35,
    PM_F6_UNKNOWN_CODE = 0x36,
    PM_F7_WRONG_DIRECTION = 0x37,
    PM_F8_NESTED = 0x38
};

/* What pm_course_frame and pm_course_next answer if the course has ended, and pm_sequence_next if the sequence has. The others are answers of
 * pm_sequence_next, which says of each what it means. */
enum { PM_ENDED = 0x95, PM_AGAIN = 0x96, PM_NO_WAY_BACK = 0x97, PM_WAIT = 0x98, PM_ASKED = 0x99, PM_TOLD = 0x9A };

/* The cells: an output and one of these command codes; with WRITE_PROTECT, which is the device's, the output isn't looked at. */
enum {
    PM_OPERATION = 0x01,
    PM_WRITE_PROTECT = 0x10,
    PM_VOUT_COMMAND = 0x21,
    PM_VOUT_MAX = 0x24,
    PM_VOUT_MARGIN_HIGH = 0x25,
    PM_VOUT_MARGIN_LOW = 0x26,
    PM_VOUT_MIN = 0x2B
};

/* ---- The host ---- */

/* A host, in memory of yours. Nothing in it is for callers. */
typedef struct { uint64_t held[PM_HOST_SIZE / 8]; } pm_host;

/* A compiler that pads it stops here: the sizes of an array aren't negative. */
typedef char pm_host_has_its_size[sizeof(pm_host) == PM_HOST_SIZE ? 1 : -1];

/* The frame that is to be sent now, or nothing. */
enum { PM_NOTHING = 0, PM_WRITE = 1, PM_REQUEST = 2 };
typedef struct {
    uint8_t kind;      /* PM_NOTHING; PM_WRITE, which a stop ends; PM_REQUEST, which a repeated start ends */
    uint8_t length;    /* how many bytes it has */
    uint8_t answer;    /* of a request: how many bytes a whole answer has, 3 to 8, the read address first */
    uint8_t unused;
    uint8_t bytes[16]; /* the address byte first; a write ends with its PEC */
} pm_sending;

/* What a call that says what became of a frame answers. */
enum { PM_NEXT = 0, PM_DONE = 1, PM_DIFFERS = 2, PM_UNKNOWN = 3, PM_LEARNED = 4 };
typedef struct {
    uint16_t kind; /* PM_NEXT, or how the job ended; or a refusal, PM_NO_HOST or PM_OTHER_FRAME */
    uint16_t word; /* with PM_DIFFERS the word that was read; with PM_UNKNOWN what was wrong with the last answer, as
                    * PM_F5_WRONG_PEC, 0 if no byte came or it was good and names no format; otherwise 0 */
} pm_step;

/* Ends and refusals share `kind`: look for a refusal first, before a table is asked by it. pm_host_run, at the end
 * of this header, is the loop that carries an open job out. */

/* The words that a cell may hold: the first `count` of `words`, at most 16; any word if the count is 0. */
typedef struct { uint16_t count; uint16_t words[16]; } pm_words;

/* What is said of a cell's word: 1 if it is confirmed, otherwise 0. */
typedef struct { uint16_t is_confirmed; uint16_t word; } pm_standing;

/* What is known of one cell, by its output and its command code. */
typedef struct {
    uint8_t code;
    uint8_t output; /* 0 of WRITE_PROTECT */
    pm_standing standing;
    pm_words words;
} pm_cell;

/* What is known of all cells: the first `count` of `cells`, output by output, and WRITE_PROTECT last. */
#define PM_CELLS 49
typedef struct { uint16_t count; pm_cell cells[PM_CELLS]; } pm_known;

/* Which registers of an output a part has, beside OPERATION and VOUT_COMMAND: 0 if it lacks one, any other number if
 * it has it. The data sheet says it: a part with PAGE_PLUS and no VOUT_MIN is common. */
typedef struct { uint8_t vout_max, vout_margin_high, vout_margin_low, vout_min; } pm_registers;

/* Limits of an output's voltage in microvolts, which count as within; and the band in which it is known to be. */
typedef struct { int64_t least, most; } pm_limits;
typedef struct { int64_t least, greatest; } pm_band;

/* What an output commands, by what is known. An output that is off has its band too, of the register that OPERATION selects then. */
enum { PM_POWER_ANY = 0, PM_POWER_ON = 1, PM_POWER_OFF = 2 };
enum { PM_SELECTED_ANY = 0, PM_SELECTED_AVSBUS = 0xFF };
typedef struct {
    uint8_t power;     /* PM_POWER_ON or PM_POWER_OFF if each byte that OPERATION may hold has it so, or PM_POWER_ANY */
    uint8_t within;    /* PM_WITHIN, PM_OUTSIDE, PM_NOT_KNOWN or PM_NO_LIMITS, as pm_host_limits_state answers */
    uint8_t band;      /* 0 if the band stands in `ends`; otherwise why it isn't: H7, PM_NO_BAND, N5 */
    uint8_t selected;  /* which register has its voltage: PM_VOUT_COMMAND or a margin if each byte that OPERATION may hold selects
                        * it, PM_SELECTED_AVSBUS if each hands it to AVSBus, or PM_SELECTED_ANY; VOUT_COMMAND of one that is off */
    uint8_t unused[4];
    pm_band ends;      /* zeros if it doesn't */
} pm_rail;

/* A word that is wanted of a register, if `has` isn't 0; and the words that are wanted of an output's voltages. A
 * register of which none is wanted stays as it is. */
typedef struct { uint16_t has; uint16_t word; } pm_wish;
typedef struct { pm_wish command, max, margin_high, margin_low, min; } pm_wanted;

/* A course, in memory of yours: one way of an output to what is wanted of it. Nothing in it is for callers. Any bytes may stand
 * there: each call but those that make one asks first for its mark, its version and fields that a course has, and answers
 * PM_NO_COURSE if one lacks. It holds no host and no pointer, it may be copied, and what stands in it is a function of what it
 * means. */
typedef struct { uint64_t held[PM_COURSE_SIZE / 8]; } pm_course;

typedef char pm_course_has_its_size[sizeof(pm_course) == PM_COURSE_SIZE ? 1 : -1];

/* How a course ended; kind 0 if it goes on. */
enum {
    PM_REACHED = 1,       /* each wanted word is held and the output commands what it is to, by answers that all came after the last
                           * order. Of a survey: all that decides what the output commands is known. Of a byte that turns the output
                           * off: its order was read back. None of this is promised if the part restarted since the course began. An
                           * output with wanted words then commands a value between its start value and what is wanted, or as far
                           * as the wanted limits if the stored VOUT_MAX or VOUT_MIN cuts the stored word; if the stored OPERATION
                           * selects the register that the held one did, and nothing else was ordered of the output */
    PM_REFUSED = 2,       /* `number` says why, and `code` of which register, or 0. Nothing more is ordered, and before the first
                           * order nothing was written */
    PM_STILL_DIFFERS = 3, /* an order of the register `code` was read back as another word a second time, now as `word` */
    PM_SPENT = 4,         /* no try is left for what comes next, which is about the register `code`, or VOUT_MODE (20h) of a learn;
                           * `fault` says what was wrong with the last answer of this course */
    PM_OTHER_FORMAT = 5,  /* VOUT_MODE was read as `word`, which names no format whose words are known, as 21h (VID); or coefficients
                           * came with 40h that make no format */
    PM_OTHER_SOURCE = 6   /* OPERATION holds the byte `word`, which its cell doesn't take, as B0h, which hands the voltage to AVSBus:
                           * pm_course_power orders another byte over it */
};

/* `fault` beside PM_F1_NOT_OURS to PM_F5_WRONG_PEC; 0 if the last answer was good. */
enum { PM_NO_ANSWER = 1, PM_NO_ACKNOWLEDGEMENT = 2 };
typedef struct {
    uint8_t kind;
    uint8_t number; /* of PM_REFUSED; otherwise 0 */
    uint8_t code;   /* a register's command code, or 0 */
    uint8_t unused;
    uint16_t word;  /* of PM_STILL_DIFFERS, PM_OTHER_FORMAT and PM_OTHER_SOURCE; otherwise 0 */
    uint16_t fault; /* of PM_SPENT; otherwise 0 */
} pm_course_end;

/* A job of a course: a learn of its output, a check of a register, or an order of one. */
enum { PM_JOB_NONE = 0, PM_JOB_LEARN = 1, PM_JOB_CHECK = 2, PM_JOB_ORDER = 3 };
typedef struct {
    uint8_t kind;
    uint8_t code;  /* the register's command code, VOUT_MODE (20h) of a learn, 0 of none */
    uint16_t word; /* the word that is ordered; otherwise 0 */
} pm_course_job;

/* What came of one question about a rail. Zeros if it wasn't asked; a good answer if `asked` isn't 0 and `fault` is. */
typedef struct {
    uint8_t asked; /* how often it was asked */
    uint8_t fault; /* what was wrong with the last answer: PM_NO_ANSWER, PM_F1_NOT_OURS to PM_F5_WRONG_PEC, 0 if it was good */
    uint16_t word; /* the word or byte of a good answer, otherwise 0 */
} pm_heard;

/* What is done about fault limits: a goal at or beyond one is refused (P8); it is only noted; they aren't read. */
enum { PM_FAULT_LIMITS_REFUSE = 0, PM_FAULT_LIMITS_TELL = 1, PM_FAULT_LIMITS_SKIP = 2 };

/* What a part lacks: what its data sheet says that it lacks, which the caller says, and what it was found to lack. Only what the caller says
 * makes an end without it good. */
enum { PM_LACKS_STATUS_WORD = 1, PM_LACKS_READ_VOUT = 2, PM_FOUND_NO_STATUS_WORD = 4, PM_FOUND_NO_READ_VOUT = 8 };

/* What was heard of a rail: pm_sequence_next writes it to the record of its step. */
typedef struct {
    uint16_t mark, version;
    uint8_t output;
    uint8_t look;          /* 0 nothing was looked at, 1 before an order, 2 after one, 3 after one that turned the output off */
    uint8_t fault_limits;  /* PM_FAULT_LIMITS_REFUSE, or another of these */
    uint8_t lacks;         /* the sum of PM_LACKS_ and PM_FOUND_NO_ numbers */
    uint16_t within;       /* thousandths of what the output commands that READ_VOUT may be away from it: 50 are 5 % */
    uint16_t rounds;       /* how often all is asked at most until the output does what it is to */
    uint16_t round;        /* which of these it is, from 0 */
    pm_heard before;       /* STATUS_WORD before the first order */
    pm_heard ov_fault_limit, ov_warn_limit, uv_warn_limit, uv_fault_limit; /* 40h, 42h, 43h, 44h, in the output's format */
    pm_heard status_word, status_vout, status_iout, status_input, status_temperature; /* 79h to 7Dh, of this round */
    pm_heard read_vout;                      /* 8Bh, in the output's format, of this round */
    pm_heard power_good_on, power_good_off;  /* 5Eh, 5Fh, in the output's format: asked if only POWER_GOOD# speaks against it */
} pm_delivery;

typedef char pm_delivery_has_its_size[sizeof(pm_delivery) == PM_DELIVERY_SIZE ? 1 : -1];

/* What a rail does: the `verdict` of what a sequence says. Good are PM_DELIVERS, PM_DELIVERS_BY_READ_VOUT and PM_WENT_OFF; with
 * `tells_power_good` PM_POWER_GOOD_ALONE; and without PM_LOOK_MUST PM_COMMANDED_OFF, PM_NOT_KNOWN_ON and PM_DELIVERY_NOT_KNOWN of a part
 * that has neither STATUS_WORD nor READ_VOUT, after an order that turns off no STATUS_WORD, as its caller says. */
enum {
    PM_NOT_YET = 0,            /* something is left to ask, or nothing was looked at */
    PM_DELIVERS = 1,           /* OFF and POWER_GOOD# are 0, no fault is new, READ_VOUT is within the limits and near what it commands */
    PM_COMMANDED_OFF = 2,      /* nothing was asked: the output is commanded off */
    PM_NOT_KNOWN_ON = 3,       /* nothing was asked: it isn't known whether the output is commanded on */
    PM_IS_OFF = 4,             /* OFF is 1, though the output is commanded on */
    PM_NEW_FAULT = 5,          /* the bit `bit` of the register `code` says a fault that didn't stand before the first order, or of which
                                * that isn't known since STATUS_WORD gave no good answer then (`before.fault`) */
    PM_OUTSIDE_LIMITS = 6,     /* READ_VOUT lies outside the limits that the host keeps of the output */
    PM_BEYOND = 7,             /* READ_VOUT is farther than `within` from what the output commands */
    PM_POWER_GOOD_ALONE = 8,   /* READ_VOUT is right, and POWER_GOOD# is 1: `power_good_on` says at which voltage it would be 0 */
    PM_NO_POWER_GOOD = 9,      /* POWER_GOOD# is 1, of a part without READ_VOUT */
    PM_DELIVERY_NOT_KNOWN = 10, /* the register `code` gave no good answer: `fault` says what was wrong with the last one. A `fault` of 0 of
                                * STATUS_WORD: it wasn't asked, since `lacks` has it; of READ_VOUT: it was good, and what the output
                                * commands isn't known */
    PM_WENT_OFF = 11,          /* OFF is 1 after an order that turned the output off */
    PM_STILL_ON = 12,          /* OFF is 0 after such an order */
    PM_DELIVERS_BY_READ_VOUT = 14 /* of a part without STATUS_WORD: READ_VOUT is within the limits and near what it commands. Of faults
                                   * nothing is known */
};

/* What a step asks for of a register: nothing, a word, or a voltage, which gets its word as the step begins, as pm_course_microvolts
 * forms it. */
enum { PM_STAY = 0, PM_WORD = 1, PM_MICROVOLTS = 2 };
typedef struct {
    uint16_t kind;      /* PM_STAY, PM_WORD or PM_MICROVOLTS */
    uint16_t word;      /* of PM_WORD, otherwise 0 */
    int32_t microvolts; /* of PM_MICROVOLTS, otherwise 0: at most 2,147 V */
} pm_sequence_wish;

enum {
    PM_SETS = 1,         /* registers get words or voltages */
    PM_TURNS = 2,        /* OPERATION gets `byte`: on, off or a margin */
    PM_STEP_SURVEYS = 3, /* nothing is ordered, and all that decides what the output commands is read */
    PM_STEP_RESTS = 4    /* nothing is ordered or read, which undoes a step that ordered nothing */
};

/* Whether the rail of a step is looked at. */
enum {
    PM_LOOK_NOT = 0,
    PM_LOOK = 1,     /* before its first order, unless that turns the output off, and at its end */
    PM_LOOK_MUST = 2 /* and it has to deliver, or to have gone off, before the next step begins */
};

/* A step: one output of one of several parts, what is done to it, and how its rail is looked at. */
typedef struct {
    uint8_t host;   /* the place of its host among yours, 0 to 7 */
    uint8_t output; /* 0 to 7 */
    uint8_t kind;   /* PM_SETS, PM_TURNS, PM_STEP_SURVEYS or PM_STEP_RESTS */
    uint8_t byte;   /* of PM_TURNS, otherwise 0. Bit 0 doesn't count, nor does bit 1 unless bits 5:4 are 11: the step is over if the part
                     * holds a byte that differs in these only, and pm_host_possible_words says which. A part that holds one already
                     * gets no order that turns its output on */
    uint8_t unused[4];
    pm_sequence_wish command, max, margin_high, margin_low, min; /* of PM_SETS */
    uint8_t looks;            /* PM_LOOK_NOT, PM_LOOK or PM_LOOK_MUST */
    uint8_t fault_limits;     /* PM_FAULT_LIMITS_REFUSE, or another of these */
    uint8_t lacks;            /* what the part lacks by its data sheet: PM_LACKS_STATUS_WORD, PM_LACKS_READ_VOUT, or the sum */
    uint8_t tells_power_good; /* not 0: a rail against which nothing but POWER_GOOD# speaks counts as one that delivers */
    uint16_t within, rounds;  /* as in pm_delivery */
    uint32_t wait;            /* milliseconds that pass before anything of it is sent */
    pm_heard before;          /* what an earlier list heard of STATUS_WORD before its first order of this output; zeros if there was none */
} pm_sequence_step;

typedef char pm_sequence_step_has_its_size[sizeof(pm_sequence_step) == PM_SEQUENCE_STEP_SIZE ? 1 : -1];

/* What pm_sequence_next keeps of a step, at its place. */
typedef struct {
    pm_sequence_step back; /* the step that undoes it, written as it begins: carried out as it is, nothing is looked at */
    pm_delivery look;      /* what was heard of its rail, written as its look ends, and if its goal is beyond a fault limit */
    uint8_t unused[2];
} pm_sequence_record;

typedef char pm_sequence_record_has_its_size[sizeof(pm_sequence_record) == PM_SEQUENCE_RECORD_SIZE ? 1 : -1];

/* What a sequence said last. `kind` is 0 of a wait; PM_REACHED if each step is over and none was left; PM_REFUSED to PM_OTHER_SOURCE as the
 * course of the step `step` ended, or: */
enum {
    PM_STEP_CHANGED = 7,     /* its next order isn't due by the words with which it began: the format changed, or another orders beside it */
    PM_PART_RESTARTED = 8,   /* an answer showed that a part restarted or was exchanged */
    PM_WAY_BACK_REFUSED = 9, /* with PM_NO_WAY_BACK: the plan of the step's way back would be refused, as `number` and `code` say */
    PM_STEPS_LEFT = 10,      /* each step is over but for `word` that were left */
    PM_GOAL_BEYOND = 11,     /* P8: the goal is at or beyond the fault limit `code`, which holds `word`; the order wasn't sent */
    PM_GOAL_UNJUDGED = 12,   /* the goal can't be judged, since no format is known; the order wasn't sent */
    PM_RAIL_DOES = 13,       /* the rail does what it is to, as `verdict` says */
    PM_RAIL_FAILS = 14,      /* it doesn't */
    PM_ORDER_NEXT = 16       /* with PM_ASKED: an order of `word` for the register `code` comes next */
};
typedef struct {
    uint8_t kind;
    uint8_t number;         /* of PM_REFUSED, PM_WAY_BACK_REFUSED and PM_GOAL_BEYOND; otherwise 0 */
    uint8_t code;           /* the command code of the register that it is about, or 0 */
    uint8_t verdict;        /* of PM_RAIL_DOES and PM_RAIL_FAILS: PM_DELIVERS, or another of these */
    uint8_t bit;            /* of PM_NEW_FAULT, from 0 */
    uint8_t has_microvolts; /* of the same two: 1 if READ_VOUT gave a good answer and stands in `microvolts` */
    uint16_t word;          /* what the register `code` held; of PM_STEPS_LEFT how many steps; otherwise 0 */
    uint16_t fault;         /* of PM_SPENT and PM_DELIVERY_NOT_KNOWN: what was wrong with the last answer */
    uint16_t step;          /* the place of the step in the list, from 0; of PM_REACHED and PM_STEPS_LEFT how many steps there are */
    uint32_t milliseconds;  /* with PM_WAIT: how long; otherwise 0 */
    int64_t microvolts;     /* READ_VOUT, rounded down; 0 if it isn't known */
} pm_sequence_said;

/* A sequence, in memory of yours: how far a list of steps has come. The named fields are there to be read; only the calls write them. It
 * holds no host, no list and no pointer, and may be copied. A call asks first for the mark, the version and fields that a sequence has,
 * and answers PM_NO_SEQUENCE if one lacks. */
typedef struct {
    uint16_t mark, version;
    uint16_t left;         /* how many steps were left */
    uint8_t leaves, asks;  /* 1 of PM_LEAVES, 1 of PM_ASKS */
    pm_sequence_said said; /* with each answer but PM_OK, PM_AGAIN and a refusal */
    uint16_t tries;        /* how many jobs each step has at most */
    uint16_t begun;        /* how many steps have begun or were left */
    uint8_t host;          /* the place of the host that the next call takes, and on whose bus the frame goes */
    uint8_t keeps_back, ends_at_restart; /* 1 of PM_KEEPS_BACK, 1 of PM_ENDS_AT_RESTART */
    uint8_t unused;
    uint64_t held[42];
} pm_sequence;

typedef char pm_sequence_has_its_size[sizeof(pm_sequence) == PM_SEQUENCE_SIZE ? 1 : -1];

/* The format of an output's voltages, or of a reading: LINEAR11, which READ_VIN, READ_IOUT and READ_TEMPERATURE_1
 * have, and which no host learns of an output. Microvolts are then millionths of a volt, an ampere or a degree. */
enum { PM_NO_FORMAT = 0, PM_ULINEAR16 = 1, PM_DIRECT = 2, PM_LINEAR11 = 3 };
typedef struct {
    uint8_t kind;    /* with PM_LINEAR11 nothing else is looked at */
    int8_t exponent; /* the exponent of ULINEAR16, -16 to 15, or R of DIRECT, -12 to 12 */
    int16_t m;       /* the slope of DIRECT, not 0 */
    int16_t b;       /* the offset of DIRECT */
} pm_format;

/* The version of this library: compare it at start with PM_VERSION, of which the upper byte has to be the same. */
uint16_t pm_version(void);

/* The sizes and the versions of a pm_host, a pm_course and a pm_sequence: compare them at start with PM_HOST_SIZE, PM_HOST_VERSION,
 * PM_COURSE_SIZE, PM_COURSE_VERSION, PM_SEQUENCE_SIZE and PM_SEQUENCE_VERSION. */
uint64_t pm_host_size(void);
uint16_t pm_host_version(void);
uint64_t pm_course_size(void);
uint16_t pm_course_version(void);
uint64_t pm_sequence_size(void);
uint16_t pm_sequence_version(void);

/* Makes a host, whatever stood in the memory, for the device at this address, 08h to 77h, which has this
 * many outputs, 1 to 8. A job has at most this many passes or tries, 1 to 15. Nothing is known, no limits either: give each
 * output some, or say by pm_host_no_limits that it has none. PM_NO_ADDRESS, H1, H2, the first that applies. */
PM_MUST_USE
uint8_t pm_host_new(pm_host *host, uint8_t address, uint8_t outputs, uint8_t passes);

/* Makes a host of a part that lacks registers; pm_host_new makes one of a part that has all. A missing VOUT_MIN or VOUT_MAX stands
 * at the end of the output's format, since it cuts nothing, and no survey reads it. A job on a missing register is refused, and
 * an order of OPERATION that selects a missing margin (L7). PM_NO_ADDRESS, H1, H2. */
PM_MUST_USE
uint8_t pm_host_new_with(pm_host *host, uint8_t address, uint8_t outputs, uint8_t passes, const pm_registers *registers);

/* Gives an output limits, or narrower ones than it has: a least and a most in microvolts. From then on every order for the output is judged by
 * them, however it is asked. A voltage (VOUT_COMMAND, VOUT_MAX, VOUT_MIN, the margins) is judged by the value of the word that would be sent. A
 * byte of OPERATION that leaves the output on is judged by the band that would then hold. Turning an output off is never refused by a limit.
 * pm_host_restart keeps limits, pm_host_new drops them. A word that was ordered before stays possible, and what the part or its store holds no
 * host knows: check the registers, and ask pm_host_limits_state. PM_NO_HOST, H4, N5 beyond 10^15, L1, L6, and H3 if an order of the output is
 * open that the new limits would refuse, since its frame may be sent again. */
PM_MUST_USE
uint8_t pm_host_set_limits(pm_host *host, uint8_t output, int64_t least, int64_t most);

/* Says that an output has no limits: any voltage may be ordered of it. Without this and without limits an order of a voltage, and one of
 * OPERATION that leaves the output on, is refused (L8); turning it off isn't. pm_host_restart keeps it. PM_NO_HOST, H4, L6 if it has
 * limits. */
PM_MUST_USE
uint8_t pm_host_no_limits(pm_host *host, uint8_t output);

/* The limits of an output. PM_NO_HOST, H4, PM_NO_LIMITS if it was given none; then nothing is written. */
uint8_t pm_host_limits(const pm_host *host, uint8_t output, pm_limits *limits);

/* Whether an output's voltage lies within its limits, by the words that its registers may hold: PM_WITHIN if its
 * whole band does, PM_OUTSIDE if the whole band lies below them or above them, otherwise PM_NOT_KNOWN. PM_NO_LIMITS if it
 * has none: it was given none, or it was said that it has none. PM_NO_HOST, H4. */
enum { PM_WITHIN = 0x91, PM_OUTSIDE = 0x92, PM_NOT_KNOWN = 0x93 };
uint8_t pm_host_limits_state(const pm_host *host, uint8_t output);

/* Which voltages an output may be commanded to, by what is known. No narrower band is true if, since the host started, the
 * device didn't restart, WRITE_PROTECT was neither ordered nor read as other than 00h, and no restore was begun. The least
 * is rounded down, the greatest up. PM_NO_HOST, H4, H7 if its format isn't known, PM_NO_BAND if OPERATION may hand
 * its voltage to AVSBus, N5 if an end is beyond 10^15 microvolts; then nothing is written. */
uint8_t pm_host_band(const pm_host *host, uint8_t output, pm_band *band);

/* Begins an order: at most `passes` times the word is written once and read back once. It ends as PM_DONE, PM_DIFFERS or PM_UNKNOWN. PM_NO_HOST,
 * PM_NO_CELL, H3, H4, L7, then by the output's limits L8, L2, L3 or L4, then H5, L8, L2 or L5 of OPERATION, H6. */
PM_MUST_USE
uint8_t pm_host_order(pm_host *host, uint8_t output, uint8_t code, uint16_t word);

/* Begins an order of the word nearest to a number of microvolts, in the format that the last learn of the output found. PM_NO_HOST, PM_NO_CELL,
 * H3, H4, L7, H5, H7, N5, N3 or N4, then L8, L3 or L4 by the value of that word, H6. */
PM_MUST_USE
uint8_t pm_host_order_microvolts(pm_host *host, uint8_t output, uint8_t code, int64_t microvolts);

/* Begins a check: the cell is read at most `passes` times. PM_DONE or PM_UNKNOWN. PM_NO_HOST, PM_NO_CELL, H3, H4, L7. */
PM_MUST_USE
uint8_t pm_host_check(pm_host *host, uint8_t output, uint8_t code);

/* Begins a learn of the format of an output's voltages. PM_LEARNED or PM_UNKNOWN. PM_NO_HOST, H3, H4. */
PM_MUST_USE
uint8_t pm_host_learn(pm_host *host, uint8_t output);

/* Begins to send CLEAR_FAULTS to an output until it is acknowledged, at most `passes` times. PM_DONE says
 * no more than that; or PM_UNKNOWN. PM_NO_HOST, H3, H4. */
PM_MUST_USE
uint8_t pm_host_clear(pm_host *host, uint8_t output);

/* Begins to send STORE_USER_ALL, which stores the outputs' settings for a restart of the device to load, or RESTORE_USER_ALL, which brings them
 * back, until it is acknowledged, at most `passes` times. PM_DONE says no more than that; or PM_UNKNOWN. From the start of a restore on no word
 * of an output is confirmed and any is possible, until its cell is read. PM_NO_HOST, H3. */
PM_MUST_USE
uint8_t pm_host_store(pm_host *host);
PM_MUST_USE
uint8_t pm_host_restore(pm_host *host);

/* What is to be sent now. It stays the same until pm_host_write_ended, pm_host_read_ended, pm_host_restart, pm_host_new
 * or pm_host_new_with, and if it is PM_NOTHING until a job begins. PM_NO_HOST, and then PM_NOTHING. */
uint8_t pm_host_frame(const pm_host *host, pm_sending *sending);

/* A write was sent; `acked` isn't 0 if every byte was acknowledged. The status of many HALs is 0 then: ask it, and don't
 * hand it on. PM_NO_HOST, PM_OTHER_FRAME if no write is to be sent. */
pm_step pm_host_write_ended(pm_host *host, uint8_t acked);

/* A request was sent, and these bytes came back, the read address first; 0 bytes if none came.
 * PM_NO_HOST, PM_OTHER_FRAME if no request is to be sent. */
pm_step pm_host_read_ended(pm_host *host, const uint8_t *bytes, uint64_t count);

/* Drops the open job and all that is known of cells and formats. The limits and the registers stay. PM_NO_HOST. */
uint8_t pm_host_restart(pm_host *host);

/* What is known of a cell's word, the words that it may hold, the format of an output's voltages.
 * PM_NO_HOST, PM_NO_CELL, H4; then nothing is written. */
uint8_t pm_host_confirmed_word(const pm_host *host, uint8_t output, uint8_t code, pm_standing *standing);
uint8_t pm_host_possible_words(const pm_host *host, uint8_t output, uint8_t code, pm_words *words);
uint8_t pm_host_format(const pm_host *host, uint8_t output, pm_format *format);

/* What is known of every cell. What stands after `count` cells stays as it was. PM_NO_HOST; then nothing is written. */
uint8_t pm_host_known_cells(const pm_host *host, pm_known *known);

/* 1 if a restart of the device was seen since the host started, 0 if none was. PM_NO_HOST, which isn't
 * 0 either: ask `pm_host_restart_seen(host) == 1`. */
uint8_t pm_host_restart_seen(const pm_host *host);

/* ---- A rail ---- */

/* What an output commands, by what is known. PM_NO_HOST, H4; then nothing is written. */
uint8_t pm_host_rail(const pm_host *host, uint8_t output, pm_rail *rail);

/* ---- A course ---- */

/* Makes a course, whatever stood in the memory. It has at most this many jobs, each a learn, a check or an order; and each job at
 * most as many passes as its host has. H4 for an output above 7; then nothing is written. A course has its output to itself: no other
 * job of that output begins, and no restore, until it has ended. */

/* To nothing: it learns the format and reads all that decides what the output commands, OPERATION, the register that it selects,
 * VOUT_MAX and VOUT_MIN, and orders nothing. pm_host_rail says then what it commands. */
PM_MUST_USE
uint8_t pm_course_survey(pm_course *course, uint8_t output, uint16_t tries);

/* To these words. It surveys all that its plan needs, orders register after register, and surveys once more if something was
 * ordered. If nothing is due nothing is written. */
PM_MUST_USE
uint8_t pm_course_words(pm_course *course, uint8_t output, const pm_wanted *wanted, uint16_t tries);

/* To a voltage of VOUT_COMMAND, a margin, VOUT_MAX or VOUT_MIN: the same to its word, which is formed anew before each job by the
 * format that the host knows then. It is the nearest word of VOUT_COMMAND and of a margin, the word of the greatest value that isn't
 * above so many microvolts of VOUT_MAX, and of the least that isn't below them of VOUT_MIN. If the format has none the course ends
 * as PM_REFUSED with N3, N4 or N5. H4; H5 of a code that is no voltage's. */
PM_MUST_USE
uint8_t pm_course_microvolts(pm_course *course, uint8_t output, uint8_t code, int64_t microvolts, uint16_t tries);

/* To a byte of OPERATION. One that turns the output off is ordered at once, whatever is known: that is the first frame, nothing is
 * read before it, and neither format, limits nor WRITE_PROTECT stand in its way. One that leaves it on is ordered after a survey
 * and reads of WRITE_PROTECT and of the register that it selects, by its limits (L8, L5). At the margins A8h and 98h the part acts on
 * faults, at A4h and 94h it ignores them. */
PM_MUST_USE
uint8_t pm_course_power(pm_course *course, uint8_t output, uint8_t byte, uint16_t tries);

/* A voltage is wanted of one more register, by a course to words or to a voltage: say so before its first frame. PM_NO_COURSE also of
 * a course to a byte or to nothing, H5 of a code that is no voltage's. */
PM_MUST_USE
uint8_t pm_course_want(pm_course *course, uint8_t code, int64_t microvolts);

/* For parts that round. The word that a register holds is wanted in the place of what was, and the course begins anew, by the tries that
 * are left: carry it out again. The register is the one of which an order differed, or else the first of which something is wanted. What
 * was wanted as a voltage stays one, of whole microvolts that mean just this word; of a word its value counts, rounded down. PM_NO_HOST,
 * PM_NO_COURSE, H4; H3 while a job is open, P1, P4 if the word isn't known, P9, L3 or L4 by the limits; then nothing changes. P9 comes if
 * nothing is wanted, if the word's value is more than so many microvolts away from what was, and if no whole microvolts mean it.
 * What the rail commands by a rounded word is tested, and not proved. */
PM_MUST_USE
uint8_t pm_course_accept(pm_course *course, const pm_host *host, uint32_t microvolts);

/* What is to be sent now: the frame of the course's job, which stays the same until it hears what became of it; if none is
 * open, the course begins its next job first. 0, or PM_ENDED, and then PM_NOTHING, if it has ended: pm_course_ended says how. It
 * ends with H3 if another job is open, and goes on once that is over. PM_NO_HOST, PM_NO_COURSE, H4 if the host has no such output, and
 * then PM_NOTHING; the course hasn't ended, and nothing changes. */
PM_MUST_USE
uint8_t pm_course_frame(pm_course *course, pm_host *host, pm_sending *sending);

/* What became of that frame, which the host hears too: the host's step, as pm_host_write_ended and pm_host_read_ended answer it.
 * PM_NO_HOST, PM_NO_COURSE, H4 if the host has no such output, PM_OTHER_FRAME; then nothing changes. */
pm_step pm_course_write_ended(pm_course *course, pm_host *host, uint8_t acked);
pm_step pm_course_read_ended(pm_course *course, pm_host *host, const uint8_t *bytes, uint64_t count);

/* The same, and what is to be sent next, as pm_course_frame hands it out: one call is cheaper than two. It is PM_NOTHING once the course has
 * ended, and, if `stops` isn't 0, before an order: that doesn't begin, and pm_course_frame begins it. It is refused as the call above. */
pm_step pm_course_after_write(pm_course *course, pm_host *host, uint8_t acked, uint8_t stops, pm_sending *sending);
pm_step pm_course_after_read(pm_course *course, pm_host *host, const uint8_t *bytes, uint64_t count, uint8_t stops,
                             pm_sending *sending);

/* How it ended, or kind 0 if it goes on. PM_NO_COURSE; then nothing is written. */
uint8_t pm_course_ended(const pm_course *course, pm_course_end *end);

/* Which job it would begin now: 0, or PM_ENDED with PM_JOB_NONE if it would end. Nothing begins, and nothing changes. PM_NO_HOST,
 * PM_NO_COURSE, H4 if the host has no such output; then nothing is written. */
uint8_t pm_course_next(const pm_course *course, const pm_host *host, pm_course_job *next);

/* Which of its jobs is under way: the last that it began, and PM_JOB_NONE once that one's end was given. PM_NO_COURSE; then nothing is
 * written. */
uint8_t pm_course_job_now(const pm_course *course, pm_course_job *job);

/* The word that a course asks for of VOUT_COMMAND, VOUT_MARGIN_HIGH or VOUT_MARGIN_LOW, by the format that the host knows now. Of a course
 * to a byte that leaves the output on it is the word that the selected register is known to hold. PM_NO_GOAL if it has none
 * of this register. PM_NO_HOST, PM_NO_COURSE, H4, PM_NO_CELL; then nothing is written. */
PM_MUST_USE
uint8_t pm_course_goal(const pm_course *course, const pm_host *host, uint8_t code, uint16_t *word);

/* ---- Names ---- */

/* A name: characters of ASCII, and zeros after them, so that `text` is a string of C. */
typedef struct { char text[32]; } pm_name;

/* The letter and the name of a refusal, as "H6 TooUncertain". PM_NO_NAME if the number is none; then nothing is written. */
uint8_t pm_refusal_name(uint8_t number, pm_name *name);

/* The name of the kind of a step: "next", "done", "differs", "unknown", "learned". PM_NO_NAME for another number. */
uint8_t pm_end_name(uint16_t kind, pm_name *name);

/* ---- Numbers and packets by themselves ---- */

/* The voltage of a word in microvolts, rounded down. H7 if the format is none, N5 exactly if the word's value
 * is beyond 10^15 microvolts in size. */
uint8_t pm_microvolts(const pm_format *format, uint16_t word, int64_t *microvolts);

/* The word nearest to a number of microvolts. H7 if the format is none, N5, N3, N4. */
uint8_t pm_nearest_word(const pm_format *format, int64_t microvolts, uint16_t *word);

/* The word of a bound. Of several words it is the one that pm_nearest_word gives for its value. pm_at_most gives the word of the
 * greatest value that isn't above so many microvolts, and N3 if each value is. pm_at_least gives that of the least value that isn't
 * below them, and N4 if each value is. H7 if the format is none, N5. */
uint8_t pm_at_most(const pm_format *format, int64_t microvolts, uint16_t *word);
uint8_t pm_at_least(const pm_format *format, int64_t microvolts, uint16_t *word);

/* What a packet says. */
typedef struct {
    uint8_t kind;  /* 1 send byte, 2 write byte, 3 write word, 4 PAGE_PLUS_WRITE, 5 read byte or word,
                    * 6 PAGE_PLUS_READ, 7 COEFFICIENTS */
    uint8_t page;  /* of 4 and 6 the page, of 7 the side */
    uint8_t code;  /* the code; of 4 and 6 the one that is carried, of 7 the one asked about */
    uint8_t count; /* of 4: how many bytes it carries, 0 to 2 */
    uint16_t word; /* what is written; a byte is below 256 */
} pm_packet;

/* The packet error code of bytes. */
uint8_t pm_pec(const uint8_t *bytes, uint64_t count);

/* The bytes of a packet to a device. PM_NO_ADDRESS; PM_NO_PACKET if the numbers mean none, or the code doesn't have this layout. */
uint8_t pm_packet_write(uint8_t address, const pm_packet *packet, pm_sending *frame);

/* What the bytes of a write, and of a request, to a device say. PM_NO_ADDRESS, F1 to F8. */
uint8_t pm_packet_read_write(uint8_t address, const uint8_t *bytes, uint64_t count, pm_packet *packet);
uint8_t pm_packet_read_request(uint8_t address, const uint8_t *bytes, uint64_t count, pm_packet *packet);

/* The payload of an answer, without its count and its PEC. */
typedef struct {
    uint8_t length;   /* 1, 2, or 5 of COEFFICIENTS */
    uint8_t bytes[5]; /* 0 after the payload */
    uint16_t word;    /* the first two as a word, the low one first; of one byte that byte */
} pm_payload;

/* What came back after the repeated start of a request, the read address first: the PEC covers the request's bytes too.
 * PM_NO_ADDRESS, PM_NO_PACKET if the packet isn't a request, F1 to F5; then nothing is written. */
uint8_t pm_packet_read_answer(uint8_t address, const pm_packet *request, const uint8_t *bytes, uint64_t count,
                              pm_payload *payload);

/* The payload of a read that is no packet, without its count and its PEC. */
typedef struct {
    uint8_t length;    /* at most 32 */
    uint8_t bytes[32]; /* 0 after the payload */
} pm_block;

/* What came back for a read of any code, whose request is the address byte and the code; the read address first. A block has a
 * count, at most 32; of a plain read so many bytes were asked for, at most 32. Of a block's 34 bytes hand over those up to its count + 3,
 * the read address in front counted: all 34 of a shorter one are too many (F3). If the count is above 32 hand over all.
 * PM_NO_ADDRESS, PM_NO_PACKET if more were asked for, F1 to F5; then nothing is written. */
uint8_t pm_read_block(uint8_t address, uint8_t code, const uint8_t *bytes, uint64_t count, pm_block *block);
uint8_t pm_read_plain(uint8_t address, uint8_t code, uint8_t size, const uint8_t *bytes, uint64_t count, pm_block *block);

/* A read by PAGE_PLUS of any code that it carries, whether it stands in the table of pm_packet_write or not. `size` is 1 for a byte, 2 for
 * a word, so many bytes up to 32, or 0 for a block, whose count the answer says. The request; its `answer` is the number of
 * bytes of a whole one, of a block 35 at most. PM_NO_ADDRESS, PM_NO_PACKET for PAGE, PAGE_PLUS_WRITE, PAGE_PLUS_READ and COEFFICIENTS,
 * which PAGE_PLUS doesn't carry, and for a greater size; then nothing is written. */
PM_MUST_USE
uint8_t pm_paged_request(uint8_t address, uint8_t page, uint8_t code, uint8_t size, pm_sending *frame);

/* What came back for it, the read address first: a count, which is the size that was asked for (F4), so many bytes and the PEC. Of a
 * block hand over the bytes up to its count + 3, as of pm_read_block. PM_NO_ADDRESS, PM_NO_PACKET as for the request, F1, F2 if no
 * count came, F4, F2 and F3 by the count, F5; then nothing is written. */
PM_MUST_USE
uint8_t pm_read_paged(uint8_t address, uint8_t page, uint8_t code, uint8_t size, const uint8_t *bytes, uint64_t count,
                      pm_block *block);

/* ---- Sequences ---- */

/* Steps of several outputs of at most eight hosts, one after another; one output is a list of one step. The fault limits are read and judged
 * before each order that leaves an output on, and the rail is asked once its step is over. A step begins only if the one before is over by what
 * its host knows then, or was left. Over one host each output then commands what it did before its step or what that step brings it to, in the
 * list's order, whatever is lost, cut or repeated, while the part doesn't restart and nobody else orders. Begin no job and no restore of these
 * outputs meanwhile. pm_run_sequence, at the end of this header, is the loop. An end PM_REACHED says that each step is over, that none was left,
 * and that each rail with PM_LOOK_MUST delivered, or went off, after its step's last order. */

/* Makes a sequence, whatever stood in the memory: no step has begun, and each has at most this many jobs. `rules` is 0 or the sum of: */
enum {
    PM_KEEPS_BACK = 1,      /* a way back is kept: OPERATION is read before an order that turns an output off, so that it can be undone */
    PM_ENDS_AT_RESTART = 2, /* a restart of a part that was seen ends the list; otherwise what the part holds is learned anew */
    PM_LEAVES = 4,          /* a step that stops is left, which PM_TOLD says, and the next one goes on; otherwise it ends the list */
    PM_ASKS = 8             /* PM_ASKED names each order before it begins */
};
void pm_sequence_new(pm_sequence *sequence, uint16_t tries, uint8_t rules);

/* What comes next, by the host at the place sequence->host. `steps` is the whole list, the same each time. `records` has one record for each
 * step: their `back`, that of the newest step that has begun first, are the list of the way back, without those of kind 0: such a step was
 * left before it began. Without PM_KEEPS_BACK `room` may be less, and nothing is kept of the steps beyond. With all but PM_OK the frame is
 * PM_NOTHING.
 *   PM_OK           the frame goes on the bus of that host, and stays the same until pm_sequence_write_ended or pm_sequence_read_ended. Directly
 *                   before a write that pm_is_once names all is read anew that decides what its output would command. A step has two
 *                   such writes at most, and stops as PM_SPENT then
 *   PM_AGAIN        ask at once, by the host at sequence->host, which may be another
 *   PM_WAIT         ask again once sequence->said.milliseconds have passed: the wait of a step, or the time that a rail is given
 *   PM_ASKED        with PM_ASKS: sequence->said says which order comes next. Nothing has begun. Asked again it begins, if it is still due
 *                   and the host's limits let it
 *   PM_TOLD         sequence->said says what the rail of a step does that does what it is to, or how a step stopped that was left
 *   PM_NO_WAY_BACK  with PM_KEEPS_BACK, before the first order of a step, once: the plan of its way back would be refused by the words that
 *                   are known, as sequence->said says. Asked again the step begins
 *   PM_ENDED        as sequence->said says
 * PM_NO_HOST, PM_NO_SEQUENCE, PM_NO_ROOM; PM_NO_STEP and H4 for the newest step that has begun and the first that hasn't, PM_NO_STEP for a
 * list of more than 65,535 steps. Then nothing changes. This call and the next two take at most PM_SEQUENCE_STACK bytes of stack. */
PM_MUST_USE
uint8_t pm_sequence_next(pm_sequence *sequence, pm_host *host, const pm_sequence_step *steps, uint64_t count, pm_sequence_record *records,
                         uint64_t room, pm_sending *frame);

/* What became of the frame, by the host at sequence->host: the step of a job; PM_NEXT of what was read of a rail. PM_NO_HOST,
 * PM_NO_SEQUENCE; PM_OTHER_FRAME if no such frame of a job of the list is being sent, and no rail is asked; then nothing changes. */
pm_step pm_sequence_write_ended(pm_sequence *sequence, pm_host *host, uint8_t acked);
pm_step pm_sequence_read_ended(pm_sequence *sequence, pm_host *host, const uint8_t *bytes, uint64_t count);

/* Which limits a word is at or beyond: command codes, 0 if there is none, and the words that these registers hold. */
typedef struct {
    uint8_t fault;         /* VOUT_OV_FAULT_LIMIT (40h) or VOUT_UV_FAULT_LIMIT (44h) */
    uint8_t warning;       /* VOUT_OV_WARN_LIMIT (42h) or VOUT_UV_WARN_LIMIT (43h) */
    uint16_t fault_word, warning_word;
} pm_judgement;

/* Which fault limit and which limit of a warning a word of the output's voltage is at or beyond, by its value and by what was heard of the
 * step's rail; a limit that gave no good answer isn't judged. P8 if that is a fault limit, unless PM_FAULT_LIMITS_TELL: the limit is noted in
 * each case. PM_NO_HOST, PM_NO_DELIVERY if nothing was heard, H4, H7 if the format isn't known; then nothing is written. */
PM_MUST_USE
uint8_t pm_sequence_judge(const pm_sequence_record *record, const pm_host *host, uint16_t word, pm_judgement *judgement);

/* ---- The loop of a driver ---- */

#if defined __cplusplus || (defined __STDC_VERSION__ && __STDC_VERSION__ >= 199901L)
/* What a write answers. No other number is an acknowledgement, so that a HAL's own status, handed on, never counts as one. */
enum {
    PM_ACKED = 0xA5,     /* every byte was acknowledged */
    PM_NOT_ACKED = 0x5A, /* some byte wasn't */
    PM_UNHEARD = 0x3C    /* nobody acknowledged the address; it counts as not acknowledged */
};

/* A bus of yours. `write` puts a packet on it, the address byte first and the PEC last, and answers PM_ACKED, PM_NOT_ACKED or PM_UNHEARD. `read`
 * sends a request, then a repeated start and the read address, and writes what comes after that to `answer`, whose `room` bytes are 0 before. It
 * answers how many bytes came, 0 if none did or the transfer failed. A HAL that sends the address by itself is handed the bytes after it.
 * Neither call may try again by itself, nor hand over an older answer. */
typedef uint8_t (*pm_write)(void *context, const uint8_t *bytes, uint64_t count);
typedef uint64_t (*pm_read)(void *context, const uint8_t *request, uint64_t count, uint8_t *answer, uint64_t room);

/* Waits for so many milliseconds. */
typedef void (*pm_wait_ms)(void *context, uint32_t milliseconds);

/* Whether a write may be sent once only: OPERATION gets a byte with bit 7 set, which turns an output on or leaves it on. If nobody heard it
 * the part was away, and may have come up anew since: the list reads again, and orders once more. No patience of yours may send it again. */
static inline int pm_is_once(const uint8_t *bytes, uint64_t count) {
    return count == 7 && bytes[1] == 0x05 && bytes[4] == 0x01 && (bytes[5] & 0x80) != 0;
}

/* Sends a write, and answers whether it was acknowledged. */
static inline uint8_t pm_was_acked(const pm_sending *frame, pm_write write, void *context) {
    return write(context, frame->bytes, frame->length) == PM_ACKED;
}

/* Reads the answer to a request, the read address first, and answers how many bytes came with it; 0 if none did. A `read` that says
 * that more bytes came than there was room for counts as one to which none came. */
static inline uint64_t pm_answer(const pm_sending *frame, uint8_t *answer, pm_read read, void *context) {
    uint64_t room = (uint64_t)frame->answer - 1, at;
    for (at = 0; at <= room; at++)
        answer[at] = 0;
    uint64_t came = read(context, frame->bytes, frame->length, answer + 1, room);
    answer[0] = (uint8_t)(frame->bytes[0] | 1);
    return came == 0 || came > room ? 0 : came + 1;
}

/* Carries a course out, or the host's open job if `course` is NULL, frame after frame, and answers the last step; PM_ENDED of a
 * course; or why a call was refused. The loop ends since a job has at most twice as many frames as passes and a course at most its
 * tries of jobs, which is proved. The loop itself is C of this header, and isn't proved. It is tried under rows of each kind of fault
 * (trials/c/rows/run_rows.c, trials/course), and under random ones (examples/c/faults.c, examples/c/rail.c). */
static inline pm_step pm_carry_out(pm_host *host, pm_course *course, pm_write write, pm_read read, void *context) {
    pm_step step = {PM_UNKNOWN, 0};
    pm_sending frame;
    uint8_t answer[8];
    uint8_t number = course ? pm_course_frame(course, host, &frame) : pm_host_frame(host, &frame);
    while (number == PM_OK && frame.kind != PM_NOTHING) {
        if (frame.kind == PM_WRITE) {
            uint8_t acked = pm_was_acked(&frame, write, context);
            step = course ? pm_course_after_write(course, host, acked, 0, &frame) : pm_host_write_ended(host, acked);
        } else {
            uint64_t count = pm_answer(&frame, answer, read, context);
            step = course ? pm_course_after_read(course, host, answer, count, 0, &frame) : pm_host_read_ended(host, answer, count);
        }
        if (!course)
            number = pm_host_frame(host, &frame);
        else if (frame.kind == PM_NOTHING)
            number = step.kind > PM_LEARNED ? (uint8_t)step.kind : (uint8_t)PM_ENDED;
    }
    if (number != PM_OK)
        step.kind = number;
    return step;
}

/* Carries the open job out, and says how it ended: PM_UNKNOWN if none was open, PM_NO_HOST if the memory holds no host. */
PM_MUST_USE
static inline pm_step pm_host_run(pm_host *host, pm_write write, pm_read read, void *context) {
    return pm_carry_out(host, NULL, write, read, context);
}

/* Carries a course out, and says how it ended: PM_REFUSED also if the memory holds no host (PM_NO_HOST) or no course
 * (PM_NO_COURSE), and if the host has no such output (H4). What its rail does isn't asked: a list of one step does. */
PM_MUST_USE
static inline pm_course_end pm_host_run_course(pm_host *host, pm_course *course, pm_write write, pm_read read, void *context) {
    pm_course_end end = {0, 0, 0, 0, 0, 0};
    uint16_t number = pm_carry_out(host, course, write, read, context).kind;
    if (number != PM_ENDED || pm_course_ended(course, &end) != PM_OK) {
        end.kind = PM_REFUSED;
        end.number = (uint8_t)number;
    }
    return end;
}

/* Steps whose rails are looked at: READ_VOUT may be 5 % away, and all is asked seven times at most. One sets VOUT_COMMAND, one gives
 * OPERATION a byte, and one orders nothing. Change their fields as you want. */
static inline pm_sequence_step pm_sets(uint8_t host, uint8_t output, int32_t microvolts) {
    pm_sequence_step step;
    unsigned at;
    for (at = 0; at < sizeof step; at++)
        ((uint8_t *)&step)[at] = 0;
    step.host = host;
    step.output = output;
    step.kind = PM_SETS;
    step.command.kind = PM_MICROVOLTS;
    step.command.microvolts = microvolts;
    step.looks = PM_LOOK;
    step.within = 50;
    step.rounds = 7;
    return step;
}
static inline pm_sequence_step pm_turns(uint8_t host, uint8_t output, uint8_t byte) {
    pm_sequence_step step = pm_sets(host, output, 0);
    step.kind = PM_TURNS;
    step.byte = byte;
    step.command.kind = PM_STAY;
    return step;
}
static inline pm_sequence_step pm_surveys(uint8_t host, uint8_t output) {
    pm_sequence_step step = pm_turns(host, output, 0);
    step.kind = PM_STEP_SURVEYS;
    return step;
}

/* Reads a register by PAGE_PLUS over a bus, in one try: pm_paged_request, and what pm_read_paged makes of what came. F1 if nothing did. */
PM_MUST_USE
static inline uint8_t pm_ask_paged(uint8_t address, uint8_t page, uint8_t code, uint8_t size, pm_read read, void *context, pm_block *block) {
    pm_sending frame;
    uint8_t answer[35], number = pm_paged_request(address, page, code, size, &frame);
    uint64_t count;
    if (number != PM_OK)
        return number;
    count = pm_answer(&frame, answer, read, context);
    if (size == 0 && count > answer[1] + 3u)
        count = answer[1] + 3u; /* what was read beyond a block is none of it */
    return pm_read_paged(address, page, code, size, answer, count, block);
}

/* What turns an output off, by its ON_OFF_CONFIG (02h, a byte; PMBus 1.3 Part II, ON_OFF_CONFIG). None of these is 0: compare the answer. */
enum {
    PM_HEEDS_OPERATION = 0x9B, /* OPERATION does: bits 4 and 3 are 1 */
    PM_HEEDS_PIN = 0x9C,       /* only its CONTROL pin does: bits 4 and 2 are 1, and bit 3 is 0 */
    PM_HEEDS_NEITHER = 0x9D    /* nothing but its supply does */
};
static inline uint8_t pm_heeds_operation(uint8_t byte) {
    return (byte & 0x18) == 0x18 ? PM_HEEDS_OPERATION : (byte & 0x14) == 0x14 ? PM_HEEDS_PIN : PM_HEEDS_NEITHER;
}

/* Whether a verdict is that the rail delivers, of a part without STATUS_WORD by its READ_VOUT, or went off after an order that turned it off;
 * and whether nothing was to be delivered: the output is commanded off, and a rail that is to be on isn't up. */
static inline int pm_is_delivered(uint8_t verdict) {
    return verdict == PM_DELIVERS || verdict == PM_DELIVERS_BY_READ_VOUT || verdict == PM_WENT_OFF;
}
static inline int pm_has_nothing_to_deliver(uint8_t verdict) { return verdict == PM_COMMANDED_OFF; }

/* Hears what a sequence says: its answer is PM_WAIT, PM_ASKED, PM_TOLD or PM_NO_WAY_BACK, and sequence->said says the rest. 0 stops the loop
 * there; any other number lets it go on. */
typedef int (*pm_said)(void *context, const pm_sequence *sequence, uint8_t answer);

/* Carries a list of steps out, frame after frame, by an array of hosts: the context at the place of a host is handed to `write`, `read`,
 * `pause` and `told` for its bus. `told` may be NULL. It answers PM_ENDED, the number at which `told` stopped it (called again it goes on),
 * or a refusal; PM_NO_STEP also if a step names a host that isn't there. */
PM_MUST_USE
static inline uint8_t pm_run_sequence(pm_sequence *sequence, pm_host *const *hosts, void *const *contexts, uint64_t host_count,
                                      const pm_sequence_step *steps, uint64_t count, pm_sequence_record *records, uint64_t room,
                                      pm_write write, pm_read read, pm_wait_ms pause, pm_said told) {
    pm_sending frame;
    uint8_t answer[8], at, number;
    while ((at = sequence->host) < host_count) {
        number = pm_sequence_next(sequence, hosts[at], steps, count, records, room, &frame);
        if (number == PM_OK && frame.kind == PM_WRITE)
            (void)pm_sequence_write_ended(sequence, hosts[at], pm_was_acked(&frame, write, contexts[at]));
        else if (number == PM_OK)
            (void)pm_sequence_read_ended(sequence, hosts[at], answer, pm_answer(&frame, answer, read, contexts[at]));
        else if (number < PM_AGAIN || number > PM_TOLD)
            return number;
        else if (number != PM_AGAIN && told && !told(contexts[at], sequence, number))
            return number;
        if (number == PM_WAIT)
            pause(contexts[at], sequence->said.milliseconds);
    }
    return PM_NO_STEP;
}
#endif

#ifdef __cplusplus
}
#endif

#endif
