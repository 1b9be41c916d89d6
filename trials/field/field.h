/* A part as parts are in the field: the proved model part of pmpart.h below, and in front of it what data sheets say beside the
 * registers of a host: fault limits that trip a rail, a RUN pin and ON_OFF_CONFIG, what the rail does (STATUS_WORD, READ_VOUT,
 * power good, ramps), busy times, a packet error code that may be left out, words that are rounded or clamped, registers that are
 * missing, no PAGE_PLUS, pins over the user store, RESTORE as a reset, restarts, and a bus that goes away. ULINEAR16 alone.
 *
 * It is for tests: nothing here is proved, and nothing of it is a particular part. One layer for C, Rust, Python and pmhost: it is linked
 * with libpm_device_c, or loaded beside a library that has it. */
#ifndef PM_FIELD_H
#define PM_FIELD_H

#include "pmpart.h"

#ifdef __cplusplus
extern "C" {
#endif

#define FIELD_OUTPUTS 8
#define FIELD_ANSWER 40

/* What became of a frame: it was acknowledged, its address wasn't, or a byte behind that wasn't. */
enum { FIELD_ACKED = 0, FIELD_UNHEARD = 1, FIELD_REFUSED = 2 };

/* What a busy part does: it doesn't acknowledge its address, or a byte behind it; or it drops writes and reads as ones. */
enum { FIELD_DEAF = 0, FIELD_REFUSES = 1, FIELD_ONES = 2 };

/* An output, the words in its format, times in milliseconds. */
typedef struct {
    uint16_t ov_fault, ov_warn, uv_warn, uv_fault, good_on, good_off, on_off_config;
    uint16_t ton_delay, ton_rise, ton_max;   /* in LINEAR11; FFFFh where it has none */
    uint16_t trim, offset;  /* VOUT_TRIM and VOUT_CAL_OFFSET, two's complement, in the format of the output */
} field_words;

typedef struct {
    field_words held, stored;
    uint16_t is_run_low;    /* the RUN pin is held low */
    uint16_t is_good_low;   /* POWER_GOOD is pulled low by something else on the board */
    uint16_t pin_command;   /* the word of VOUT_COMMAND that pins give at a start; 0 where none do */
    uint16_t on_ms, off_ms, ramp_ms; /* how long it goes up, coasts down and moves */
    uint16_t good_ms;       /* how long after its voltage is good it says so */
    uint16_t reserved;      /* the bits of OPERATION that read 1 whatever was written */
    uint16_t is_off_early;  /* 1 where it says OFF as it is turned off, though it coasts */
    uint32_t trip_at;       /* it trips before the frame behind so many of its bus, 0 for never */
    int16_t error;          /* how many words READ_VOUT is above the voltage */
    uint16_t has_tripped, has_been_good;
    uint16_t vout, iout, input, temperature;   /* what is latched of STATUS_VOUT to STATUS_TEMPERATURE */
    int64_t from, to;       /* the voltage in microvolts at the two ends of its ramp */
    uint64_t since, until;  /* the times of these ends in microseconds */
    uint64_t good_at;       /* when its voltage became good */
} field_output;

typedef struct {
    pm_part chip;
    uint64_t now;           /* the time in microseconds, which the caller puts on */
    uint64_t ready;         /* until when it is busy */
    uint64_t boots_until;   /* until when it hears nothing */
    uint32_t transfers, writes, stores, questions;   /* how many came, and how many while it was busy */
    uint32_t frames;        /* how many were sent to it, whether it heard them or not */
    uint32_t restart_at;    /* it restarts before the frame behind so many; 0 for never */
    uint32_t other_at;      /* another master orders before that frame, 0 for never: this byte of OPERATION of output 0 */
    uint16_t other_byte, boot_ms; /* how long it hears nothing after a restart */
    uint16_t store_cml;     /* the bits of STATUS_CML with which a store fails, 0 where it doesn't */
    uint32_t away_at_write, away_for, away_until; /* the bus goes away as this write comes, 0 for never, for so many frames */
    uint16_t busy_ms, store_ms, restore_ms, busy_kind;
    uint16_t config_all;    /* MFR_CONFIG_ALL: bit 2 has the packet error code required */
    uint16_t step;          /* voltages are rounded down to a multiple of it; 1 for none */
    uint16_t clamps;        /* 1 where VOUT_COMMAND and the margins are clamped to VOUT_MIN and VOUT_MAX as they are written */
    uint16_t transfer_us;   /* how long a transfer takes, for callers that have no clock */
    uint16_t gone_code;     /* it has this code no more, or none at all (100h), once it heard so many writes, or so many frames were sent; 0 for never */
    uint16_t gone_at_write, gone_at_frame;
    uint16_t back_at_frame, lost_at_frame; /* it has it again once so many were sent, and no more once so many were; 0 for never */
    uint16_t no_page_plus;  /* 1 where it acknowledges no PAGE_PLUS packet, 2 where it does and answers ones */
    uint16_t no_pec;        /* 1 where ones stand in the place of an answer's packet error code */
    uint16_t was_busy, cml;
    uint8_t address, outputs, mode, unused;
    uint32_t lacks[8];      /* a bit for each code that isn't acknowledged */
    field_output out[FIELD_OUTPUTS];
} field_part;

uint64_t field_size(void);

/* A part whose outputs are on at 1 V; VOUT_MAX is 4 V, the margins 1.0625 V and 0.9375 V, and no limit is near. 0, or as pm_part_new. */
uint8_t field_new(field_part *part, uint8_t address, uint8_t outputs);

/* Sets what has this name, a register or a field above; - for the device is any output. `lacks` takes a code. 0, or 1 where there is none.
 * A register is held then, and in the user store; `stored_trim` is VOUT_TRIM of the store alone. field_get tells it, and `microvolts`, which the rail is at. */
uint8_t field_set(field_part *part, uint8_t output, const char *name, int64_t value);
uint8_t field_get(field_part *part, uint8_t output, const char *name, int64_t *value);

/* It hears a frame, which a repeated start ends where `is_request` isn't 0. The answer has the read address first. */
uint8_t field_hear(field_part *part, const uint8_t *bytes, uint64_t count, uint8_t is_request, uint8_t *answer, uint64_t *length);

/* It restarts, as after a loss of its supply. */
void field_restart(field_part *part);

/* The bus of pmhost.h's loops, whose context is a part: an acknowledgement is A5h. The time goes on by a transfer. */
uint8_t field_write(void *context, const uint8_t *bytes, uint64_t count);
uint64_t field_read(void *context, const uint8_t *request, uint64_t count, uint8_t *answer, uint64_t room);

#ifdef __cplusplus
}
#endif

#endif
