/* What the two files of a part share. */
#ifndef PM_FIELD_RAILS_H
#define PM_FIELD_RAILS_H

#include "field.h"

/* Bits of STATUS_VOUT. */
enum { VOUT_OV_FAULT = 0x80, VOUT_OV_WARNING = 0x40, VOUT_UV_WARNING = 0x20, VOUT_UV_FAULT = 0x10, VOUT_MAX_MIN = 0x08 };

/* What a word of an output is in microvolts. */
int64_t field_microvolts(uint16_t word);

/* The voltage that a rail is at now. */
int64_t field_voltage(const field_part *part, const field_output *out);

/* Each rail goes where it is commanded, and trips where a fault limit says so. */
void field_settle(field_part *part);

/* An output trips, with this bit of STATUS_VOUT. */
void field_trip(field_part *part, field_output *out, uint16_t bit);

/* An output gets a byte of OPERATION, as of another master. */
void field_order(field_part *part, uint8_t output, uint8_t byte);

/* The packet error code of bytes behind those that gave `crc`. */
uint8_t field_pec(const uint8_t *bytes, uint64_t count, uint8_t crc);

#endif
