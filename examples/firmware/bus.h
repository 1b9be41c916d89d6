/* The bus as the firmware sees it: four functions, which a driver for a board's I2C controller has. Frames have the
 * address byte first, as the bus carries them; the PEC is data. */
#ifndef BUS_H
#define BUS_H

#include "pmhost.h"
#include <stdint.h>

/* Writes a frame of `count` bytes, which a stop ends: PM_ACKED where every byte was acknowledged, PM_UNHEARD where nobody
 * acknowledged the address, otherwise PM_NOT_ACKED. */
uint8_t bus_write(const uint8_t *frame, unsigned count);

/* Writes a request of `count` bytes, then after a repeated start and the read address reads what the part sends,
 * `wanted` bytes. How many are there in the end, 0 where the part didn't answer. */
unsigned bus_read(const uint8_t *request, unsigned count, uint8_t *answer, unsigned wanted);

/* Waits for so many milliseconds, as HAL_Delay() or k_msleep() does. */
void bus_wait(uint32_t milliseconds);

/* Milliseconds of a clock that nobody sets, as HAL_GetTick() or k_uptime_get_32(). */
uint32_t bus_clock(void);

#endif
