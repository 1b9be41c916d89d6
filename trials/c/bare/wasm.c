/* Console for WebAssembly, and the three functions on 128 bits that the library wants there. C's convention returns a
 * struct of two numbers in memory, and the library rewritten to 32 bits in one number, as on the processor that it was
 * made for: a caller in C goes by the eight functions here, one in JavaScript takes the number apart. */
#include "console.h"
#include "pmhost.h"

__attribute__((import_module("console"), import_name("put"))) void imported_put(const char *text);
__attribute__((import_module("console"), import_name("end"))) void imported_end(int status);

void console_put(const char *text) {
    imported_put(text);
}

void console_end(int status) {
    imported_end(status);
}

#ifdef __wasm32__
uint32_t told_write(pm_host *host, uint32_t acked) __asm__("pm_host_write_ended");
uint32_t told_read(pm_host *host, const uint8_t *bytes, uint64_t count) __asm__("pm_host_read_ended");
uint32_t told_course_write(pm_course *course, pm_host *host, uint32_t acked) __asm__("pm_course_write_ended");
uint32_t told_course_read(pm_course *course, pm_host *host, const uint8_t *bytes, uint64_t count) __asm__("pm_course_read_ended");
uint32_t told_course_on(pm_course *course, pm_host *host, uint32_t acked, uint32_t stops, pm_sending *sending) __asm__("pm_course_after_write");
uint32_t told_course_by(pm_course *course, pm_host *host, const uint8_t *bytes, uint64_t count, uint32_t stops, pm_sending *sending)
    __asm__("pm_course_after_read");
uint32_t told_list_write(pm_sequence *sequence, pm_host *host, uint32_t acked) __asm__("pm_sequence_write_ended");
uint32_t told_list_read(pm_sequence *sequence, pm_host *host, const uint8_t *bytes, uint64_t count) __asm__("pm_sequence_read_ended");

static pm_step step_of(uint32_t number) {
    pm_step step = {(uint16_t)number, (uint16_t)(number >> 16)};
    return step;
}

pm_step step_of_write(pm_host *host, uint8_t acked) {
    return step_of(told_write(host, acked));
}

pm_step step_of_read(pm_host *host, const uint8_t *bytes, uint64_t count) {
    return step_of(told_read(host, bytes, count));
}

pm_step step_of_course_write(pm_course *course, pm_host *host, uint8_t acked) {
    return step_of(told_course_write(course, host, acked));
}

pm_step step_of_course_read(pm_course *course, pm_host *host, const uint8_t *bytes, uint64_t count) {
    return step_of(told_course_read(course, host, bytes, count));
}

pm_step step_after_course_write(pm_course *course, pm_host *host, uint8_t acked, uint8_t stops, pm_sending *sending) {
    return step_of(told_course_on(course, host, acked, stops, sending));
}

pm_step step_after_course_read(pm_course *course, pm_host *host, const uint8_t *bytes, uint64_t count, uint8_t stops, pm_sending *sending) {
    return step_of(told_course_by(course, host, bytes, count, stops, sending));
}

pm_step step_of_sequence_write(pm_sequence *sequence, pm_host *host, uint8_t acked) {
    return step_of(told_list_write(sequence, host, acked));
}

pm_step step_of_sequence_read(pm_sequence *sequence, pm_host *host, const uint8_t *bytes, uint64_t count) {
    return step_of(told_list_read(sequence, host, bytes, count));
}
#endif

typedef unsigned __int128 wide;
typedef union { struct { uint64_t low, high; } part; wide whole; } parts;

wide __ashlti3(wide number, int by) {
    parts from = {.whole = number}, to;
    to.part.low = by >= 64 ? 0 : from.part.low << by;
    to.part.high = by == 0 ? from.part.high : by >= 64 ? from.part.low << (by - 64) : from.part.high << by | from.part.low >> (64 - by);
    return to.whole;
}

wide __lshrti3(wide number, int by) {
    parts from = {.whole = number}, to;
    to.part.high = by >= 64 ? 0 : from.part.high >> by;
    to.part.low = by == 0 ? from.part.low : by >= 64 ? from.part.high >> (by - 64) : from.part.low >> by | from.part.high << (64 - by);
    return to.whole;
}

wide __multi3(wide left, wide right) {
    parts a = {.whole = left}, b = {.whole = right}, to;
    uint64_t a0 = a.part.low & 0xFFFFFFFF, a1 = a.part.low >> 32, b0 = b.part.low & 0xFFFFFFFF, b1 = b.part.low >> 32;
    uint64_t low = a0 * b0, middle = a1 * b0 + (low >> 32), other = a0 * b1 + (middle & 0xFFFFFFFF);
    to.part.low = other << 32 | (low & 0xFFFFFFFF);
    to.part.high = a1 * b1 + (middle >> 32) + (other >> 32) + a.part.low * b.part.high + a.part.high * b.part.low;
    return to.whole;
}
