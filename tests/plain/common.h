/* Regions compared; little-endian numbers, whole lines and setup records in byte buffers. */
#ifndef PLAIN_COMMON_H
#define PLAIN_COMMON_H

#include <string.h>

#include "plain.h"

static inline int same(plain_region a, plain_region b) { return a.thread == b.thread && a.number == b.number; }

/* Rising by thread, then number. */
static inline int before(plain_region a, plain_region b) {
    return a.thread != b.thread ? a.thread < b.thread : a.number < b.number;
}

static inline uint16_t get16(const uint8_t *bytes) { return (uint16_t)(bytes[0] | bytes[1] << 8); }

static inline void put16(uint8_t *bytes, uint16_t value) {
    bytes[0] = (uint8_t)value;
    bytes[1] = (uint8_t)(value >> 8);
}

static inline uint64_t get64(const uint8_t *bytes) {
    uint64_t value = 0;
    for (int i = 7; i >= 0; i--) value = value << 8 | bytes[i];
    return value;
}

static inline void put64(uint8_t *bytes, uint64_t value) {
    for (int i = 0; i < 8; i++) bytes[i] = (uint8_t)(value >> 8 * i);
}

static inline plain_line get_line(const uint8_t *bytes) {
    plain_line line;
    for (int w = 0; w < PLAIN_WORDS; w++) line.word[w] = get64(bytes + 8 * w);
    return line;
}

static inline void put_line(uint8_t *bytes, plain_line line) {
    for (int w = 0; w < PLAIN_WORDS; w++) put64(bytes + 8 * w, line.word[w]);
}

static inline void put_setup(uint8_t *record, uint8_t threads, uint16_t lines, const uint8_t *shares) {
    record[0] = EVENT_SETUP;
    record[1] = threads;
    put16(record + 2, lines);
    memcpy(record + 4, shares, PLAIN_SHARES);
}

#endif
