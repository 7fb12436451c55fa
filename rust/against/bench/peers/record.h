/* A record of the node table, read; and what reading one node adds to the sum that every side answers. */
#ifndef BENCH_RECORD_H
#define BENCH_RECORD_H

#include "../../../../include/osc.h"
#include <string.h>

typedef struct {
    uint8_t kind;
    uint32_t end, a, b;
} peer_record;

static inline uint32_t peer_word(const uint8_t *p) {
    return (uint32_t)p[0] << 24 | (uint32_t)p[1] << 16 | (uint32_t)p[2] << 8 | p[3];
}

static inline uint64_t peer_pair(uint32_t high, uint32_t low) { return (uint64_t)high << 32 | low; }

static inline peer_record peer_record_at(const uint8_t *table, size_t index) {
    const uint8_t *p = table + OSC_RECORD * index;
    peer_record r = {p[0], peer_word(p + 4), peer_word(p + 8), peer_word(p + 12)};
    return r;
}

/* The length and the last byte of a range. */
static inline uint64_t peer_range(const void *bytes, size_t n) {
    return n == 0 ? 0 : n + ((const uint8_t *)bytes)[n - 1];
}

static inline uint64_t peer_text(const char *text) { return peer_range(text, strlen(text)); }

static inline uint32_t peer_float(float x) {
    uint32_t bits;
    memcpy(&bits, &x, 4);
    return bits;
}

static inline uint64_t peer_double(double x) {
    uint64_t bits;
    memcpy(&bits, &x, 8);
    return bits;
}

static inline float peer_as_float(uint32_t bits) {
    float x;
    memcpy(&x, &bits, 4);
    return x;
}

static inline double peer_as_double(uint64_t bits) {
    double x;
    memcpy(&x, &bits, 8);
    return x;
}

#endif
