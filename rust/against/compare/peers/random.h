/* What both programs share: random numbers from a seed, texts, and writing a packet after its length. */
#ifndef PEERS_RANDOM_H
#define PEERS_RANDOM_H

#include <stdint.h>
#include <stdio.h>
#include <stdlib.h>

static uint64_t state;

static void start(const char *seed) { state = strtoull(seed, NULL, 10) * 0x9E3779B97F4A7C15u | 1; }

static uint64_t next(void) {
    state ^= state >> 12;
    state ^= state << 25;
    state ^= state >> 27;
    return state * 0x2545F4914F6CDD1Du;
}

static unsigned below(unsigned n) { return (unsigned)((next() >> 16) % n); }

static const char *const ADDRESSES[] = {"/", "/a", "/ab", "/abc", "/cue/1/go", "/mixer/channel/12/fader", "/\xC3\xA9"};
static const char *const TEXTS[] = {"", "a", "ab", "abc", "abcd", "a longer text, with spaces", "\xE6\x97\xA5\xE6\x9C\xAC",
                                    "\xF0\x9F\x98\x80"};

static const char *address(void) { return ADDRESSES[below(sizeof ADDRESSES / sizeof *ADDRESSES)]; }
static const char *text(void) { return TEXTS[below(sizeof TEXTS / sizeof *TEXTS)]; }

/* Any bits of a float or double. */
static float any_float(void) {
    union { uint32_t bits; float value; } x;
    x.bits = (uint32_t)next();
    return x.value;
}
static double any_double(void) {
    union { uint64_t bits; double value; } x;
    x.bits = next();
    return x.value;
}

static void put(const void *packet, size_t size) {
    for (int shift = 24; shift >= 0; shift -= 8) putchar((int)(size >> shift & 0xFF));
    fwrite(packet, 1, size, stdout);
}

#endif
