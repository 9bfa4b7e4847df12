/* The same program over the proved library or, compiled with -DPLAIN, over the plain C version: call(update) is either's. And what such
 * programs give them: numbers from a seed, keys, records, and meters with nothing merged or with every layout. */
#ifndef EITHER_H
#define EITHER_H

#include <stddef.h>
#include <stdint.h>

#ifdef PLAIN
#include "salsa.h"
#include "signed.h"
#define call(name) salsa_##name
#else
#include "meter.h"
#define call(name) meter_##name
#endif

/* SplitMix64. */
static uint64_t seed = 7;

static inline uint64_t draw(void) {
    uint64_t z = seed += 0x9e3779b97f4a7c15;
    z = (z ^ z >> 30) * 0xbf58476d1ce4e5b9;
    z = (z ^ z >> 27) * 0x94d049bb133111eb;
    return z ^ z >> 31;
}

/* A packet's bytes, 64 to 1,500. */
static inline uint32_t packet(void) { return 64 + (uint32_t)(draw() % 1437); }

/* The record of an update, or of a query if the amount is null; how many words it has. */
static inline size_t make_record(uint32_t *words, const uint8_t *key, size_t key_len, const uint32_t *amount) {
    size_t n = 0;
    words[n++] = (amount ? 5u : 6u) << 28 | (uint32_t)key_len;
    for (size_t i = 0; i < key_len; i += 3) {
        uint32_t payload = (uint32_t)key[i] << 16;
        if (i + 1 < key_len)
            payload |= (uint32_t)key[i + 1] << 8;
        if (i + 2 < key_len)
            payload |= key[i + 2];
        words[n++] = 7u << 28 | payload;
    }
    if (amount) {
        words[n++] = 8u << 28 | *amount >> 16;
        words[n++] = 8u << 28 | (*amount & 0xffff);
    }
    return n;
}

/* A meter with nothing merged or with every layout, whose union with another such meter is accepted. */
static inline void fill(size_t d, size_t w, uint8_t *memory, int all_levels) {
    static const uint8_t merges[26] = {0x00, 0x40, 0x10, 0x50, 0x70, 0x04, 0x44, 0x14, 0x54, 0x74, 0x01, 0x41, 0x11,
                                       0x51, 0x71, 0x05, 0x45, 0x15, 0x55, 0x75, 0x07, 0x47, 0x17, 0x57, 0x77, 0x7f};
    for (size_t r = 0; r < d; r++, memory += w + w / 8)
        for (size_t g = 0; g < w / 8; g++) {
            uint8_t merge = all_levels ? merges[draw() % 26] : 0;
            for (size_t k = 0; k < 8; k++)
                memory[8 * g + k] = (uint8_t)(all_levels ? draw() : draw() % 128);
            if (merge == 0x7f)
                memory[8 * g + 7] /= 2;
            memory[w + g] = merge;
        }
}

/* The same of signed meters, for sums and differences: odd magnitudes, so that none is minus zero, of either sign. */
static inline void fill_signed(size_t d, size_t w, uint8_t *memory, int all_levels) {
    fill(d, w, memory, all_levels);
    for (size_t r = 0; r < d; r++, memory += w + w / 8)
        for (size_t k = 0; k < w; k++) {
            int whole = memory[w + k / 8] == 0x7f && k % 8 == 7;
            if (!all_levels || whole)
                memory[k] = (uint8_t)draw() & 0xbf;
            memory[k] |= 1;
        }
}

#endif
