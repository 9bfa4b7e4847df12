/* Groups of eight slots and a merge byte, and the shape of a memory: what the meter and the signed meter in plain C share. */
#ifndef GROUP_H
#define GROUP_H

#include <stddef.h>
#include <stdint.h>
#include <string.h>

/* By level: all bits of a counter that starts at slot 0, and the merge bits of such a block. */
static const uint64_t most[4] = {0xff, 0xffff, 0xffffffff, UINT64_MAX};
static const uint8_t bits_within[4] = {0x00, 0x01, 0x07, 0x7f};

static inline uint64_t load(const uint8_t *counts) {
    uint64_t word;
    memcpy(&word, counts, 8);
    return word;
}

static inline void store(uint8_t *counts, uint64_t word) { memcpy(counts, &word, 8); }

/* In a valid layout a slot's level is how many blocks around it are merged. */
static inline unsigned level_of(unsigned merge, unsigned k) {
    return (merge >> (k & 6) & 1) + (merge >> ((k & 4) + 1) & 1) + (merge >> 3 & 1);
}

/* Eight groups of each of two rows, by their merge bytes taken as one word: whether none is merged. */
static inline int none_merged(const uint8_t *ma, const uint8_t *mb) { return (load(ma) | load(mb)) == 0; }

static inline uint32_t bad_geometry(size_t d, size_t w) {
    if (d < 1 || d > 8)
        return 1;
    return w < 32 || w > 16384 || (w & (w - 1)) != 0 ? 2 : 0;
}

static inline uint32_t bad_length(size_t d, size_t w, size_t len) { return len != d * (w + w / 8) ? 3 : 0; }

#endif
