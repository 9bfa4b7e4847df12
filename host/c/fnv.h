/* A key's slot in each row: 32-bit FNV-1a with the row number first, high bits. Shared by the meters for comparison. Four rows
 * advance side by side, as in the proved code: no multiplication of one waits for another's. Where only one or two rows are left,
 * only these are hashed. */
#ifndef FNV_H
#define FNV_H

#include <stddef.h>
#include <stdint.h>

static inline uint32_t fnv_step(uint32_t h, uint32_t byte) { return (h ^ byte) * 16777619u; }

/* Slots of so many rows from the first on, 1 to 4; for 3 the fourth is written too. The first is a constant where this is inlined:
 * where the compiler does not know it, it takes vector registers for four rows, which is slower, as SSE2 has no product of four
 * 32-bit numbers. */
static inline void lane_slots(uint32_t *slot, uint32_t first, size_t rows, unsigned shift, const uint8_t *key, size_t key_len) {
    uint32_t a = fnv_step(2166136261u, first), b = fnv_step(2166136261u, first + 1);
    uint32_t c = fnv_step(2166136261u, first + 2), d = fnv_step(2166136261u, first + 3);
    if (rows == 1) {
        for (size_t i = 0; i < key_len; i++)
            a = fnv_step(a, key[i]);
    } else if (rows == 2) {
        for (size_t i = 0; i < key_len; i++) {
            a = fnv_step(a, key[i]);
            b = fnv_step(b, key[i]);
        }
        slot[1] = b >> shift;
    } else {
        for (size_t i = 0; i < key_len; i++) {
            a = fnv_step(a, key[i]);
            b = fnv_step(b, key[i]);
            c = fnv_step(c, key[i]);
            d = fnv_step(d, key[i]);
        }
        slot[1] = b >> shift;
        slot[2] = c >> shift;
        slot[3] = d >> shift;
    }
    slot[0] = a >> shift;
}

static inline void shifted_hashes(uint32_t *hash, size_t d, unsigned shift, const uint8_t *key, size_t key_len) {
    lane_slots(hash, 0, d, shift, key, key_len);
    if (d > 4)
        lane_slots(hash + 4, 4, d - 4, shift, key, key_len);
}

/* How far a hash is shifted to the right for the slot in a row of w. */
static inline unsigned slot_shift(size_t w) { return 32 - (unsigned)__builtin_ctzl(w); }

/* Slots of the first d rows, 1 to 8. There is room for 8. */
static inline void key_slots(uint32_t *slot, size_t d, size_t w, const uint8_t *key, size_t key_len) {
    shifted_hashes(slot, d, slot_shift(w), key, key_len);
}

/* The whole hashes. */
static inline void key_hashes(uint32_t *hash, size_t d, const uint8_t *key, size_t key_len) {
    shifted_hashes(hash, d, 0, key, key_len);
}

#endif
