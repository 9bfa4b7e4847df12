/* The hash alone, to be measured: the slots of a key in the first d rows. There is room for 8 slots. */
#ifndef HASH_H
#define HASH_H

#include <stddef.h>
#include <stdint.h>

/* As in the two meters for comparison: four rows side by side. */
void hash_lanes(uint32_t *slot, size_t d, size_t w, const uint8_t *key, size_t key_len);

/* By hand, with the vector instructions that every x86-64 has: two rows to a register. */
void hash_pairs(uint32_t *slot, size_t d, size_t w, const uint8_t *key, size_t key_len);

#endif
