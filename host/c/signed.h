/* The signed meter's rule in plain C, for comparison alone, as salsa.h has the meter's. */
#ifndef SIGNED_H
#define SIGNED_H

#include <stddef.h>
#include <stdint.h>

uint32_t salsa_signed_clear(size_t d, size_t w, uint8_t *memory, size_t memory_len, uint64_t *place, uint64_t *figure);
uint32_t salsa_signed_update(size_t d, size_t w, uint8_t *memory, size_t memory_len, const uint8_t *key, size_t key_len,
                             int32_t amount, uint64_t *place, uint64_t *figure);
uint32_t salsa_signed_estimate(size_t d, size_t w, const uint8_t *memory, size_t memory_len, const uint8_t *key, size_t key_len,
                               uint64_t *place, int64_t *figure);
uint32_t salsa_signed_unite(size_t d, size_t w, uint8_t *memory, size_t memory_len, const uint8_t *source, size_t source_len,
                            uint64_t *place, uint64_t *figure);
uint32_t salsa_signed_subtract(size_t d, size_t w, uint8_t *memory, size_t memory_len, const uint8_t *source, size_t source_len,
                               uint64_t *place, uint64_t *figure);

#endif
