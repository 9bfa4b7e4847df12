/* The meter's rule in plain C, for comparison alone: not proved, and no part of the product. Signatures and numbers as in
 * include/meter.h. For machines that store the low byte first. */
#ifndef SALSA_H
#define SALSA_H

#include <stddef.h>
#include <stdint.h>

uint32_t salsa_clear(size_t d, size_t w, uint8_t *memory, size_t memory_len, uint64_t *place, uint64_t *figure);
uint32_t salsa_update(size_t d, size_t w, uint8_t *memory, size_t memory_len, const uint8_t *key, size_t key_len,
                      uint32_t amount, uint64_t *place, uint64_t *figure);
uint32_t salsa_estimate(size_t d, size_t w, const uint8_t *memory, size_t memory_len, const uint8_t *key, size_t key_len,
                        uint64_t *place, uint64_t *figure);
uint32_t salsa_unite(size_t d, size_t w, uint8_t *memory, size_t memory_len, const uint8_t *source, size_t source_len,
                     uint64_t *place, uint64_t *figure);
uint32_t salsa_image_write(size_t d, size_t w, const uint8_t *memory, size_t memory_len, uint32_t *words, size_t words_len,
                           uint64_t *place, uint64_t *figure);
uint32_t salsa_image_read(size_t d, size_t w, uint8_t *memory, size_t memory_len, const uint32_t *words, size_t words_len,
                          uint64_t *place, uint64_t *figure);
uint32_t salsa_feed_record(size_t d, size_t w, uint8_t *memory, size_t memory_len, uint64_t before, const uint32_t *words,
                           size_t words_len, uint64_t *place, uint64_t *figure);

#endif
