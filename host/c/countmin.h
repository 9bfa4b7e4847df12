/* A plain Count-Min meter with counters of 64 bits, for comparison alone: d rows of w counters, hashed by the same rule. */
#ifndef COUNTMIN_H
#define COUNTMIN_H

#include <stddef.h>
#include <stdint.h>

void countmin_update(size_t d, size_t w, uint64_t *counters, const uint8_t *key, size_t key_len, uint32_t amount);
uint64_t countmin_estimate(size_t d, size_t w, const uint64_t *counters, const uint8_t *key, size_t key_len);
void countmin_unite(size_t d, size_t w, uint64_t *counters, const uint64_t *source);

#endif
