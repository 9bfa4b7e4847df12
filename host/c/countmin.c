#include "countmin.h"

#include "fnv.h"

void countmin_update(size_t d, size_t w, uint64_t *counters, const uint8_t *key, size_t key_len, uint32_t amount) {
    uint32_t slot[8];
    key_slots(slot, d, w, key, key_len);
    for (size_t r = 0; r < d; r++)
        counters[r * w + slot[r]] += amount;
}

uint64_t countmin_estimate(size_t d, size_t w, const uint64_t *counters, const uint8_t *key, size_t key_len) {
    uint32_t slot[8];
    key_slots(slot, d, w, key, key_len);
    uint64_t least = UINT64_MAX;
    for (size_t r = 0; r < d; r++)
        if (counters[r * w + slot[r]] < least)
            least = counters[r * w + slot[r]];
    return least;
}

void countmin_unite(size_t d, size_t w, uint64_t *counters, const uint64_t *source) {
    for (size_t i = 0; i < d * w; i++)
        counters[i] += source[i];
}
