#include "hash.h"

#include <emmintrin.h>

#include "fnv.h"

void hash_lanes(uint32_t *slot, size_t d, size_t w, const uint8_t *key, size_t key_len) { key_slots(slot, d, w, key, key_len); }

/* The hashes of two rows, each in the low half of 64 bits: a product takes no more than that half. */
static inline __m128i two_rows(uint32_t first) {
    return _mm_set_epi64x(fnv_step(2166136261u, first + 1), fnv_step(2166136261u, first));
}

static inline __m128i two_steps(__m128i h, __m128i byte) {
    return _mm_mul_epu32(_mm_xor_si128(h, byte), _mm_set1_epi64x(16777619));
}

static inline void put_four(uint32_t *slot, __m128i a, __m128i b, unsigned shift) {
    __m128i four = _mm_castps_si128(_mm_shuffle_ps(_mm_castsi128_ps(a), _mm_castsi128_ps(b), 0x88));
    _mm_storeu_si128((__m128i *)slot, _mm_srl_epi32(four, _mm_cvtsi32_si128((int)shift)));
}

void hash_pairs(uint32_t *slot, size_t d, size_t w, const uint8_t *key, size_t key_len) {
    unsigned shift = 32 - (unsigned)__builtin_ctzl(w);
    if (d == 1) {
        key_slots(slot, 1, w, key, key_len);
        return;
    }
    __m128i a = two_rows(0), b = two_rows(2), c = two_rows(4), e = two_rows(6);
    if (d <= 4) {
        for (size_t i = 0; i < key_len; i++) {
            __m128i byte = _mm_set1_epi64x(key[i]);
            a = two_steps(a, byte);
            b = two_steps(b, byte);
        }
        put_four(slot, a, b, shift);
        return;
    }
    for (size_t i = 0; i < key_len; i++) {
        __m128i byte = _mm_set1_epi64x(key[i]);
        a = two_steps(a, byte);
        b = two_steps(b, byte);
        c = two_steps(c, byte);
        e = two_steps(e, byte);
    }
    put_four(slot, a, b, shift);
    put_four(slot + 4, c, e, shift);
}
