#include "salsa.h"

#include <string.h>

#include "fnv.h"
#include "group.h"

/* By merge byte: its layout code and one, or 0 where it is not valid. Left half by left half, so code = left * 5 + right. */
static const uint8_t code_and_one[256] = {
    [0x00] = 1,  [0x40] = 2,  [0x10] = 3,  [0x50] = 4,  [0x70] = 5,  [0x04] = 6,  [0x44] = 7,  [0x14] = 8,  [0x54] = 9,
    [0x74] = 10, [0x01] = 11, [0x41] = 12, [0x11] = 13, [0x51] = 14, [0x71] = 15, [0x05] = 16, [0x45] = 17, [0x15] = 18,
    [0x55] = 19, [0x75] = 20, [0x07] = 21, [0x47] = 22, [0x17] = 23, [0x57] = 24, [0x77] = 25, [0x7f] = 26,
};

static const uint8_t merge_of[26] = {
    0x00, 0x40, 0x10, 0x50, 0x70, 0x04, 0x44, 0x14, 0x54, 0x74, 0x01, 0x41, 0x11,
    0x51, 0x71, 0x05, 0x45, 0x15, 0x55, 0x75, 0x07, 0x47, 0x17, 0x57, 0x77, 0x7f,
};

/* The words of a group's counters in an image, by layout code. */
static const uint8_t words_of[26] = {8, 7, 7, 6, 6, 7, 6, 6, 5, 5, 7, 6, 6, 5, 5, 6, 5, 5, 4, 4, 6, 5, 5, 4, 4, 3};

/* By level: the words of a counter in an image, and the limit of the first of them. */
static const uint8_t parts[4] = {1, 1, 2, 3};
static const uint32_t first_limit[4] = {1u << 8, 1u << 16, 1u << 8, 1u << 16};

enum { KIND_HEAD = 1, KIND_LAYOUT, KIND_COUNT, KIND_END, KIND_UPDATE, KIND_ASK, KIND_KEY, KIND_AMOUNT };

/* The sum of all counters in a block of level n. */
static inline uint64_t total(uint64_t word, unsigned merge, unsigned first, unsigned n) {
    uint64_t sum = 0;
    for (unsigned k = first, end = first + (1u << n); k < end;) {
        unsigned l = level_of(merge, k);
        sum += word >> 8 * k & most[l];
        k += 1u << l;
    }
    return sum;
}

static uint32_t bad_shape(size_t d, size_t w, size_t len) {
    uint32_t bad = bad_geometry(d, w);
    return bad ? bad : bad_length(d, w, len);
}

static inline uint32_t refuse(uint32_t number, size_t at, uint64_t *place) {
    *place = at;
    return number;
}

uint32_t salsa_clear(size_t d, size_t w, uint8_t *memory, size_t memory_len, uint64_t *place, uint64_t *figure) {
    *place = *figure = 0;
    uint32_t bad = bad_shape(d, w, memory_len);
    if (bad)
        return bad;
    memset(memory, 0, memory_len);
    return 0;
}

static void add(uint8_t *counts, uint8_t *merge, unsigned k, uint32_t amount) {
    uint64_t word = load(counts);
    unsigned m = *merge;
    unsigned n = level_of(m, k);
    unsigned first = k >> n << n;
    uint64_t sum = (word >> 8 * first & most[n]) + amount;
    while (sum > most[n]) {
        sum += total(word, m, first ^ (1u << n), n);
        n++;
        first = k >> n << n;
        m |= (unsigned)bits_within[n] << first;
    }
    store(counts, (word & ~(most[n] << 8 * first)) | sum << 8 * first);
    *merge = (uint8_t)m;
}

static uint32_t update(size_t d, size_t w, uint8_t *memory, const uint8_t *key, size_t key_len, uint32_t amount) {
    uint32_t slot[8];
    key_slots(slot, d, w, key, key_len);
    size_t stride = w + w / 8;
    int full = 0;
    const uint8_t *row = memory;
    for (size_t r = 0; r < d; r++, row += stride) {
        uint8_t m = row[w + slot[r] / 8];
        if (!code_and_one[m])
            return 5;
        /* Only a group that is one counter can be full. */
        if (m == 0x7f && load(row + (slot[r] & ~7u)) > UINT64_MAX - amount)
            full = 1;
    }
    if (full)
        return 6;
    for (size_t r = 0; r < d; r++, memory += stride)
        add(memory + (slot[r] & ~7u), memory + w + slot[r] / 8, slot[r] & 7, amount);
    return 0;
}

static uint32_t estimate(size_t d, size_t w, const uint8_t *memory, const uint8_t *key, size_t key_len, uint64_t *figure) {
    uint32_t slot[8];
    key_slots(slot, d, w, key, key_len);
    size_t stride = w + w / 8;
    uint64_t least = UINT64_MAX;
    for (size_t r = 0; r < d; r++, memory += stride) {
        uint8_t m = memory[w + slot[r] / 8];
        if (!code_and_one[m])
            return 5;
        unsigned k = slot[r] & 7;
        unsigned n = level_of(m, k);
        uint64_t value = load(memory + (slot[r] & ~7u)) >> 8 * (k >> n << n) & most[n];
        if (value < least)
            least = value;
    }
    *figure = least;
    return 0;
}

uint32_t salsa_update(size_t d, size_t w, uint8_t *memory, size_t memory_len, const uint8_t *key, size_t key_len,
                      uint32_t amount, uint64_t *place, uint64_t *figure) {
    *place = *figure = 0;
    uint32_t bad = bad_shape(d, w, memory_len);
    if (bad)
        return bad;
    if (key_len < 1 || key_len > 64)
        return 4;
    return update(d, w, memory, key, key_len, amount);
}

uint32_t salsa_estimate(size_t d, size_t w, const uint8_t *memory, size_t memory_len, const uint8_t *key, size_t key_len,
                        uint64_t *place, uint64_t *figure) {
    *place = *figure = 0;
    uint32_t bad = bad_shape(d, w, memory_len);
    if (bad)
        return bad;
    if (key_len < 1 || key_len > 64)
        return 4;
    return estimate(d, w, memory, key, key_len, figure);
}

static void unite(uint8_t *counts, uint8_t *merge, const uint8_t *source, unsigned mb) {
    uint64_t a = load(counts), b = load(source), out = 0;
    unsigned ma = *merge, m = ma | mb;
    if (m == 0) {
        /* Eight sums at once, if none carries out of its byte. */
        uint64_t high = 0x8080808080808080;
        uint64_t sum = ((a & ~high) + (b & ~high)) ^ ((a ^ b) & high);
        if ((((a & b) | ((a | b) & ~sum)) & high) == 0) {
            store(counts, sum);
            return;
        }
    }
    for (unsigned k = 0; k < 8;) {
        unsigned n = level_of(m, k);
        uint64_t sum = total(a, ma, k, n) + total(b, mb, k, n);
        if (sum > most[n]) {
            /* The block around it is merged, and tried from its first slot. */
            n++;
            k = k >> n << n;
            m |= (unsigned)bits_within[n] << k;
            out &= ~(most[n] << 8 * k);
        } else {
            out |= sum << 8 * k;
            k += 1u << n;
        }
    }
    store(counts, out);
    *merge = (uint8_t)m;
}

/* The 64 sums of eight unmerged groups at once, if none carries out of its byte. */
static int unite_eight(uint8_t *counts, const uint8_t *source) {
    uint8_t sums[64], carries = 0;
    for (unsigned i = 0; i < 64; i++) {
        sums[i] = (uint8_t)(counts[i] + source[i]);
        carries |= sums[i] < source[i];
    }
    if (carries)
        return 0;
    memcpy(counts, sums, 64);
    return 1;
}

uint32_t salsa_unite(size_t d, size_t w, uint8_t *memory, size_t memory_len, const uint8_t *source, size_t source_len,
                     uint64_t *place, uint64_t *figure) {
    *place = *figure = 0;
    uint32_t bad = bad_shape(d, w, memory_len);
    if (bad)
        return bad;
    if (source_len != memory_len)
        return 3;
    size_t stride = w + w / 8;
    int full = 0;
    for (size_t at = 0; at < memory_len; at += stride) {
        const uint8_t *ma = memory + at + w, *mb = source + at + w;
        for (size_t g = 0; g < w / 8; g++) {
            if (w >= 64 && g % 8 == 0 && none_merged(ma + g, mb + g)) {
                g += 7;
                continue;
            }
            if (!code_and_one[ma[g]] || !code_and_one[mb[g]])
                return 5;
            /* Only a group that is one counter can be full. */
            if (ma[g] == 0x7f || mb[g] == 0x7f)
                full |= total(load(memory + at + 8 * g), ma[g], 0, 3) > UINT64_MAX - total(load(source + at + 8 * g), mb[g], 0, 3);
        }
    }
    if (full)
        return 6;
    for (size_t at = 0; at < memory_len; at += stride) {
        uint8_t *counts = memory + at, *ma = counts + w;
        const uint8_t *others = source + at, *mb = others + w;
        for (size_t g = 0; g < w / 8; g++) {
            if (w >= 64 && g % 8 == 0 && none_merged(ma + g, mb + g) && unite_eight(counts + 8 * g, others + 8 * g))
                g += 7;
            else
                unite(counts + 8 * g, ma + g, others + 8 * g, mb[g]);
        }
    }
    return 0;
}

static inline uint32_t make_word(uint32_t kind, uint32_t payload) { return kind << 28 | payload; }

static uint32_t *write_group(uint32_t *out, uint64_t word, unsigned m) {
    if (m == 0) {
        for (unsigned k = 0; k < 8; k++)
            *out++ = make_word(KIND_COUNT, word >> 8 * k & 0xff);
        return out;
    }
    for (unsigned k = 0; k < 8;) {
        unsigned n = level_of(m, k);
        uint64_t value = word >> 8 * k & most[n];
        for (unsigned i = parts[n]; i-- > 0;)
            *out++ = make_word(KIND_COUNT, value >> 24 * i & 0xffffff);
        k += 1u << n;
    }
    return out;
}

uint32_t salsa_image_write(size_t d, size_t w, const uint8_t *memory, size_t memory_len, uint32_t *words, size_t words_len,
                           uint64_t *place, uint64_t *figure) {
    *place = *figure = 0;
    uint32_t bad = bad_shape(d, w, memory_len);
    if (bad)
        return bad;
    size_t stride = w + w / 8;
    size_t count = 2 + d * (w / 32);
    for (size_t at = 0; at < memory_len; at += stride)
        for (size_t g = 0; g < w / 8; g++) {
            unsigned code = code_and_one[memory[at + w + g]];
            if (!code)
                return 5;
            count += words_of[code - 1];
        }
    if (count > words_len)
        return 7;
    uint32_t *out = words;
    *out++ = make_word(KIND_HEAD, (uint32_t)d | (uint32_t)__builtin_ctzl(w) << 4);
    for (size_t at = 0; at < memory_len; at += stride) {
        const uint8_t *row = memory + at, *m = row + w;
        for (size_t g = 0; g < w / 8; g += 4) {
            uint32_t code = 0;
            for (size_t i = 0; i < 4; i++)
                code = code * 26 + code_and_one[m[g + i]] - 1;
            *out++ = make_word(KIND_LAYOUT, code);
            for (size_t i = 0; i < 4; i++)
                out = write_group(out, load(row + 8 * (g + i)), m[g + i]);
        }
    }
    *out = make_word(KIND_END, (count - 1) & 0xfffffff);
    *figure = count;
    return 0;
}

/* Tests a word for its kind and for a payload below a limit. */
static inline uint32_t bad_word(const uint32_t *words, size_t words_len, size_t at, uint32_t kind, uint32_t limit) {
    if (at >= words_len || words[at] >> 28 != kind)
        return 8;
    return (words[at] & 0xfffffff) >= limit ? 9 : 0;
}

static inline void unpack(uint32_t code, uint8_t merges[4]) {
    for (unsigned i = 4; i-- > 0; code /= 26)
        merges[i] = merge_of[code % 26];
}

uint32_t salsa_image_read(size_t d, size_t w, uint8_t *memory, size_t memory_len, const uint32_t *words, size_t words_len,
                          uint64_t *place, uint64_t *figure) {
    *place = *figure = 0;
    uint32_t bad = bad_shape(d, w, memory_len);
    if (bad)
        return bad;
    if ((bad = bad_word(words, words_len, 0, KIND_HEAD, 1u << 9)) != 0)
        return bad;
    if ((words[0] & 15) != d || (words[0] >> 4 & 31) != (uint32_t)__builtin_ctzl(w))
        return 10;
    uint8_t merges[4];
    size_t at = 1;
    for (size_t four = 0; four < d * (w / 32); four++) {
        if ((bad = bad_word(words, words_len, at, KIND_LAYOUT, 456976)) != 0)
            return refuse(bad, at, place);
        unpack(words[at++] & 0xfffffff, merges);
        for (unsigned i = 0; i < 4; i++) {
            if (merges[i] == 0 && at + 8 <= words_len) {
                /* Eight words at once, if all are sound. */
                uint32_t bits = 0;
                for (unsigned k = 0; k < 8; k++)
                    bits |= words[at + k] ^ make_word(KIND_COUNT, 0);
                if (bits <= 0xff) {
                    at += 8;
                    continue;
                }
            }
            for (unsigned k = 0; k < 8;) {
                unsigned n = level_of(merges[i], k);
                if ((bad = bad_word(words, words_len, at, KIND_COUNT, first_limit[n])) != 0)
                    return refuse(bad, at, place);
                at++;
                for (unsigned part = 1; part < parts[n]; part++, at++)
                    if ((bad = bad_word(words, words_len, at, KIND_COUNT, 1u << 24)) != 0)
                        return refuse(bad, at, place);
                k += 1u << n;
            }
        }
    }
    if ((bad = bad_word(words, words_len, at, KIND_END, 1u << 28)) != 0)
        return refuse(bad, at, place);
    if ((words[at] & 0xfffffff) != (at & 0xfffffff))
        return refuse(9, at, place);
    at++;
    if (at < words_len)
        return refuse(8, at, place);

    const uint32_t *in = words + 1;
    size_t stride = w + w / 8;
    for (size_t r = 0; r < d; r++, memory += stride)
        for (size_t g = 0; g < w / 8; g += 4) {
            uint8_t *m = memory + w + g;
            unpack(*in++ & 0xfffffff, m);
            for (unsigned i = 0; i < 4; i++) {
                uint64_t word = 0;
                if (m[i] == 0) {
                    for (unsigned k = 0; k < 8; k++)
                        memory[8 * (g + i) + k] = (uint8_t)*in++;
                    continue;
                }
                for (unsigned k = 0; k < 8;) {
                    unsigned n = level_of(m[i], k);
                    uint64_t value = *in++ & 0xffffff;
                    for (unsigned part = 1; part < parts[n]; part++)
                        value = value << 24 | (*in++ & 0xffffff);
                    word |= value << 8 * k;
                    k += 1u << n;
                }
                store(memory + 8 * (g + i), word);
            }
        }
    *figure = at;
    return 0;
}

uint32_t salsa_feed_record(size_t d, size_t w, uint8_t *memory, size_t memory_len, uint64_t before, const uint32_t *words,
                           size_t words_len, uint64_t *place, uint64_t *figure) {
    *place = *figure = 0;
    uint32_t bad = bad_shape(d, w, memory_len);
    if (bad)
        return bad;
    if (words_len < 1)
        return 8;
    uint32_t kind = words[0] >> 28, payload = words[0] & 0xfffffff;
    if (kind == KIND_END)
        return payload == (before & 0xfffffff) ? 0 : 9;
    if (kind != KIND_UPDATE && kind != KIND_ASK)
        return 8;
    if (payload < 1 || payload > 64)
        return 4;
    uint8_t key[66];
    size_t at = 1;
    for (uint32_t n = 0; n < payload; n += 3, at++) {
        if ((bad = bad_word(words, words_len, at, KIND_KEY, 1u << 24)) != 0)
            return refuse(bad, at, place);
        key[n] = (uint8_t)(words[at] >> 16);
        key[n + 1] = (uint8_t)(words[at] >> 8);
        key[n + 2] = (uint8_t)words[at];
        uint32_t unused = n + 3 > payload ? n + 3 - payload : 0;
        if (words[at] & ((1u << 8 * unused) - 1))
            return refuse(9, at, place);
    }
    if (kind == KIND_ASK)
        return estimate(d, w, memory, key, payload, figure);
    uint32_t amount = 0;
    for (unsigned i = 0; i < 2; i++, at++) {
        if ((bad = bad_word(words, words_len, at, KIND_AMOUNT, 1u << 16)) != 0)
            return refuse(bad, at, place);
        amount = amount << 16 | (words[at] & 0xffff);
    }
    return update(d, w, memory, key, payload, amount);
}
