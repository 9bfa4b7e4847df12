/* What host/bench/count-instructions counts: calls of each kind, told to callgrind by name and number. */
#include <stdio.h>
#include <stdlib.h>
#include <string.h>
#include <valgrind/callgrind.h>

#include "either.h"

enum { KEYS = 1000, CALLS = 10000, LONGEST = 37, ROOM = 3 + (LONGEST + 2) / 3 };

static uint8_t memory[8 * 1024 / 8 * 9];
static uint8_t keys[KEYS * LONGEST];
static uint32_t amounts[CALLS];
static uint32_t records[CALLS][ROOM];

/* What was counted since the last time is of this call, in this column of the table. */
static void told(const char *name, size_t d, size_t key_len) {
    char text[100];
    snprintf(text, sizeof text, "%s, d %zu;%zu bytes;%d", name, d, key_len, (int)CALLS);
    CALLGRIND_DUMP_STATS_AT(text);
}

static void told_by_group(const char *name, int all_levels, size_t groups) {
    char text[100];
    snprintf(text, sizeof text, "%s;%s;%zu", name, all_levels ? "all levels" : "nothing merged", groups);
    CALLGRIND_DUMP_STATS_AT(text);
}

static void accepted(uint32_t number) {
    if (number != 0) {
        fprintf(stderr, "a call was refused with number %u\n", number);
        exit(1);
    }
}

static void keyed(size_t d, size_t key_len) {
    size_t w = 1024, len = d * (w / 8 * 9);
    uint64_t place, figure;
    accepted(call(clear)(d, w, memory, len, &place, &figure));
    CALLGRIND_ZERO_STATS;
    for (size_t i = 0; i < CALLS; i++)
        accepted(call(update)(d, w, memory, len, keys + i % KEYS * key_len, key_len, amounts[i], &place, &figure));
    told("update", d, key_len);
    for (size_t i = 0; i < CALLS; i++)
        accepted(call(estimate)(d, w, memory, len, keys + i % KEYS * key_len, key_len, &place, &figure));
    told("estimate", d, key_len);
    accepted(call(clear)(d, w, memory, len, &place, &figure));
    for (size_t i = 0; i < CALLS; i++)
        make_record(records[i], keys + i % KEYS * key_len, key_len, &amounts[i]);
    CALLGRIND_ZERO_STATS;
    for (size_t i = 0; i < CALLS; i++)
        accepted(call(feed_record)(d, w, memory, len, 1, records[i], ROOM, &place, &figure));
    told("feed record, update", d, key_len);
    for (size_t i = 0; i < CALLS; i++)
        make_record(records[i], keys + i % KEYS * key_len, key_len, NULL);
    CALLGRIND_ZERO_STATS;
    for (size_t i = 0; i < CALLS; i++)
        accepted(call(feed_record)(d, w, memory, len, 1, records[i], ROOM, &place, &figure));
    told("feed record, asking", d, key_len);
#ifndef PLAIN /* which has no lists */
    /* 64 other keys of the same length: none of the keys counted here joins a full list. */
    static uint8_t list[METER_WATCH_SIZE];
    memset(list, 0, sizeof list);
    accepted(call(clear)(d, w, memory, len, &place, &figure));
    for (uint8_t i = 0; i < METER_WATCH_PLACES; i++) {
        uint8_t other[LONGEST];
        memset(other, 200 + i % 50, sizeof other);
        other[0] = i;
        accepted(call(watch_update)(d, w, memory, len, list, sizeof list, other, key_len, 1, 1, &place, &figure));
    }
    accepted(call(clear)(d, w, memory, len, &place, &figure));
    CALLGRIND_ZERO_STATS;
    for (size_t i = 0; i < CALLS; i++)
        accepted(call(watch_update)(d, w, memory, len, list, sizeof list, keys + i % KEYS * key_len, key_len, amounts[i], 1, &place,
                                    &figure));
    told("update through a list of 64 others", d, key_len);
#endif
}

static void keyed_signed(size_t d, size_t key_len) {
    size_t w = 1024, len = d * (w / 8 * 9);
    uint64_t place, figure;
    int64_t change;
    accepted(call(signed_clear)(d, w, memory, len, &place, &figure));
    CALLGRIND_ZERO_STATS;
    for (size_t i = 0; i < CALLS; i++) {
        int32_t amount = amounts[i] % 2 ? (int32_t)amounts[i] : -(int32_t)amounts[i];
        accepted(call(signed_update)(d, w, memory, len, keys + i % KEYS * key_len, key_len, amount, &place, &figure));
    }
    told("signed update", d, key_len);
    for (size_t i = 0; i < CALLS; i++)
        accepted(call(signed_estimate)(d, w, memory, len, keys + i % KEYS * key_len, key_len, &place, &change));
    told("signed estimate", d, key_len);
}

/* A sum of two signed meters, and a difference. */
static void whole_signed(size_t d, size_t w, int all_levels) {
    size_t len = d * (w / 8 * 9), groups = d * w / 8;
    uint8_t *target = malloc(len), *source = malloc(len);
    if (!target || !source)
        exit(1);
    uint64_t place, figure;
    fill_signed(d, w, target, all_levels);
    fill_signed(d, w, source, all_levels);
    CALLGRIND_ZERO_STATS;
    accepted(call(signed_unite)(d, w, target, len, source, len, &place, &figure));
    told_by_group("signed sum", all_levels, groups);
    fill_signed(d, w, target, all_levels);
    CALLGRIND_ZERO_STATS;
    accepted(call(signed_subtract)(d, w, target, len, source, len, &place, &figure));
    told_by_group("signed difference", all_levels, groups);
    free(target);
    free(source);
}

/* A union of two meters and of one with its copy, an image written and an image read; numbers are for each group. */
static void whole(size_t d, size_t w, int all_levels) {
    size_t len = d * (w / 8 * 9), room = d * w + d * w / 32 + 2, groups = d * w / 8;
    uint8_t *target = malloc(len), *source = malloc(len);
    uint32_t *words = malloc(room * sizeof *words);
    if (!target || !source || !words)
        exit(1);
    uint64_t place, figure;
    fill(d, w, target, all_levels);
    fill(d, w, source, all_levels);
    CALLGRIND_ZERO_STATS;
    accepted(call(unite)(d, w, target, len, source, len, &place, &figure));
    told_by_group("union", all_levels, groups);
    memcpy(target, source, len);
    CALLGRIND_ZERO_STATS;
    accepted(call(unite)(d, w, target, len, source, len, &place, &figure));
    told_by_group("union with a copy", all_levels, groups);
    accepted(call(image_write)(d, w, source, len, words, room, &place, &figure));
    told_by_group("image written", all_levels, groups);
    accepted(call(image_read)(d, w, target, len, words, figure, &place, &figure));
    told_by_group("image read", all_levels, groups);
    if (memcmp(target, source, len) != 0)
        exit(1);
    free(target);
    free(source);
    free(words);
}

int main(void) {
    for (size_t i = 0; i < sizeof keys; i++)
        keys[i] = (uint8_t)draw();
    for (size_t i = 0; i < CALLS; i++)
        amounts[i] = packet();
    size_t depths[] = {1, 4, 8}, lengths[] = {4, 13, 37};
    for (size_t i = 0; i < 3; i++)
        for (size_t j = 0; j < 3; j++)
            keyed(depths[i], lengths[j]);
    size_t odd[] = {1, 3, 5, 7};
    for (size_t i = 0; i < 4; i++)
        for (size_t j = 0; j < 3; j++)
            keyed_signed(odd[i], lengths[j]);
    whole(8, 4096, 0);
    whole(8, 4096, 1);
    whole_signed(7, 4096, 0);
    whole_signed(7, 4096, 1);
    return 0;
}
