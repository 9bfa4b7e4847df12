/* What host/bench/compare-unions runs: unions by two builds of the library, turn by turn in one run, and a plain copy of as many bytes. The
 * builds are linked under the names before_ and after_. */
#define _POSIX_C_SOURCE 199309L
#include <stdio.h>
#include <stdlib.h>
#include <string.h>
#include <time.h>

#include "either.h"

extern __typeof__(meter_unite) before_meter_unite, after_meter_unite;
extern __typeof__(meter_update) after_meter_update;

/* What the libraries ask of C, under their names. */
void *before_memcpy(void *to, const void *from, size_t n) { return memcpy(to, from, n); }
void *before_memset(void *to, int byte, size_t n) { return memset(to, byte, n); }
void *after_memcpy(void *to, const void *from, size_t n) { return memcpy(to, from, n); }
void *after_memset(void *to, int byte, size_t n) { return memset(to, byte, n); }

enum { D = 8, MOST_PAIRS = 64, ROUNDS = 501 };

enum way { BEFORE, AFTER, COPY, WAYS };

/* What the two meters of a pair hold. */
enum kind { NOTHING_MERGED, PAST_255, FEW_MERGED, TRAFFIC, ALL_LEVELS, KINDS };
static const char *const names[KINDS] = {"nothing merged", "nothing merged, sums past 255", "one group of 512 merged", "after traffic", "all levels"};

static void must(int holds, const char *what) {
    if (!holds) {
        fprintf(stderr, "compare: %s\n", what);
        exit(1);
    }
}

static void *room(size_t n) {
    void *bytes = malloc(n);
    must(bytes != NULL, "no memory");
    return bytes;
}

/* A meter of a kind, whose union with another such meter is accepted. */
static uint8_t *meter(enum kind kind, size_t w) {
    size_t stride = w / 8 * 9;
    uint8_t *memory = room(D * stride);
    fill(D, w, memory, kind == ALL_LEVELS);
    for (size_t r = 0; r < D; r++)
        for (size_t slot = 0; slot < w; slot++) {
            if (kind == PAST_255)
                memory[r * stride + slot] = (uint8_t)draw();
            if (kind == FEW_MERGED && slot % 8 == 0 && draw() % 512 == 0)
                memory[r * stride + w + slot / 8] = 0x01;
        }
    if (kind == TRAFFIC) {
        memset(memory, 0, D * stride);
        for (size_t i = 0; i < 3 * w; i++) {
            /* Near to Zipf's law: each of 20 ranges of keys, twice as many in each as in the one before, comes as often. */
            uint64_t place, figure, range = (uint64_t)1 << draw() % 20, key = range + draw() % range;
            must(after_meter_update(D, w, memory, D * stride, (const uint8_t *)&key, sizeof key, packet(), &place, &figure) == 0, "an update was refused");
        }
    }
    return memory;
}

static double microseconds(void) {
    struct timespec t;
    clock_gettime(CLOCK_THREAD_CPUTIME_ID, &t);
    return (double)t.tv_sec * 1e6 + (double)t.tv_nsec / 1e3;
}

static void carry_out(enum way way, size_t w, uint8_t *target, const uint8_t *source) {
    size_t n = D * (w / 8 * 9);
    uint64_t place, figure;
    if (way == COPY)
        memcpy(target, source, n);
    else
        must((way == AFTER ? after_meter_unite : before_meter_unite)(D, w, target, n, source, n, &place, &figure) == 0, "a union was refused");
}

static int order(const void *a, const void *b) {
    double x = *(const double *)a, y = *(const double *)b;
    return (x > y) - (x < y);
}

static double median(double *times) {
    qsort(times, ROUNDS, sizeof *times, order);
    return times[ROUNDS / 2];
}

/* In each round each way takes every pair once, the ways in another order; targets are restored before, which is not measured. */
static void compare(enum kind kind, size_t w, size_t pairs) {
    static double times[WAYS][ROUNDS], ratios[ROUNDS];
    size_t n = D * (w / 8 * 9);
    uint8_t *starts[MOST_PAIRS], *sources[MOST_PAIRS], *targets[WAYS][MOST_PAIRS];
    for (size_t i = 0; i < pairs; i++) {
        starts[i] = meter(kind, w);
        sources[i] = meter(kind, w);
        for (size_t way = 0; way < WAYS; way++)
            targets[way][i] = room(n);
    }
    for (size_t round = 0; round < ROUNDS; round++) {
        for (size_t k = 0; k < WAYS; k++) {
            enum way way = (k + round) % WAYS;
            for (size_t i = 0; i < pairs; i++)
                memcpy(targets[way][i], starts[i], n);
            double from = microseconds();
            for (size_t i = 0; i < pairs; i++)
                carry_out(way, w, targets[way][i], sources[i]);
            times[way][round] = (microseconds() - from) / (double)pairs;
        }
        ratios[round] = times[AFTER][round] / times[BEFORE][round];
        for (size_t i = 0; i < pairs; i++)
            must(memcmp(targets[BEFORE][i], targets[AFTER][i], n) == 0, "the two builds differ");
    }
    printf("| %s, w %zu, %zu in turn | %.4g | %.4g | %.2f | %.4g |\n", names[kind], w, pairs, median(times[BEFORE]), median(times[AFTER]),
           median(ratios), median(times[COPY]));
    fflush(stdout);
    for (size_t i = 0; i < pairs; i++) {
        free(starts[i]);
        free(sources[i]);
        for (size_t way = 0; way < WAYS; way++)
            free(targets[way][i]);
    }
}

int main(void) {
    static const struct {
        size_t w, pairs;
    } sizes[] = {{METER_LARGEST_WIDTH, 1}, {METER_LARGEST_WIDTH, 32}, {1024, MOST_PAIRS}, {64, MOST_PAIRS}, {32, MOST_PAIRS}};
    printf("| union, d 8, medians of %d rounds | before, µs | after, µs | after to before | a copy, µs |\n|---|---|---|---|---|\n", ROUNDS);
    for (size_t i = 0; i < sizeof sizes / sizeof *sizes; i++)
        for (enum kind kind = 0; kind < KINDS; kind++)
            if (kind == NOTHING_MERGED || sizes[i].pairs > 1)
                compare(kind, sizes[i].w, sizes[i].pairs);
    return 0;
}
