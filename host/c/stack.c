/* What host/bench/measure-stack runs: the stack that each call writes, found by filling the stack below the call before it and looking for
 * the lowest byte that changed after it. On a stack of its own, so that nothing else writes there. */
#define _GNU_SOURCE
#include <pthread.h>
#include <stdio.h>
#include <stdlib.h>
#include <string.h>
#include <sys/mman.h>

#include "either.h"

enum { STACK = 1 << 20, DEEP = 1 << 13, CALLS = 40000, WIDEST = 4096, LIST = 4673 };

enum { UPDATE, ESTIMATE, RECORD, UNITE, WRITE, READ, WATCH, REMOVE, SIGNED_UPDATE, SIGNED_ESTIMATE, SIGNED_UNITE, SIGNED_SUBTRACT, COUNT };
static const char *const names[COUNT] = {"update",        "estimate",        "feed record",           "union",
                                         "image written", "image read",      "update through a list", "taken off a list",
                                         "signed update", "signed estimate", "signed sum",            "signed difference"};
static size_t most[COUNT];

/* d, or of an even one the odd one below it, with the memory of a signed meter. */
static size_t d, odd, w, len, odd_len, key_len, image_len;
static uint8_t memory[8 * WIDEST / 8 * 9], source[sizeof memory], key[64], list[LIST];
static uint8_t signed_memory[sizeof memory], signed_source[sizeof memory];
static uint32_t words[8 * WIDEST + 8 * WIDEST / 32 + 2], record[3 + 22], amount;

/* Makes the call with the stack below filled with a byte; how much of it was written. Nothing of this function's own frame is below. */
__attribute__((noinline)) static size_t written(int which, int fill) {
    uint64_t place, figure;
    int64_t change;
    volatile uint8_t *top, *at;
    __asm__ volatile("mov %%rsp, %0" : "=r"(top));
    for (at = top - DEEP; at < top; at++)
        *at = (uint8_t)fill;
    switch (which) {
    case UPDATE:
        call(update)(d, w, memory, len, key, key_len, amount, &place, &figure);
        break;
    case ESTIMATE:
        call(estimate)(d, w, memory, len, key, key_len, &place, &figure);
        break;
    case RECORD:
        call(feed_record)(d, w, memory, len, 1, record, sizeof record / 4, &place, &figure);
        break;
    case UNITE:
        call(unite)(d, w, memory, len, source, len, &place, &figure);
        break;
    case WRITE:
        call(image_write)(d, w, memory, len, words, sizeof words / 4, &place, &figure);
        image_len = figure;
        break;
    case READ:
        call(image_read)(d, w, memory, len, words, image_len, &place, &figure);
        break;
#ifndef PLAIN
    case WATCH:
        call(watch_update)(d, w, memory, len, list, LIST, key, key_len, amount, 1, &place, &figure);
        break;
    case REMOVE:
        call(watch_remove)(list, LIST, key, key_len, &place, &figure);
        break;
#endif
    case SIGNED_UPDATE:
        call(signed_update)(odd, w, signed_memory, odd_len, key, key_len, (int32_t)amount, &place, &figure);
        break;
    case SIGNED_ESTIMATE:
        call(signed_estimate)(odd, w, signed_memory, odd_len, key, key_len, &place, &change);
        break;
    case SIGNED_UNITE:
        call(signed_unite)(odd, w, signed_memory, odd_len, signed_source, odd_len, &place, &figure);
        break;
    case SIGNED_SUBTRACT:
        call(signed_subtract)(odd, w, signed_memory, odd_len, signed_source, odd_len, &place, &figure);
        break;
    }
    for (at = top - DEEP; at < top && *at == (uint8_t)fill; at++) {
    }
    if (at == top - DEEP) {
        fprintf(stderr, "a call wrote more than %d bytes of stack\n", DEEP);
        exit(1);
    }
    return (size_t)(top - at);
}

/* Twice, with two bytes: what a call writes may be the byte that was there. */
static void measure(int which) {
    static uint8_t before[sizeof memory], before_signed[sizeof memory], before_list[LIST];
    memcpy(before, memory, len);
    memcpy(before_signed, signed_memory, odd_len);
    memcpy(before_list, list, LIST);
    size_t a = written(which, 0xa5);
    memcpy(memory, before, len);
    memcpy(signed_memory, before_signed, odd_len);
    memcpy(list, before_list, LIST);
    size_t b = written(which, 0x5a);
    size_t deeper = a > b ? a : b;
    if (deeper > most[which])
        most[which] = deeper;
}

static void *run(void *unused) {
    uint64_t place, figure;
    for (size_t i = 0; i < CALLS; i++) {
        /* Meters of all sizes, clear, with nothing merged or with every layout; 500 calls go on from one another. */
        if (i % 500 == 0) {
            static const size_t widths[3] = {32, 256, WIDEST};
            d = 1 + i / 500 % 8;
            w = widths[draw() % 3];
            len = d * (w / 8 * 9);
            call(clear)(d, w, memory, len, &place, &figure);
            odd = (d - 1) | 1;
            odd_len = odd * (w / 8 * 9);
            call(signed_clear)(odd, w, signed_memory, odd_len, &place, &figure);
            if (i / 500 % 3 != 0) {
                fill(d, w, memory, i / 500 % 3 == 1);
                fill_signed(odd, w, signed_memory, i / 500 % 3 == 1);
            }
            memset(list, 0, LIST);
        }
        key_len = 1 + draw() % 64;
        for (size_t k = 0; k < key_len; k++)
            key[k] = (uint8_t)draw();
        /* Below 2^32, of all magnitudes. */
        amount = (uint32_t)(draw() >> 32) >> draw() % 32;
        make_record(record, key, key_len, draw() % 4 ? &amount : NULL);
        measure(UPDATE);
        measure(ESTIMATE);
        measure(RECORD);
        measure(SIGNED_UPDATE);
        measure(SIGNED_ESTIMATE);
#ifndef PLAIN /* which has no lists */
        measure(WATCH);
        if (i % 5 == 4) {
            size_t at = draw() % 64;
            if (list[at] > 0) {
                key_len = list[at];
                memcpy(key, list + METER_WATCH_KEY(at), key_len);
            }
            measure(REMOVE);
        }
#endif
        if (i % 50 == 49) {
            fill(d, w, source, (int)(draw() % 2));
            measure(UNITE);
            measure(WRITE);
            measure(READ);
            fill_signed(odd, w, signed_source, (int)(draw() % 2));
            measure(draw() % 2 ? SIGNED_UNITE : SIGNED_SUBTRACT);
        }
    }
    return unused;
}

int main(void) {
    void *stack = mmap(NULL, STACK, PROT_READ | PROT_WRITE, MAP_PRIVATE | MAP_ANONYMOUS, -1, 0);
    pthread_attr_t attr;
    pthread_t thread;
    if (stack == MAP_FAILED || pthread_attr_init(&attr) != 0 || pthread_attr_setstack(&attr, stack, STACK) != 0 ||
        pthread_create(&thread, &attr, run, NULL) != 0 || pthread_join(thread, NULL) != 0) {
        fprintf(stderr, "no thread with a stack of its own\n");
        return 1;
    }
    for (int i = 0; i < COUNT; i++)
        if (most[i] > 0)
            printf("%s;%zu\n", names[i], most[i]);
        else
            printf("%s;–\n", names[i]);
    return 0;
}
