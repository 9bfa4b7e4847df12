/* The calls from C: count two tenants, move the meter by its image, unite two meters. */
#include <inttypes.h>
#include <stdio.h>
#include <stdlib.h>
#include <string.h>

#include "meter.h"

enum { D = 4, W = 1024 };

static uint8_t here[METER_SIZE(D, W)], there[METER_SIZE(D, W)];
static uint32_t words[METER_IMAGE_WORDS(D, W)];

/* The figure of an accepted call; anything else is a mistake in this program. */
static uint64_t accepted(const char *call, uint32_t number, uint64_t place, uint64_t figure) {
    if (number != METER_ACCEPTED) {
        fprintf(stderr, "%s: %s (number %" PRIu32 ", place %" PRIu64 ")\n", call, meter_text(number), number, place);
        exit(1);
    }
    return figure;
}

static void update(uint8_t *memory, const char *key, uint32_t amount) {
    uint64_t place, figure;
    uint32_t n = meter_update(D, W, memory, METER_SIZE(D, W), (const uint8_t *)key, strlen(key), amount, &place, &figure);
    accepted("update", n, place, figure);
}

static uint64_t estimate(const uint8_t *memory, const char *key) {
    uint64_t place, figure;
    uint32_t n = meter_estimate(D, W, memory, METER_SIZE(D, W), (const uint8_t *)key, strlen(key), &place, &figure);
    return accepted("estimate", n, place, figure);
}

int main(void) {
    uint64_t place, figure;

    uint32_t n = meter_clear(D, W, here, sizeof here, &place, &figure);
    accepted("clear", n, place, figure);
    update(here, "tenant-17", 1500);
    update(here, "tenant-17", 64);
    update(here, "tenant-18", 40);
    printf("tenant-17 %" PRIu64 "\n", estimate(here, "tenant-17"));
    printf("tenant-18 %" PRIu64 "\n", estimate(here, "tenant-18"));

    n = meter_image_write(D, W, here, sizeof here, words, METER_IMAGE_WORDS(D, W), &place, &figure);
    uint64_t count = accepted("image_write", n, place, figure);

    /* The head of an image, like that of a feed, says d and w. */
    n = meter_feed_head(words, (size_t)count, &place, &figure);
    figure = accepted("feed_head", n, place, figure);
    size_t d = METER_HEAD_D(figure), w = METER_HEAD_W(figure);
    n = meter_image_read(d, w, there, sizeof there, words, (size_t)count, &place, &figure);
    accepted("image_read", n, place, figure);
    printf("image of %" PRIu64 " words\n", count);

    n = meter_unite(D, W, there, sizeof there, here, sizeof here, &place, &figure);
    accepted("unite", n, place, figure);
    printf("tenant-17 united %" PRIu64 "\n", estimate(there, "tenant-17"));

    n = meter_widest(D, W, there, sizeof there, &place, &figure);
    printf("widest level %" PRIu64 "\n", accepted("widest", n, place, figure));

    n = meter_update(D, W, here, sizeof here, (const uint8_t *)"", 0, 1, &place, &figure);
    if (n == METER_ACCEPTED) {
        fprintf(stderr, "an empty key was accepted\n");
        return 1;
    }
    printf("an empty key is refused with %" PRIu32 ": %s\n", n, meter_text(n));
    return 0;
}
