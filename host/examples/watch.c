/* Heavy tenants from C: three are counted, those from 1,000 bytes on are listed. */
#include <inttypes.h>
#include <stdio.h>
#include <stdlib.h>
#include <string.h>

#include "meter.h"

enum { D = 4, W = 1024 };

static uint8_t memory[METER_SIZE(D, W)], list[METER_WATCH_SIZE];

/* Anything but acceptance is a mistake in this program. */
static void accepted(const char *call, uint32_t number) {
    if (number != METER_ACCEPTED) {
        fprintf(stderr, "%s: %s (number %" PRIu32 ")\n", call, meter_text(number), number);
        exit(1);
    }
}

static uint32_t update(const char *key, uint32_t amount, uint64_t threshold) {
    uint64_t place, figure;
    return meter_watch_update(D, W, memory, sizeof memory, list, sizeof list, (const uint8_t *)key, strlen(key), amount, threshold,
                              &place, &figure);
}

static size_t listed(void) {
    size_t n = 0;
    while (n < METER_WATCH_PLACES && list[n] > 0)
        n++;
    return n;
}

int main(void) {
    static const struct {
        const char *tenant;
        uint32_t bytes;
    } packets[] = {{"tenant-17", 900}, {"tenant-18", 1500}, {"tenant-19", 40}, {"tenant-17", 900}};
    uint64_t place, figure;
    uint32_t number;
    size_t i;
    int byte;

    accepted("clear", meter_clear(D, W, memory, sizeof memory, &place, &figure));
    accepted("clear the list", meter_watch_clear(list, sizeof list, &place, &figure));
    for (i = 0; i < sizeof packets / sizeof packets[0]; i++)
        accepted("update", update(packets[i].tenant, packets[i].bytes, 1000));
    for (i = 0; i < listed(); i++) {
        uint64_t estimate = 0;
        for (byte = 7; byte >= 0; byte--)
            estimate = estimate << 8 | list[METER_WATCH_ESTIMATE(i) + (size_t)byte];
        printf("%.*s %" PRIu64 "\n", (int)list[i], (const char *)&list[METER_WATCH_KEY(i)], estimate);
    }
    if (list[METER_WATCH_MARK] == 0)
        printf("none is left out\n");

    accepted("remove", meter_watch_remove(list, sizeof list, (const uint8_t *)"tenant-18", 9, &place, &figure));
    printf("%lu listed\n", (unsigned long)listed());

    number = update("tenant-19", 64, 0);
    if (number != METER_ACCEPTED)
        printf("a threshold of 0 is refused with %" PRIu32 ": %s\n", number, meter_text(number));
    return 0;
}
