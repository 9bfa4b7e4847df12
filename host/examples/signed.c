/* What changed, from C: two weeks are counted, the first is taken away from the second, and each tenant's change is asked for. */
#include <inttypes.h>
#include <stdio.h>
#include <stdlib.h>
#include <string.h>

#include "meter.h"

enum { D = 5, W = 1024 };

static uint8_t last_week[METER_SIZE(D, W)], this_week[METER_SIZE(D, W)];
static const char *const tenants[] = {"tenant-17", "tenant-18", "tenant-19"};
static const int32_t bytes[2][3] = {{1500, 40, 700}, {900, 45, 700}};

/* Anything but acceptance is a mistake in this program. */
static void accepted(const char *call, uint32_t number) {
    if (number != METER_ACCEPTED) {
        fprintf(stderr, "%s: %s (number %" PRIu32 ")\n", call, meter_text(number), number);
        exit(1);
    }
}

static void count(uint8_t *memory, const int32_t *amounts) {
    uint64_t place, figure;
    size_t i;
    accepted("clear", meter_signed_clear(D, W, memory, METER_SIZE(D, W), &place, &figure));
    for (i = 0; i < sizeof tenants / sizeof tenants[0]; i++)
        accepted("update", meter_signed_update(D, W, memory, METER_SIZE(D, W), (const uint8_t *)tenants[i], strlen(tenants[i]),
                                               amounts[i], &place, &figure));
}

int main(void) {
    uint64_t place, figure;
    uint32_t number;
    size_t i;

    count(last_week, bytes[0]);
    count(this_week, bytes[1]);
    accepted("subtract",
             meter_signed_subtract(D, W, this_week, sizeof this_week, last_week, sizeof last_week, &place, &figure));
    for (i = 0; i < sizeof tenants / sizeof tenants[0]; i++) {
        int64_t change;
        accepted("estimate", meter_signed_estimate(D, W, this_week, sizeof this_week, (const uint8_t *)tenants[i],
                                                   strlen(tenants[i]), &place, &change));
        printf("%s %+" PRId64 "\n", tenants[i], change);
    }

    number = meter_signed_clear(4, W, last_week, METER_SIZE(4, W), &place, &figure);
    if (number != METER_ACCEPTED)
        printf("4 rows are refused with %" PRIu32 ": %s\n", number, meter_text(number));
    return 0;
}
