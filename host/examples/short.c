/* One tenant counted and asked for. */
#include <inttypes.h>
#include <stdio.h>

#include "meter.h"

int main(void) {
    static uint8_t memory[METER_SIZE(4, 1024)];
    const uint8_t key[] = {192, 0, 2, 17};
    uint64_t place, figure;
    uint32_t number = meter_clear(4, 1024, memory, sizeof memory, &place, &figure);
    if (number == METER_ACCEPTED)
        number = meter_update(4, 1024, memory, sizeof memory, key, sizeof key, 1500, &place, &figure);
    if (number == METER_ACCEPTED)
        number = meter_estimate(4, 1024, memory, sizeof memory, key, sizeof key, &place, &figure);
    if (number == METER_ACCEPTED)
        printf("%" PRIu64 " bytes\n", figure);
    else
        fprintf(stderr, "refused: %s\n", meter_text(number));
    return number != METER_ACCEPTED;
}
