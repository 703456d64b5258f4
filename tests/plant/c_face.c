/*
 * Writes a line for each TC from 0 to 255, TC and the count that
 * plant_least_count has for it. Before that it tries TCs above 255: these with
 * one bit more, each from 2^8 to 2^31, and the greatest; the card has none of
 * them. Ends with status 1 and a message where an answer is not what plant.h
 * says, or a line cannot be written.
 */
#include <inttypes.h>
#include <stdio.h>
#include <stdlib.h>

#include "plant.h"

#define BYTES 256

static void expect(int holds, uint32_t tc, const char *what)
{
    if (!holds) {
        fprintf(stderr, "c_face: TC %" PRIu32 ": %s\n", tc, what);
        exit(1);
    }
}

static void expect_none(uint32_t tc)
{
    expect(plant_least_count(tc) == 0, tc, "a count that the card does not have");
}

int main(void)
{
    for (uint32_t low = 0; low < BYTES; low++) {
        for (int bit = 8; bit < 32; bit++) {
            expect_none(low + (UINT32_C(1) << bit));
        }
    }
    expect_none(UINT32_MAX);

    for (uint32_t tc = 0; tc < BYTES; tc++) {
        uint32_t count = plant_least_count(tc);
        int has = tc >= PLANT_TIME_MIN && tc <= PLANT_TIME_MAX;
        expect((count != 0) == has, tc, "another answer than the limits have");
        expect(printf("%" PRIu32 " %" PRIu32 "\n", tc, count) > 0, tc, "not written");
    }
    expect(fflush(stdout) == 0, BYTES - 1, "not written");
    return 0;
}
