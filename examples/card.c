/*
 * Prints the card that test engineers carry, or says that it cannot be written:
 * a line for each full time, in quarter hours, with the least count that
 * reaches 80 % of it.
 */
#include <errno.h>
#include <inttypes.h>
#include <stdio.h>
#include <string.h>

#include "plant.h"

/* Says what is wrong with a file, in the system's words. */
static int wrong(const char *name)
{
    fprintf(stderr, "card: %s: %s\n", name, strerror(errno));
    return 1;
}

int main(void)
{
    for (uint32_t tc = PLANT_TIME_MIN; tc <= PLANT_TIME_MAX; tc++)
        if (printf("%2" PRIu32 "  %2" PRIu32 "\n", tc, plant_least_count(tc)) < 0)
            return wrong("standard output");
    if (fflush(stdout) != 0)
        return wrong("standard output");
    return 0;
}
