/*
 * Calls all libraries in one program: writes the listing of a journal, then an
 * equal division of 10,000, an amount to a line, then the card's count for the
 * greatest full time, then the figures of an outage log, a figure to a line: of
 * 1,000 minutes the first 60 planned, the last 40 forced, and HED 10.
 *
 * usage: together JOURNAL
 */
#include <inttypes.h>
#include <stdio.h>

#include "plant.h"
#include "share.h"
#include "yearbook.h"

/* The number of so many bytes, low byte first. */
static uint64_t number_at(const uint8_t *at, int size)
{
    uint64_t number = 0;

    for (int i = size; i > 0; i--)
        number = number << 8 | at[i - 1];
    return number;
}

int main(int argc, char **argv)
{
    static uint8_t journal[65536], listing[YEARBOOK_LISTING_MAX];
    static const uint8_t weights[3 * SHARE_WEIGHT_SIZE] = {1, 0, 0, 0, 1, 0, 0, 0, 1, 0, 0, 0};
    static const uint8_t log[] = {0,    0, 0, 0, 0xe8, 3, 0, 0, 10, 0, 0, 0,
                                  0,    0, 0, 0, 60,   0, 0, 0, PLANT_PLANNED,
                                  0xc0, 3, 0, 0, 0xe8, 3, 0, 0, PLANT_FORCED};
    uint8_t amounts[3 * SHARE_AMOUNT_SIZE], figures[PLANT_FIGURES_SIZE];
    uint64_t written;

    FILE *file = argc == 2 ? fopen(argv[1], "rb") : NULL;
    if (file == NULL)
        return 2;
    size_t journal_len = fread(journal, 1, sizeof journal, file);
    fclose(file);

    if (yearbook_list(journal, journal_len, listing, sizeof listing, &written) != YEARBOOK_OK)
        return 1;
    fwrite(listing, 1, (size_t)written, stdout);

    if (share_divide(10000, weights, sizeof weights, amounts, sizeof amounts) != SHARE_OK)
        return 1;
    for (int k = 0; k < 3; k++)
        printf("%" PRIu64 "\n", number_at(amounts + k * SHARE_AMOUNT_SIZE, SHARE_AMOUNT_SIZE));
    printf("%" PRIu32 "\n", plant_least_count(PLANT_TIME_MAX));

    if (plant_outages(log, sizeof log, figures, sizeof figures) != PLANT_OK)
        return 1;
    for (int k = 0; k < 4; k++)
        printf("%" PRIu64 "\n", number_at(figures + 4 * k, 4));
    return 0;
}
