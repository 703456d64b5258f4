/*
 * The figures of an outage log of plant.h in plain C: the same buffers, tests
 * and numbers. One loop over the entries tests them for 3; a second one tests
 * their order and adds up the minutes within the window.
 */
#include "plant.h"

static uint32_t get_number(const uint8_t *at)
{
    return at[0] | (uint32_t)at[1] << 8 | (uint32_t)at[2] << 16 | (uint32_t)at[3] << 24;
}

static void put_number(uint8_t *at, uint32_t number)
{
    for (int k = 0; k < 4; k++)
        at[k] = (uint8_t)(number >> 8 * k);
}

uint32_t plain_outages(const uint8_t *log, size_t log_len,
                       uint8_t *figures, size_t figures_len)
{
    if (log_len < PLANT_LOG_HEAD_SIZE ||
        (log_len - PLANT_LOG_HEAD_SIZE) % PLANT_LOG_ENTRY_SIZE != 0)
        return PLANT_RANGE;

    const uint8_t *entries = log + PLANT_LOG_HEAD_SIZE;
    size_t n = (log_len - PLANT_LOG_HEAD_SIZE) / PLANT_LOG_ENTRY_SIZE;
    uint32_t from = get_number(log), to = get_number(log + 4), hed = get_number(log + 8);

    if (from > PLANT_MINUTE_MAX || to > PLANT_MINUTE_MAX || hed > PLANT_MINUTES_MAX ||
        n > PLANT_LOG_ENTRIES_MAX)
        return PLANT_RANGE;
    for (size_t i = 0; i < n; i++) {
        const uint8_t *entry = entries + i * PLANT_LOG_ENTRY_SIZE;
        if (get_number(entry) > PLANT_MINUTE_MAX || get_number(entry + 4) > PLANT_MINUTE_MAX ||
            (entry[8] != PLANT_PLANNED && entry[8] != PLANT_FORCED))
            return PLANT_RANGE;
    }

    if (to <= from || to - from > PLANT_MINUTES_MAX)
        return PLANT_ORDER;
    uint32_t sums[PLANT_FORCED + 1] = {0}, before = 0; /* a sum for each kind */
    for (size_t i = 0; i < n; i++) {
        const uint8_t *entry = entries + i * PLANT_LOG_ENTRY_SIZE;
        uint32_t start = get_number(entry), end = get_number(entry + 4);
        if (end <= start || start < before)
            return PLANT_ORDER;
        before = end;
        if (start < from)
            start = from;
        if (end > to)
            end = to;
        if (start < end)
            sums[entry[8]] += end - start;
    }
    if (figures_len < PLANT_FIGURES_SIZE)
        return PLANT_SHORT;

    put_number(figures, to - from - sums[PLANT_PLANNED] - sums[PLANT_FORCED]);
    put_number(figures + 4, sums[PLANT_PLANNED]);
    put_number(figures + 8, sums[PLANT_FORCED]);
    put_number(figures + 12, hed);
    return PLANT_OK;
}
