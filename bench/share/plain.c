/*
 * The division of share.h in plain C: the same buffers, tests and numbers.
 * The leftover units follow from sorting the remainders.
 */
#include <stdlib.h>

#include "share.h"

struct rest {
    uint64_t rest;
    uint32_t index;
};

static int largest_first(const void *a, const void *b)
{
    const struct rest *x = a, *y = b;
    if (x->rest != y->rest)
        return x->rest > y->rest ? -1 : 1;
    return x->index < y->index ? -1 : x->index > y->index;
}

uint32_t plain_divide(uint64_t total,
                      const uint8_t *weights, size_t weights_len,
                      uint8_t *amounts, size_t amounts_len)
{
    uint64_t weight[SHARE_COUNT_MAX], amount[SHARE_COUNT_MAX];
    struct rest rests[SHARE_COUNT_MAX];
    size_t n = weights_len / SHARE_WEIGHT_SIZE;
    uint64_t sum = 0, left = total;

    if (total > SHARE_TOTAL_MAX || weights_len % SHARE_WEIGHT_SIZE != 0 ||
        n == 0 || n > SHARE_COUNT_MAX)
        return SHARE_RANGE;
    for (size_t i = 0; i < n; i++) {
        const uint8_t *p = weights + i * SHARE_WEIGHT_SIZE;
        weight[i] = p[0] | (uint32_t)p[1] << 8 | (uint32_t)p[2] << 16 | (uint32_t)p[3] << 24;
        if (weight[i] > SHARE_WEIGHT_MAX)
            return SHARE_RANGE;
        sum += weight[i];
    }
    if (sum == 0)
        return SHARE_NO_SUM;
    if (amounts_len < n * SHARE_AMOUNT_SIZE)
        return SHARE_SHORT;

    /* A product is at most 1.8 * 10^19, which 64 bits hold. */
    for (size_t i = 0; i < n; i++) {
        uint64_t product = total * weight[i];
        amount[i] = product / sum;
        rests[i].rest = product % sum;
        rests[i].index = (uint32_t)i;
        left -= amount[i];
    }
    if (left > 0)
        qsort(rests, n, sizeof rests[0], largest_first);
    for (size_t i = 0; i < left; i++)
        amount[rests[i].index]++;

    for (size_t i = 0; i < n; i++)
        for (int k = 0; k < SHARE_AMOUNT_SIZE; k++)
            amounts[i * SHARE_AMOUNT_SIZE + k] = (uint8_t)(amount[i] >> 8 * k);
    return SHARE_OK;
}
