/*
 * Times share_divide and plain_divide on the same inputs, in turn, for 64
 * weights and for 300, and prints of each the median time of one division by
 * each and their ratio.
 */
#include "../rounds.h"

#include "share.h"

typedef uint32_t divide(uint64_t total,
                        const uint8_t *weights, size_t weights_len,
                        uint8_t *amounts, size_t amounts_len);

divide plain_divide;

#define INPUTS 256
#define PASSES 16

/* The numbers of weights that are measured, one after the other. */
static const size_t counts[] = {64, SHARE_COUNT_MAX};

#define COUNTS (sizeof counts / sizeof counts[0])

struct input {
    uint64_t total;
    uint8_t weights[SHARE_COUNT_MAX * SHARE_WEIGHT_SIZE];
};

static struct input inputs[INPUTS];

/* The number of weights that is measured, and the bytes of weights and amounts. */
static size_t count, weights_len, amounts_len;

static void make_inputs(size_t weights)
{
    uint64_t state = 1;

    count = weights;
    weights_len = count * SHARE_WEIGHT_SIZE;
    amounts_len = count * SHARE_AMOUNT_SIZE;
    for (int i = 0; i < INPUTS; i++) {
        inputs[i].total = next(&state) % (SHARE_TOTAL_MAX + 1);
        for (size_t j = 0; j < count; j++) {
            uint32_t weight = (uint32_t)(next(&state) % (SHARE_WEIGHT_MAX + 1));
            for (int k = 0; k < SHARE_WEIGHT_SIZE; k++)
                inputs[i].weights[j * SHARE_WEIGHT_SIZE + k] = (uint8_t)(weight >> 8 * k);
        }
    }
}

static void check_equal(void)
{
    for (int i = 0; i < INPUTS; i++) {
        uint8_t ours[SHARE_COUNT_MAX * SHARE_AMOUNT_SIZE], plain[sizeof ours];
        uint32_t a = share_divide(inputs[i].total, inputs[i].weights, weights_len, ours, amounts_len);
        uint32_t b = plain_divide(inputs[i].total, inputs[i].weights, weights_len, plain, amounts_len);
        if (a != SHARE_OK || b != SHARE_OK || memcmp(ours, plain, amounts_len) != 0) {
            fprintf(stderr, "bench: the two differ on input %d of %zu weights\n", i, count);
            exit(1);
        }
    }
}

/* The calls of a round. */
static void round_of(divide *f)
{
    static uint8_t amounts[SHARE_COUNT_MAX * SHARE_AMOUNT_SIZE];
    uint32_t refused = 0;

    for (int pass = 0; pass < PASSES; pass++)
        for (int i = 0; i < INPUTS; i++)
            refused |= f(inputs[i].total, inputs[i].weights, weights_len, amounts, amounts_len);
    if (refused != SHARE_OK)
        exit(1);
}

static void ours(void)
{
    round_of(share_divide);
}

static void plain(void)
{
    round_of(plain_divide);
}

int main(void)
{
    for (size_t k = 0; k < COUNTS; k++) {
        make_inputs(counts[k]);
        check_equal();
        printf("one division of %zu weights: ", count);
        compare_rounds(INPUTS, PASSES * INPUTS, "libshare", ours, plain);
    }
    return 0;
}
