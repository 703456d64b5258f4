/*
 * Compares share_divide with a second implementation, on known answers, on
 * every combination of edges and on seeded inputs: the number returned, every
 * byte of both buffers, and the bytes around them.
 *
 * The second implementation works with 128-bit products and ranks: of the
 * units left over, the participants that come first get one each. Fails if
 * some kind of answer, or a number of weights from 1 to 300 with its amounts,
 * was never met.
 *
 * usage: compare [SEED]
 */
#include <inttypes.h>
#include <stdio.h>
#include <stdlib.h>
#include <string.h>

#include "share.h"

__extension__ typedef unsigned __int128 u128;

#define SEEDED 200000

_Static_assert(SHARE_COUNT_MAX == 300, "a division takes 1 to 300 weights");

#define SURPLUS 64 /* most bytes behind the last amount */
#define CANARY 32  /* least bytes around a buffer */
#define SHIFTS 8   /* alignments tried */
#define WEIGHTS_MAX (SHARE_WEIGHT_SIZE * (SHARE_COUNT_MAX + 2) + SHARE_WEIGHT_SIZE - 1)
#define AMOUNTS_MAX (SHARE_AMOUNT_SIZE * (SHARE_COUNT_MAX + 2) + SURPLUS)

struct input {
    uint64_t total;
    size_t weights_len, amounts_len;
    uint8_t weights[WEIGHTS_MAX];
};

/* Why an input is refused: a set. */
enum {
    TOTAL = 1,
    LENGTH = 2,
    NONE = 4,
    MANY = 8,
    WEIGHT = 16,
    RANGE = TOTAL | LENGTH | NONE | MANY | WEIGHT,
    NO_SUM = 32,
    SHORT = 64
};

/* ---- What was met */

enum {
    EVEN, UNEVEN, BY_TOTAL, BY_LENGTH, BY_NONE, BY_MANY, BY_WEIGHT, BY_SEVERAL,
    RANGE_NO_SUM, RANGE_SHORT, BY_NO_SUM, NO_SUM_SHORT, BY_SHORT, LINES
};

static const char *const lines[LINES] = {
    [EVEN] = " 0  nothing left over",
    [UNEVEN] = " 0  units left over",
    [BY_TOTAL] = " 3  total too large",
    [BY_LENGTH] = " 3  length no multiple of 4",
    [BY_NONE] = " 3  no weight",
    [BY_MANY] = " 3  too many weights",
    [BY_WEIGHT] = " 3  weight too large",
    [BY_SEVERAL] = " 3  several of these",
    [RANGE_NO_SUM] = " 3  before 13",
    [RANGE_SHORT] = " 3  before 15",
    [BY_NO_SUM] = "13  weights sum to 0",
    [NO_SUM_SHORT] = "13  before 15",
    [BY_SHORT] = "15  amounts buffer too short",
};

static unsigned long met[LINES];

/* How many divisions of so many weights were accepted. */
static unsigned long divided[SHARE_COUNT_MAX + 1];

static int line_of(int why, uint64_t left)
{
    switch (why) {
    case 0: return left == 0 ? EVEN : UNEVEN;
    case TOTAL: return BY_TOTAL;
    case LENGTH: return BY_LENGTH;
    case NONE: return BY_NONE;
    case MANY: return BY_MANY;
    case WEIGHT: return BY_WEIGHT;
    case NO_SUM: return BY_NO_SUM;
    case NO_SUM | SHORT: return NO_SUM_SHORT;
    case SHORT: return BY_SHORT;
    }
    return why & NO_SUM ? RANGE_NO_SUM : why & SHORT ? RANGE_SHORT : BY_SEVERAL;
}

/* ---- Little-endian numbers */

static uint32_t get_weight(const uint8_t *at)
{
    return at[0] | (uint32_t)at[1] << 8 | (uint32_t)at[2] << 16 | (uint32_t)at[3] << 24;
}

static void put(uint8_t *at, uint64_t value, int size)
{
    for (int i = 0; i < size; i++)
        at[i] = (uint8_t)(value >> 8 * i);
}

/* ---- The second implementation */

struct answer {
    uint32_t number;
    int why;
    uint64_t left;
    uint64_t amount[SHARE_COUNT_MAX];
};

/* The remainder of a participant's division. */
struct rest {
    uint64_t rest;
    size_t participant;
};

/* The larger remainder comes first, of equal ones the lower participant. */
static int by_rest(const void *one, const void *other)
{
    const struct rest *a = one, *b = other;
    if (a->rest != b->rest)
        return a->rest > b->rest ? -1 : 1;
    return a->participant < b->participant ? -1 : 1;
}

static struct answer divide(const struct input *in)
{
    struct answer ans = {0};
    size_t n = in->weights_len / SHARE_WEIGHT_SIZE;
    struct rest rests[SHARE_COUNT_MAX];
    u128 sum = 0, whole = 0;

    if (in->total > SHARE_TOTAL_MAX)
        ans.why |= TOTAL;
    if (in->weights_len % SHARE_WEIGHT_SIZE != 0)
        ans.why |= LENGTH;
    if (n == 0)
        ans.why |= NONE;
    if (n > SHARE_COUNT_MAX)
        ans.why |= MANY;
    for (size_t i = 0; i < n; i++) {
        uint32_t weight = get_weight(in->weights + i * SHARE_WEIGHT_SIZE);
        if (weight > SHARE_WEIGHT_MAX)
            ans.why |= WEIGHT;
        sum += weight;
    }
    if (n > 0 && sum == 0)
        ans.why |= NO_SUM;
    if (in->amounts_len < n * SHARE_AMOUNT_SIZE)
        ans.why |= SHORT;

    ans.number = ans.why & RANGE    ? SHARE_RANGE
                 : ans.why & NO_SUM ? SHARE_NO_SUM
                 : ans.why & SHORT  ? SHARE_SHORT
                                    : SHARE_OK;
    if (ans.number != SHARE_OK)
        return ans;

    for (size_t i = 0; i < n; i++) {
        u128 product = (u128)in->total * get_weight(in->weights + i * SHARE_WEIGHT_SIZE);
        ans.amount[i] = (uint64_t)(product / sum);
        rests[i] = (struct rest){(uint64_t)(product % sum), i};
        whole += ans.amount[i];
    }
    ans.left = (uint64_t)(in->total - whole);
    qsort(rests, n, sizeof rests[0], by_rest);
    for (size_t rank = 0; rank < ans.left; rank++)
        ans.amount[rests[rank].participant]++;
    return ans;
}

/* ---- Random numbers: splitmix64 */

static uint64_t seed = 20081101, state;

static uint64_t next(void)
{
    uint64_t z = state += UINT64_C(0x9e3779b97f4a7c15);
    z = (z ^ z >> 30) * UINT64_C(0xbf58476d1ce4e5b9);
    z = (z ^ z >> 27) * UINT64_C(0x94d049bb133111eb);
    return z ^ z >> 31;
}

static uint64_t below(uint64_t bound)
{
    return next() % bound;
}

static int one_in(uint64_t n)
{
    return below(n) == 0;
}

static void fill(uint8_t *at, size_t len)
{
    uint64_t value = 0;
    for (size_t i = 0; i < len; i++) {
        if (i % 8 == 0)
            value = next();
        at[i] = (uint8_t)(value >> i % 8 * 8);
    }
}

/* ---- One comparison */

static void print_input(const struct input *in)
{
    size_t i = 0;
    printf("  seed        %" PRIu64 "\n", seed);
    printf("  total       %" PRIu64 "\n", in->total);
    printf("  amounts_len %zu\n", in->amounts_len);
    printf("  weights_len %zu\n  weights    ", in->weights_len);
    for (; i + SHARE_WEIGHT_SIZE <= in->weights_len; i += SHARE_WEIGHT_SIZE)
        printf(" %" PRIu32, get_weight(in->weights + i));
    for (; i < in->weights_len; i++)
        printf(" +%02x", in->weights[i]);
    printf("\n");
}

static void fail_number(const struct input *in, uint32_t expected, uint32_t got)
{
    printf("compare: FAILED: number %" PRIu32 " expected, got %" PRIu32 "\n", expected, got);
    print_input(in);
    exit(1);
}

/* Compares the len bytes around and in the buffer that starts at base. */
static void same(const struct input *in, const char *buffer, size_t base,
                 const uint8_t *expected, const uint8_t *got, size_t len)
{
    for (size_t i = 0; i < len; i++) {
        if (expected[i] != got[i]) {
            printf("compare: FAILED: byte %td of %s: %02x expected, got %02x\n",
                   (ptrdiff_t)i - (ptrdiff_t)base, buffer, expected[i], got[i]);
            print_input(in);
            exit(1);
        }
    }
}

static struct answer compare(const struct input *in)
{
    static uint8_t weights[CANARY + SHIFTS + WEIGHTS_MAX + CANARY], weights_after[sizeof weights];
    static uint8_t amounts[CANARY + SHIFTS + AMOUNTS_MAX + CANARY], amounts_after[sizeof amounts];
    size_t w = CANARY + below(SHIFTS), a = CANARY + below(SHIFTS);
    struct answer ans = divide(in);

    fill(weights, sizeof weights);
    memcpy(weights + w, in->weights, in->weights_len);
    memcpy(weights_after, weights, sizeof weights);

    fill(amounts, sizeof amounts);
    memcpy(amounts_after, amounts, sizeof amounts);
    if (ans.number == SHARE_OK)
        for (size_t i = 0; i < in->weights_len / SHARE_WEIGHT_SIZE; i++)
            put(amounts_after + a + i * SHARE_AMOUNT_SIZE, ans.amount[i], SHARE_AMOUNT_SIZE);

    uint32_t number = share_divide(
        in->total,
        in->weights_len == 0 && one_in(2) ? NULL : weights + w, in->weights_len,
        in->amounts_len == 0 && one_in(2) ? NULL : amounts + a, in->amounts_len);

    if (number != ans.number)
        fail_number(in, ans.number, number);
    same(in, "weights", w, weights_after, weights, sizeof weights);
    same(in, "amounts", a, amounts_after, amounts, sizeof amounts);
    met[line_of(ans.why, ans.left)]++;
    if (ans.number == SHARE_OK)
        divided[in->weights_len / SHARE_WEIGHT_SIZE]++;
    return ans;
}

static void set_weight(struct input *in, size_t i, uint32_t weight)
{
    put(in->weights + i * SHARE_WEIGHT_SIZE, weight, SHARE_WEIGHT_SIZE);
}

/* ---- Known answers */

static const struct {
    uint64_t total;
    size_t count;
    uint32_t weight[5];
    uint32_t number;
    uint64_t amount[5];
} known[] = {
    {10000, 3, {1000, 1000, 1000}, 0, {3334, 3333, 3333}},
    {7, 3, {1, 2, 3}, 0, {1, 2, 4}},
    {7, 3, {3, 2, 1}, 0, {4, 2, 1}},
    {2, 5, {1, 1, 0, 1, 1}, 0, {1, 1, 0, 0, 0}},
    {5, 4, {0, 1, 0, 1}, 0, {0, 3, 0, 2}},
    {0, 2, {5, 6}, 0, {0, 0}},
    {7123560, 3, {334, 0, 0}, 0, {7123560, 0, 0}},
    {6000000000000, 1, {3000000}, 0, {6000000000000}},
    {6000000000000, 3, {3000000, 3000000, 2999999}, 0,
     {2000000222222, 2000000222222, 1999999555556}},
    {6000000000001, 1, {1}, 3, {0}},
    {1, 2, {1, 3000001}, 3, {0}},
    {1, 0, {0}, 3, {0}},
    {1, 2, {0, 0}, 13, {0}},
};

static void compare_known(void)
{
    for (size_t k = 0; k < sizeof known / sizeof known[0]; k++) {
        struct input in = {
            .total = known[k].total,
            .weights_len = known[k].count * SHARE_WEIGHT_SIZE,
            .amounts_len = known[k].count * SHARE_AMOUNT_SIZE,
        };
        for (size_t i = 0; i < known[k].count; i++)
            set_weight(&in, i, known[k].weight[i]);

        struct answer ans = compare(&in);
        if (ans.number != known[k].number)
            fail_number(&in, known[k].number, ans.number);
        if (memcmp(ans.amount, known[k].amount, sizeof known[k].amount) != 0) {
            printf("compare: FAILED: known answer %zu\n", k);
            print_input(&in);
            exit(1);
        }
    }
}

/* ---- Every combination of edges */

#define EACH(i, list) (size_t i = 0; i < sizeof(list) / sizeof(list)[0]; i++)

static uint32_t edge_weight(int pattern, size_t i, size_t n)
{
    switch (pattern) {
    case 0: return 0;
    case 1: return 1;
    case 2: return SHARE_WEIGHT_MAX;
    case 3: return SHARE_WEIGHT_MAX + 1;
    case 4: return i == 0;
    case 5: return i + 1 == n;
    case 6: return (uint32_t)i;
    case 7: return i + 1 == n ? SHARE_WEIGHT_MAX + 1 : 0;
    default: return i + 1 == n ? UINT32_MAX : 1;
    }
}

static void compare_edges(void)
{
    static const uint64_t totals[] = {
        0, 1, 2, SHARE_COUNT_MAX - 1, 10000, SHARE_TOTAL_MAX - 1,
        SHARE_TOTAL_MAX, SHARE_TOTAL_MAX + 1, UINT64_MAX,
    };
    static const size_t counts[] = {
        0, 1, 2, 3, 63, 64, 65, 255, 256, SHARE_COUNT_MAX - 1, SHARE_COUNT_MAX, SHARE_COUNT_MAX + 1,
    };

    for EACH(t, totals)
        for EACH(c, counts)
            for (int pattern = 0; pattern <= 8; pattern++)
                for (size_t cut = 0; cut < SHARE_WEIGHT_SIZE; cut++) {
                    size_t n = counts[c], exact = n * SHARE_AMOUNT_SIZE;
                    const size_t lens[] = {
                        0, exact / 2, exact - (n > 0), exact, exact + 1,
                        exact + SHARE_AMOUNT_SIZE, exact + SURPLUS,
                    };
                    struct input in = {
                        .total = totals[t],
                        .weights_len = n * SHARE_WEIGHT_SIZE + cut,
                    };
                    for (size_t i = 0; i < n; i++)
                        set_weight(&in, i, edge_weight(pattern, i, n));
                    for EACH(l, lens) {
                        in.amounts_len = lens[l];
                        compare(&in);
                    }
                }
}

/* ---- Seeded inputs */

static uint64_t random_total(size_t n)
{
    switch (below(16)) {
    case 0: return 0;
    case 1: return SHARE_TOTAL_MAX;
    case 2: return SHARE_TOTAL_MAX - below(100);
    case 3: return one_in(4) ? SHARE_TOTAL_MAX + 1 + below(100) : below(100000);
    case 4: return one_in(4) ? next() : below(100000);
    case 5: case 6: case 7: return below(2 * n + 2);
    case 8: case 9: return below(3000001);
    default: return below(SHARE_TOTAL_MAX + 1);
    }
}

static void random_weights(struct input *in, size_t n)
{
    const uint32_t most[] = {1, 3, 100, 65536, SHARE_WEIGHT_MAX};
    uint32_t bound = most[below(5)] + 1;
    uint32_t one = (uint32_t)below(bound), other = (uint32_t)below(bound);
    uint64_t kind = below(16);

    for (size_t i = 0; i < n; i++)
        switch (kind) {
        case 0: set_weight(in, i, 0); break;
        case 1: case 2: set_weight(in, i, one); break;
        case 3: case 4: set_weight(in, i, one_in(2) ? one : other); break;
        case 5: set_weight(in, i, SHARE_WEIGHT_MAX - (uint32_t)below(10)); break;
        case 6: set_weight(in, i, one_in(8) ? one : 0); break;
        default: set_weight(in, i, (uint32_t)below(bound)); break;
        }
    if (n > 0 && one_in(16))
        set_weight(in, below(n), one_in(2) ? SHARE_WEIGHT_MAX + 1 : (uint32_t)next());
}

static size_t random_count(void)
{
    switch (below(16)) {
    case 0: return 1;
    case 1: case 2: return SHARE_COUNT_MAX;
    case 3: return one_in(4) ? 0 : 2;
    case 4: return one_in(4) ? SHARE_COUNT_MAX + 1 + below(2) : 3;
    case 5: case 6: case 7: case 8: return 1 + below(64);
    default: return 1 + below(SHARE_COUNT_MAX);
    }
}

static size_t random_len(size_t exact)
{
    switch (below(8)) {
    case 0: return below(exact + 1);
    case 1: return one_in(4) ? 0 : exact - (exact > 0);
    case 2: case 3: case 4: return exact + below(SURPLUS + 1);
    default: return exact;
    }
}

static void compare_seeded(void)
{
    for (int k = 0; k < SEEDED; k++) {
        size_t n = random_count();
        struct input in = {
            .total = random_total(n),
            .weights_len = n * SHARE_WEIGHT_SIZE + (one_in(16) ? 1 + below(3) : 0),
            .amounts_len = random_len(n * SHARE_AMOUNT_SIZE),
        };
        fill(in.weights, sizeof in.weights);
        random_weights(&in, n);
        compare(&in);
    }
}

int main(int argc, char **argv)
{
    unsigned long inputs = 0;
    int missing = 0;

    if (argc > 1)
        seed = strtoull(argv[1], NULL, 10);
    state = seed;

    compare_known();
    compare_edges();
    compare_seeded();

    for (int i = 0; i < LINES; i++) {
        printf("%-30s %8lu\n", lines[i], met[i]);
        inputs += met[i];
        missing |= met[i] == 0;
    }
    if (missing) {
        printf("compare: FAILED: a line of the above was never met\n");
        return 1;
    }
    for (size_t n = 1; n <= SHARE_COUNT_MAX; n++) {
        if (divided[n] == 0) {
            printf("compare: FAILED: no total was divided among %zu\n", n);
            return 1;
        }
    }
    printf("compare: %lu inputs, no difference\n", inputs);
    return 0;
}
