/*
 * Times plant_outages and plain_outages on the same logs, in turn, and prints
 * the median time of one log by each and their ratio.
 */
#include "../rounds.h"

#include "plant.h"

typedef uint32_t outages(const uint8_t *log, size_t log_len,
                         uint8_t *figures, size_t figures_len);

outages plain_outages;

#define COUNT PLANT_LOG_ENTRIES_MAX
#define INPUTS 400
#define PASSES 4

/* A year, and how long before it the first entry may begin. */
#define YEAR (365 * 24 * 60)
#define BEFORE 30000

/* An outage has 1 to so many minutes, and the time to the next one fewer. */
#define SPELL 550

struct input {
    uint8_t log[PLANT_LOG_HEAD_SIZE + COUNT * PLANT_LOG_ENTRY_SIZE];
};

static struct input inputs[INPUTS];

/* 0 to one less than the bound */
static uint32_t below(uint32_t bound, uint64_t *state)
{
    return (uint32_t)(next(state) % bound);
}

static void put_number(uint8_t *at, uint32_t number)
{
    for (int k = 0; k < 4; k++)
        at[k] = (uint8_t)(number >> 8 * k);
}

/* A log of the two kinds, most entries within the window, some before or behind. */
static void make_inputs(void)
{
    uint64_t state = 1;
    for (int i = 0; i < INPUTS; i++) {
        uint8_t *at = inputs[i].log;
        uint32_t from = BEFORE + below(PLANT_MINUTE_MAX / 2, &state);
        uint32_t minute = from - below(BEFORE, &state);
        put_number(at, from);
        put_number(at + 4, from + YEAR);
        put_number(at + 8, below(YEAR, &state));
        at += PLANT_LOG_HEAD_SIZE;
        for (int j = 0; j < COUNT; j++) {
            uint32_t end = minute + 1 + below(SPELL, &state);
            put_number(at, minute);
            put_number(at + 4, end);
            at[8] = below(2, &state) ? PLANT_PLANNED : PLANT_FORCED;
            at += PLANT_LOG_ENTRY_SIZE;
            minute = end + below(SPELL, &state);
        }
    }
}

static void check_equal(void)
{
    for (int i = 0; i < INPUTS; i++) {
        uint8_t ours[PLANT_FIGURES_SIZE], plain[PLANT_FIGURES_SIZE];
        uint32_t a = plant_outages(inputs[i].log, sizeof inputs[i].log, ours, sizeof ours);
        uint32_t b = plain_outages(inputs[i].log, sizeof inputs[i].log, plain, sizeof plain);
        if (a != PLANT_OK || b != PLANT_OK || memcmp(ours, plain, sizeof ours) != 0) {
            fprintf(stderr, "bench: the two differ on input %d\n", i);
            exit(1);
        }
    }
}

/* The calls of a round. */
static void round_of(outages *f)
{
    static uint8_t figures[PLANT_FIGURES_SIZE];
    uint32_t refused = 0;

    for (int pass = 0; pass < PASSES; pass++)
        for (int i = 0; i < INPUTS; i++)
            refused |= f(inputs[i].log, sizeof inputs[i].log, figures, sizeof figures);
    if (refused != PLANT_OK)
        exit(1);
}

static void ours(void)
{
    round_of(plant_outages);
}

static void plain(void)
{
    round_of(plain_outages);
}

int main(void)
{
    make_inputs();
    check_equal();
    printf("one log of %d entries: ", COUNT);
    compare_rounds(INPUTS, PASSES * INPUTS, "libplant", ours, plain);
    return 0;
}
