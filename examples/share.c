/*
 * Divides a month's charge among the participants by their demand, to the
 * cent, and prints the bill of each.
 */
#include <inttypes.h>
#include <stdio.h>

#include "share.h"

struct participant {
    const char *name;
    uint32_t demand; /* kW */
};

static const struct participant participants[] = {
    {"Highland Distribution", 412500},
    {"Coastal Distribution", 287300},
    {"Lakeside Municipal", 18750},
    {"Valley Municipal", 18750},
    {"Cement Works", 33200},
    {"Steel Mill", 46125},
    {"Sugar Mill, out of season", 0},
};

#define COUNT (sizeof participants / sizeof participants[0])

static const uint64_t charge = 729411210; /* cents */

static void put_weight(uint8_t *at, uint32_t weight)
{
    for (int i = 0; i < SHARE_WEIGHT_SIZE; i++)
        at[i] = (uint8_t)(weight >> 8 * i);
}

static uint64_t get_amount(const uint8_t *at)
{
    uint64_t amount = 0;
    for (int i = 0; i < SHARE_AMOUNT_SIZE; i++)
        amount |= (uint64_t)at[i] << 8 * i;
    return amount;
}

static void print_line(const char *name, uint64_t demand, uint64_t cents)
{
    printf("%-28s %10" PRIu64 " %14" PRIu64 ".%02" PRIu64 "\n",
           name, demand, cents / 100, cents % 100);
}

int main(void)
{
    uint8_t weights[COUNT * SHARE_WEIGHT_SIZE];
    uint8_t amounts[COUNT * SHARE_AMOUNT_SIZE];

    for (size_t i = 0; i < COUNT; i++)
        put_weight(weights + i * SHARE_WEIGHT_SIZE, participants[i].demand);

    uint32_t number = share_divide(charge, weights, sizeof weights,
                                   amounts, sizeof amounts);
    if (number != SHARE_OK) {
        fprintf(stderr, "share: refused with number %" PRIu32 "\n", number);
        return 1;
    }

    uint64_t demand = 0, billed = 0;
    printf("%-28s %10s %17s\n", "Participant", "Demand kW", "Charge");
    for (size_t i = 0; i < COUNT; i++) {
        uint64_t amount = get_amount(amounts + i * SHARE_AMOUNT_SIZE);
        print_line(participants[i].name, participants[i].demand, amount);
        demand += participants[i].demand;
        billed += amount;
    }
    print_line("Total", demand, billed);

    return billed == charge ? 0 : 1;
}
