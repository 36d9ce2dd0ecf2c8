/*
 * Relief days: gives each crew of a table a vessel of its own at the least total, and prints the total and each crew's vessel and price.
 *
 *     gcc -Iinclude examples/relief.c target/staticlib/libspp.a -o relief
 *     ./relief
 */
#include <stdio.h>

#include "spp.h"

/* A table of prices, 0 for a closed pairing: a row for each crew, with a place for each vessel. */
struct relief {
    const char *name;
    size_t crews, vessels;
    uint32_t prices[SPP_MOST_CREWS][SPP_MOST_VESSELS];
};

/* The paper's examples 5 and 6, two crews that have one vessel open to them, and a table that is refused. */
static const struct relief days[] = {
    {"example 5", 5, 5, {{7, 3, 5, 7, 10}, {6, 0, 0, 8, 7}, {6, 5, 1, 5, 0}, {11, 4, 0, 11, 15}, {0, 4, 5, 2, 10}}},
    {"example 6",
     4,
     6,
     {{9, 22, 58, 11, 19, 27}, {43, 78, 72, 50, 63, 48}, {41, 28, 91, 37, 45, 33}, {74, 42, 27, 49, 39, 35}}},
    {"two crews for one vessel", 2, 3, {{0, 4, 0}, {0, 6, 0}}},
    {"more crews than vessels", 2, 1, {{5}, {6}}},
};

static const char *reason(uint32_t refusal) {
    switch (refusal) {
    case SPP_BAD_TABLE:
        return "no crews, above 16 crews or vessels, or more crews than vessels";
    case SPP_BAD_TABLE_COST:
        return "a price is above 1,000,000";
    case SPP_SHORT_LIST:
        return "the answer list is too short";
    default:
        return "the table and the answer list overlap, or a null pointer was lent";
    }
}

/* Assigns the crews of one table and prints the vessels. */
static void print_day(const struct relief *day) {
    uint8_t vessels[SPP_MOST_CREWS];
    struct spp_assigned answer = spp_assign(day->crews, day->vessels, &day->prices[0][0], vessels, SPP_MOST_CREWS);
    size_t crew;
    printf("%s: ", day->name);
    if (answer.refusal) {
        printf("refused, %u: %s\n", (unsigned)answer.refusal, reason(answer.refusal));
        return;
    }
    if (answer.outcome == SPP_NONE) {
        printf("no assignment\n");
        return;
    }
    printf("total %llu\n", (unsigned long long)answer.total);
    for (crew = 0; crew < day->crews; crew++) {
        printf("crew %u, vessel %u, price %u\n", (unsigned)crew + 1, (unsigned)vessels[crew],
               (unsigned)day->prices[crew][vessels[crew] - 1]);
    }
}

int main(void) {
    size_t day;
    for (day = 0; day < sizeof days / sizeof *days; day++) {
        print_day(&days[day]);
    }
    return 0;
}
