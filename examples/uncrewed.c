/*
 * Which sailings can't be crewed: reads a duty file and prints up to which sailing all can be crewed by duties that share no sailing, the
 * numbers of such duties, and up to which sailing no duties do so; or that a plan exists.
 *
 *     gcc -Iinclude examples/uncrewed.c target/staticlib/libspp.a -o uncrewed
 *     ./uncrewed FILE [ALLOWANCE]
 *
 * Exit status: 0 with an answer, 1 if stopped by the allowance, 2 with an error. A refusal is printed by its number in include/spp.h. The
 * file must be SPP1.
 */
#include <errno.h>
#include <stdio.h>
#include <stdlib.h>
#include <string.h>

#include "spp.h"

/* Reads at most one byte more than a duty file may have, so that a longer file is seen to be too long. */
static int load(const char *name, uint8_t *file, size_t room, size_t *length) {
    FILE *stream = fopen(name, "rb");
    int failed;
    if (!stream) {
        fprintf(stderr, "uncrewed: %s: %s\n", name, strerror(errno));
        return 2;
    }
    *length = fread(file, 1, room, stream);
    failed = ferror(stream);
    fclose(stream);
    if (failed) {
        fprintf(stderr, "uncrewed: %s cannot be read\n", name);
        return 2;
    }
    return 0;
}

/* Prints the sailings from 1 up to a number. */
static void print_sailings(uint32_t last) {
    if (last == 1) {
        printf("sailing 1");
    } else {
        printf("sailings 1 to %u", (unsigned)last);
    }
}

/* Prints duties that crew the sailings up to one, and that no duties crew those up to the next. */
static void print_no_crew(struct spp_uncrewed answer, const uint16_t *shown) {
    size_t i;
    if (answer.columns > 0) {
        print_sailings(answer.row - 1);
        printf(" can be crewed by %s", answer.columns == 1 ? "duty" : "duties");
        for (i = 0; i < answer.columns; i++) {
            printf(" %u", (unsigned)shown[i]);
        }
        printf("; ");
    }
    printf("no duties crew ");
    print_sailings(answer.row);
    printf("\n");
}

/* What is said of an SPP2 file, behind the number of its refusal; nothing of others. */
static const char *of_edition(const uint8_t *file, size_t length) {
    return length >= 4 && !memcmp(file, "SPP2", 4) ? ": SPP1 files alone are taken, and this is SPP2" : "";
}

static int find(const uint8_t *file, size_t length, uint32_t node_limit) {
    uint16_t shown[SPP_MOST_ROWS];
    struct spp_uncrewed answer = spp_uncrewed(file, length, node_limit, shown, SPP_MOST_ROWS);
    if (answer.refusal) {
        fprintf(stderr, "uncrewed: refused, %u%s\n", (unsigned)answer.refusal, of_edition(file, length));
        return 2;
    }
    switch (answer.outcome) {
    case SPP_NO_CREW:
        print_no_crew(answer, shown);
        return 0;
    case SPP_PLAN_EXISTS:
        printf("a plan exists\n");
        return 0;
    default:
        printf("stopped at sailing %u: the allowance was used up\n", (unsigned)answer.row);
        return 1;
    }
}

/* A text of digits as a number; 0, which is refused, for any other text and for a number above the largest allowance. */
static uint32_t allowance_of(const char *text) {
    char *end;
    unsigned long number = strtoul(text, &end, 10);
    return *text < '0' || *text > '9' || *end || number > SPP_MOST_NODES ? 0 : (uint32_t)number;
}

int main(int count, char **words) {
    static uint8_t file[SPP_MOST_BYTES + 1];
    size_t length = 0;
    int failed;
    if (count != 2 && count != 3) {
        fprintf(stderr, "usage: uncrewed FILE [ALLOWANCE]\n");
        return 2;
    }
    failed = load(words[1], file, sizeof file, &length);
    return failed ? failed : find(file, length, count > 2 ? allowance_of(words[2]) : SPP_MOST_NODES);
}
