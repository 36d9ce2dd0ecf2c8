/*
 * A desk plug-in: reads a duty file, searches for the cheapest plan, or for the one whose longest duty is cheapest, checks it and prints
 * the roster. The numbers after `agreed` are those of duties that must be in the plan, and after `absent` of duties that must not be; both
 * rise, and an absent duty is struck from the agreed ones. Those after `pairs` are the first and the second duty of each pair in turn: the
 * first may be in the plan only if the second is. With `drag` it makes an empty desk over the file, puts duty N in at +N and takes it out
 * at -N, and says after each such step whether the duties in are a plan. The file may be SPP1 or SPP2, but `longest` takes SPP1 alone.
 *
 *     gcc -Iinclude examples/desk.c target/staticlib/libspp.a -o desk
 *     ./desk FILE [ALLOWANCE [sum|longest [agreed N..] [absent N..] [pairs N N..]]]
 *     ./desk FILE drag [+N|-N]..
 *
 * Exit status: 0 with a roster, or with a plan on the desk at the end; 1 if there is no plan to show; 2 with an error.
 */
#include <errno.h>
#include <inttypes.h>
#include <stdio.h>
#include <stdlib.h>
#include <string.h>

#include "spp.h"

/* The file's bytes and its lists as the reader fills them in. */
struct duties {
    uint8_t file[SPP_MOST_BYTES + 1];
    size_t length;
    int32_t costs[SPP_MOST_COLUMNS];
    uint16_t lengths[SPP_MOST_COLUMNS];
    uint8_t rows[SPP_MOST_ENTRIES];
    struct spp_shape shape;
};

/*
 * Duty numbers. A list that is longer than this cannot rise, and is refused by its first places; and as pairs it is refused by its
 * length, which is one above that of the most pairs.
 */
struct numbers {
    uint16_t list[SPP_MOST_COLUMNS + 1];
    size_t count;
};

/* The lists that a desk may give. */
struct asked {
    struct numbers agreed, absent, pairs;
};

/* The first refusals, each at the place of its number. */
static const char *const reasons[] = {
    "accepted",
    "not a duty file (it has under 8 bytes or begins with neither SPP1 nor SPP2)",
    "the number of sailings or duties is out of range",
    "the file ends inside its contents",
    "a price is out of range",
    "the number of sailings of a duty is out of range",
    "more than 4,096 sailing numbers in all",
    "a duty's body does not start where the former ends",
    "the file does not end with its last body",
    "a sailing number is out of range or not rising",
    "a lent list is too short",
    "the allowance is not from 1 to 1,000,000",
    "a duty number is out of range or not rising",
    "the lists to write disagree in length",
    "an agreed duty number is out of range or not rising",
    "an absent duty number is out of range or not rising",
};

static const char *reason(uint32_t refusal) {
    if (refusal < sizeof reasons / sizeof *reasons) {
        return reasons[refusal];
    }
    switch (refusal) {
    case SPP_NO_COLUMN:
        return "the duty number is out of range";
    case SPP_BAD_PAIR:
        return "a duty number of a pair is out of range, or a duty is paired with itself";
    case SPP_BAD_PAIR_COUNT:
        return "the pairs have an odd number of duty numbers, or are more than 128";
    case SPP_OVERLAP:
        return "two lent lists overlap";
    default:
        return "a null pointer was lent";
    }
}

/* Prints a refusal and why, behind the lines printed before. */
static int refused_as(const char *call, uint32_t refusal, const char *why) {
    fflush(stdout);
    fprintf(stderr, "desk: %s refused, %u: %s\n", call, (unsigned)refusal, why);
    return 2;
}

static int refused(const char *call, uint32_t refusal) {
    return refused_as(call, refusal, reason(refusal));
}

/* Reads at most one byte more than a duty file may have, so that a longer file is seen to be too long. */
static int load(const char *name, struct duties *duties) {
    FILE *stream = fopen(name, "rb");
    int failed;
    if (!stream) {
        fprintf(stderr, "desk: %s: %s\n", name, strerror(errno));
        return 2;
    }
    duties->length = fread(duties->file, 1, sizeof duties->file, stream);
    failed = ferror(stream);
    fclose(stream);
    if (failed) {
        fprintf(stderr, "desk: %s cannot be read\n", name);
        return 2;
    }
    duties->shape = spp_read(duties->file, duties->length, duties->costs, SPP_MOST_COLUMNS, duties->lengths,
                             SPP_MOST_COLUMNS, duties->rows, SPP_MOST_ENTRIES);
    return duties->shape.refusal ? refused("reading", duties->shape.refusal) : 0;
}

/* Prints one duty with its price and its sailings. */
static void print_duty(const struct duties *duties, uint16_t column) {
    size_t start = 0, i;
    for (i = 0; i + 1 < column; i++) {
        start += duties->lengths[i];
    }
    printf("duty %u, price %" PRId32 ", sailings", (unsigned)column, duties->costs[column - 1]);
    for (i = 0; i < duties->lengths[column - 1]; i++) {
        printf(" %u", (unsigned)duties->rows[start + i]);
    }
    printf("\n");
}

/* The price of the dearest duty of a plan. */
static int64_t dearest(const struct duties *duties, const uint16_t *plan, size_t count) {
    int64_t most = SPP_LEAST_COST;
    size_t i;
    for (i = 0; i < count; i++) {
        if (duties->costs[plan[i] - 1] > most) {
            most = duties->costs[plan[i] - 1];
        }
    }
    return most;
}

/* Checks the plan shown against the file, and prints it. */
static int print_roster(const struct duties *duties, struct spp_answer answer, const uint16_t *plan, int longest) {
    struct spp_checked checked = spp_check(duties->file, duties->length, plan, answer.columns);
    size_t i;
    if (checked.refusal) {
        return refused("the plan check", checked.refusal);
    }
    if (!checked.is_plan || answer.price != (longest ? dearest(duties, plan, answer.columns) : checked.price)) {
        fprintf(stderr, "desk: the plan shown does not pass the plan check\n");
        return 2;
    }
    printf("%s roster: %u duties, %s %" PRId64 ", floor %" PRId64 ", %u nodes\n",
           answer.outcome == SPP_BEST ? "best" : "stopped", (unsigned)answer.columns, longest ? "longest duty" : "price",
           answer.price, answer.bound, (unsigned)answer.nodes);
    for (i = 0; i < answer.columns; i++) {
        print_duty(duties, plan[i]);
    }
    return 0;
}

/* Whether some duty is agreed and absent. */
static int overlap(const struct spp_lists *lists) {
    size_t i, j;
    for (i = 0; i < lists->agreed_count; i++) {
        for (j = 0; j < lists->absent_count; j++) {
            if (lists->agreed[i] == lists->absent[j]) {
                return 1;
            }
        }
    }
    return 0;
}

/* Prints what no plan does, by the lists that are given. */
static void print_unmet(const struct spp_lists *lists) {
    if (lists->agreed_count || lists->absent_count) {
        printf("has every agreed duty%s and no absent one%s", overlap(lists) ? " that is not absent" : "",
               lists->pair_count ? " and obeys the pairs" : "");
    } else {
        printf("%s", lists->pair_count ? "obeys the pairs" : "exists");
    }
}

static int solve(const struct duties *duties, uint32_t node_limit, int longest, const struct spp_lists *lists) {
    uint16_t plan[SPP_MOST_ROWS];
    struct spp_answer answer = (longest ? spp_longest_with : spp_search_with)(duties->file, duties->length, node_limit,
                                                                              lists, plan, SPP_MOST_ROWS);
    if (answer.refusal == SPP_BAD_MARK) {
        /* The reader took the file, so the search does not take its edition. */
        return refused_as("the search", answer.refusal,
                          "the longest duty is searched for in SPP1 files alone, and this is SPP2");
    }
    if (answer.refusal) {
        return refused("the search", answer.refusal);
    }
    if (answer.has_plan) {
        return print_roster(duties, answer, plan, longest);
    }
    if (answer.outcome == SPP_NONE) {
        printf("no roster: no plan ");
        print_unmet(lists);
        printf(", %u nodes\n", (unsigned)answer.nodes);
    } else {
        printf("no roster: stopped without a plan, floor %" PRId64 ", %u nodes\n", answer.bound, (unsigned)answer.nodes);
    }
    return 1;
}

/* A text of digits as a number; `other` for any other text, and for a number above `most`. */
static unsigned long number_of(const char *text, unsigned long most, unsigned long other) {
    char *end;
    unsigned long number = strtoul(text, &end, 10);
    return *text < '0' || *text > '9' || *end || number > most ? other : number;
}

static int usage(void) {
    fprintf(stderr, "usage: desk FILE [ALLOWANCE [sum|longest [agreed N..] [absent N..] [pairs N N..]]]\n");
    fprintf(stderr, "       desk FILE drag [+N|-N]..\n");
    return 2;
}

/* A text as a duty number, which may be out of range; NO_DUTY for any other text. */
#define NO_DUTY (UINT16_MAX + 1ul)
static unsigned long duty_of(const char *text) {
    return number_of(text, UINT16_MAX, NO_DUTY);
}

static int no_duty(const char *word) {
    fprintf(stderr, "desk: %s is not a duty number\n", word);
    return 2;
}

/* Reads the words after the goal, up to a null pointer: numbers after `agreed`, `absent` or `pairs` are put into that list. */
static int read_lists(char **words, struct asked *asked) {
    struct numbers *numbers = NULL;
    for (; *words; words++) {
        unsigned long number = duty_of(*words);
        if (!strcmp(*words, "agreed")) {
            numbers = &asked->agreed;
        } else if (!strcmp(*words, "absent")) {
            numbers = &asked->absent;
        } else if (!strcmp(*words, "pairs")) {
            numbers = &asked->pairs;
        } else if (!numbers) {
            return usage();
        } else if (number == NO_DUTY) {
            return no_duty(*words);
        } else if (numbers->count <= SPP_MOST_COLUMNS) {
            numbers->list[numbers->count++] = (uint16_t)number;
        }
    }
    return 0;
}

/* Looks at the words of steps, up to a null pointer: each is a sign and a duty number. */
static int read_steps(char **words) {
    for (; *words; words++) {
        if (**words != '+' && **words != '-') {
            return usage();
        }
        if (duty_of(*words + 1) == NO_DUTY) {
            return no_duty(*words);
        }
    }
    return 0;
}

/* Prints what the desk replies; gives the exit status. */
static int print_reply(const struct spp_desk *desk) {
    struct spp_reply reply = spp_desk_reply(desk);
    if (reply.is_plan) {
        printf("a plan, price %ld\n", (long)reply.price);
    } else {
        printf("no plan\n");
    }
    return reply.is_plan ? 0 : 1;
}

/* Makes the step of a word and prints what it came to, or its refusal; 0 with a refusal. */
static int make_step(const struct duties *duties, const char *word, struct spp_desk *desk) {
    int in = *word == '+';
    uint32_t column = (uint32_t)duty_of(word + 1);
    struct spp_step step = (in ? spp_desk_add : spp_desk_remove)(duties->file, duties->length, column, desk);
    char call[32];
    if (step.refusal) {
        snprintf(call, sizeof call, "the step %c%u", *word, (unsigned)column);
        refused(call, step.refusal);
    } else if (step.changed) {
        printf("duty %u %s: ", (unsigned)column, in ? "in" : "out");
    } else {
        printf("duty %u %s: ", (unsigned)column, in ? "is in already" : "is not in");
    }
    return !step.refusal;
}

/* Makes the steps of the words from an empty desk. A refused step leaves the desk as it was, and the next one follows. */
static int drag(const struct duties *duties, char **words) {
    struct spp_desk desk;
    uint32_t refusal = spp_desk_empty(duties->file, duties->length, &desk);
    int status;
    if (refusal) {
        return refused("the empty desk", refusal);
    }
    printf("empty desk: ");
    status = print_reply(&desk);
    for (; *words; words++) {
        if (make_step(duties, *words, &desk)) {
            status = print_reply(&desk);
        }
    }
    return status;
}

/* The file, and steps. */
static int drag_by_words(struct duties *duties, char **words) {
    int failed = read_steps(words + 3);
    failed = failed ? failed : load(words[1], duties);
    return failed ? failed : drag(duties, words + 3);
}

/* The file, and perhaps an allowance, a goal and lists. */
static int solve_by_words(struct duties *duties, int count, char **words) {
    static struct asked asked;
    struct spp_lists lists;
    uint32_t node_limit = SPP_MOST_NODES;
    int longest = count > 3 && !strcmp(words[3], "longest"), failed;
    if (count < 2 || (count > 3 && !longest && strcmp(words[3], "sum"))) {
        return usage();
    }
    if (count > 2) {
        /* The search refuses 0. */
        node_limit = (uint32_t)number_of(words[2], SPP_MOST_NODES, 0);
    }
    failed = count > 4 ? read_lists(words + 4, &asked) : 0;
    failed = failed ? failed : load(words[1], duties);
    if (failed) {
        return failed;
    }
    memset(&lists, 0, sizeof lists);
    lists.agreed = asked.agreed.list;
    lists.agreed_count = asked.agreed.count;
    lists.absent = asked.absent.list;
    lists.absent_count = asked.absent.count;
    lists.pairs = asked.pairs.list;
    lists.pair_count = asked.pairs.count;
    return solve(duties, node_limit, longest, &lists);
}

int main(int count, char **words) {
    static struct duties duties;
    int dragging = count > 2 && !strcmp(words[2], "drag");
    return dragging ? drag_by_words(&duties, words) : solve_by_words(&duties, count, words);
}
