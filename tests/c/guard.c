/*
 * The guards of include/spp.h: lists that overlap and null pointers are refused before the engine is entered, and nothing is touched.
 * Each case lends every call's lists at chosen places of one block of memory. The struct of the searches with lists stands in the block
 * too, as the last list of the call, with one place. It, the table of crews against vessels and the desk are lent without a count.
 * Accepted calls, on SPP1 and SPP2 files, have stated answers, so that the header's structs are held to the engine's.
 */
#include <stdio.h>
#include <string.h>

#include "spp.h"

#define BLOCK 8000
#define APART 1040 /* bytes between the lists' first places */
#define MOST_LISTS 6
#define PLAN 4   /* the place of the plan among the lists of a search with lists */
#define STRUCT 5 /* the place of the struct among them */
#define TABLE 0  /* the place of the table among the lists of spp_assign */
#define DESK 1   /* the place of the desk among the lists of a call on a desk */
#define PLACES (SPP_MOST_CREWS * SPP_MOST_VESSELS)

enum call {
    READ,
    WRITE,
    WRITE2,
    CHECK,
    REDUCE,
    SEARCH,
    LONGEST,
    SEARCH_WITH,
    LONGEST_WITH,
    ASSIGN,
    UNCREWED,
    DESK_EMPTY,
    DESK_ADD,
    DESK_REMOVE,
    DESK_REPLY /* takes no list */
};
static const char *const call_names[] = {"spp_read",         "spp_write",       "spp_write2",    "spp_check",
                                         "spp_reduce",       "spp_search",      "spp_longest",   "spp_search_with",
                                         "spp_longest_with", "spp_assign",      "spp_uncrewed",  "spp_desk_empty",
                                         "spp_desk_add",     "spp_desk_remove", "spp_desk_reply"};

/* The lists of each call: how many, and the bytes of one place. */
static const size_t list_counts[] = {4, 4, 4, 2, 3, 2, 2, 6, 6, 2, 2, 2, 2, 2};
static const size_t place_sizes[][MOST_LISTS] = {{1, 4, 2, 1, 0, 0},
                                                 {4, 2, 1, 1, 0, 0},
                                                 {4, 2, 1, 1, 0, 0},
                                                 {1, 2, 0, 0, 0, 0},
                                                 {1, 4, 1, 0, 0, 0},
                                                 {1, 2, 0, 0, 0, 0},
                                                 {1, 2, 0, 0, 0, 0},
                                                 {1, 2, 2, 2, 2, sizeof(struct spp_lists)},
                                                 {1, 2, 2, 2, 2, sizeof(struct spp_lists)},
                                                 {4, 1, 0, 0, 0, 0},
                                                 {1, 2, 0, 0, 0, 0},
                                                 {1, sizeof(struct spp_desk), 0, 0, 0, 0},
                                                 {1, sizeof(struct spp_desk), 0, 0, 0, 0},
                                                 {1, sizeof(struct spp_desk), 0, 0, 0, 0}};

/* Example 1 of the paper, which is example 7 too: 5 rows, 8 columns, 13 entries. */
static const int32_t costs[8] = {3, 7, 5, 8, 10, 4, 6, 9};
static const uint16_t lengths[8] = {1, 2, 1, 2, 2, 2, 2, 1};
static const uint8_t rows[13] = {1, 1, 5, 2, 2, 5, 2, 3, 3, 5, 3, 4, 4};
static const uint16_t plan[3] = {1, 4, 7}, longest_plan[3] = {2, 3, 7};
/* With these lists the plan 2 3 7 is forced. */
static const uint16_t agreed[1] = {2}, absent[1] = {8};
/* No plan has columns 1 and 5, so with this pair 1 4 7 is out. */
static const uint16_t pairs[2] = {1, 5};
static uint8_t file[85];

/* The rows of example 1 with costs for SPP2. Its plans are 1 4 7 at -5, 1 3 6 8 at -3, 2 3 7 at -1 and 2 5 8 at 1,000,003. */
static const int32_t earning[8] = {-3, -7, 0, -8, 10, SPP_LEAST_COST, 6, SPP_MOST_COST};
static uint8_t earning_file[85];
/* The same, where the best plan, 2 5 8 at -17, is found after 1 3 6 8 at -16. */
static const int32_t late[8] = {3, -1, -2, -7, -9, -10, -3, -7};
static const uint16_t early_plan[4] = {1, 3, 6, 8}, late_plan[3] = {2, 5, 8};

/* 5 rows, 3 columns: no column covers row 4, and columns 1 and 2 cover rows 1 to 3. */
static const int32_t gap_costs[3] = {6, 8, 7};
static const uint16_t gap_lengths[3] = {2, 1, 1}, gap_shown[2] = {1, 2};
static const uint8_t gap_rows[4] = {1, 2, 3, 5};
static uint8_t gap_file[36];

/* Example 5 of the paper: 5 crews, 5 vessels. */
static const uint32_t example_5[5][5] = {
    {7, 3, 5, 7, 10}, {6, 0, 0, 8, 7}, {6, 5, 1, 5, 0}, {11, 4, 0, 11, 15}, {0, 4, 5, 2, 10}};
static uint32_t table[PLACES];
static const uint8_t vessels[5] = {1, 5, 3, 2, 4};

/* The block is aligned for every list. */
static union {
    uint64_t aligned;
    uint8_t bytes[BLOCK];
} block, before;

/* One lent list: its place in the block, or null, and the number of its places. */
struct lent {
    void *start;
    size_t count;
};

static unsigned long cases, differences;

static void holds(int condition, enum call call, const char *what) {
    cases++;
    if (!condition) {
        differences++;
        printf("DIFFERENCE: %s, %s\n", call_names[call], what);
    }
}

/* Puts example 5 into the table, and outside its crews and vessels a cost that is out of range. */
static void fill_table(void) {
    size_t i;
    for (i = 0; i < PLACES; i++) {
        size_t crew = i / SPP_MOST_VESSELS, vessel = i % SPP_MOST_VESSELS;
        table[i] = crew < 5 && vessel < 5 ? example_5[crew][vessel] : UINT32_MAX;
    }
}

/* Calls with these lists and gives the refusal. */
static uint32_t refusal_of(enum call call, const struct lent *l) {
    switch (call) {
    case READ:
        return spp_read((uint8_t *)l[0].start, l[0].count, (int32_t *)l[1].start, l[1].count, (uint16_t *)l[2].start,
                        l[2].count, (uint8_t *)l[3].start, l[3].count)
            .refusal;
    case WRITE:
    case WRITE2:
        return (call == WRITE ? spp_write : spp_write2)(5, (int32_t *)l[0].start, l[0].count, (uint16_t *)l[1].start,
                                                        l[1].count, (uint8_t *)l[2].start, l[2].count,
                                                        (uint8_t *)l[3].start, l[3].count)
            .refusal;
    case CHECK:
        return spp_check((uint8_t *)l[0].start, l[0].count, (uint16_t *)l[1].start, l[1].count).refusal;
    case REDUCE:
        return spp_reduce((uint8_t *)l[0].start, l[0].count, (int32_t *)l[1].start, l[1].count, (uint8_t *)l[2].start,
                          l[2].count)
            .refusal;
    case SEARCH:
        return spp_search((uint8_t *)l[0].start, l[0].count, 1000, (uint16_t *)l[1].start, l[1].count).refusal;
    case LONGEST:
        return spp_longest((uint8_t *)l[0].start, l[0].count, 1000, (uint16_t *)l[1].start, l[1].count).refusal;
    case UNCREWED:
        return spp_uncrewed((uint8_t *)l[0].start, l[0].count, 1000, (uint16_t *)l[1].start, l[1].count).refusal;
    case ASSIGN:
        return spp_assign(5, 5, (uint32_t *)l[TABLE].start, (uint8_t *)l[1].start, l[1].count).refusal;
    case DESK_EMPTY:
        return spp_desk_empty((uint8_t *)l[0].start, l[0].count, (struct spp_desk *)l[DESK].start);
    case DESK_ADD:
        return spp_desk_add((uint8_t *)l[0].start, l[0].count, 2, (struct spp_desk *)l[DESK].start).refusal;
    case DESK_REMOVE:
        return spp_desk_remove((uint8_t *)l[0].start, l[0].count, 2, (struct spp_desk *)l[DESK].start).refusal;
    default:
        return (call == SEARCH_WITH ? spp_search_with : spp_longest_with)((uint8_t *)l[0].start, l[0].count, 1000,
                                                                          (struct spp_lists *)l[STRUCT].start,
                                                                          (uint16_t *)l[PLAN].start, l[PLAN].count)
            .refusal;
    }
}

/* Lists of agreed and absent columns and of pairs as a struct. */
static struct spp_lists lists_of(const void *agreed_start, size_t agreed_count, const void *absent_start,
                                 size_t absent_count, const void *pairs_start, size_t pair_count) {
    struct spp_lists lists;
    memset(&lists, 0, sizeof lists);
    lists.agreed = (const uint16_t *)agreed_start;
    lists.agreed_count = agreed_count;
    lists.absent = (const uint16_t *)absent_start;
    lists.absent_count = absent_count;
    lists.pairs = (const uint16_t *)pairs_start;
    lists.pair_count = pair_count;
    return lists;
}

/* Whether the call is one of the two writers. */
static int is_writer(enum call call) {
    return call == WRITE || call == WRITE2;
}

/* Whether the call takes a struct. */
static int has_struct(enum call call) {
    return list_counts[call] > STRUCT;
}

/* Whether the call takes a desk and a file. */
static int has_desk(enum call call) {
    return call == DESK_EMPTY || call == DESK_ADD || call == DESK_REMOVE;
}

/* The place of the list that is lent without a count, the struct, the table or the desk; MOST_LISTS for none. */
static size_t uncounted(enum call call) {
    return call == ASSIGN ? TABLE : has_desk(call) ? DESK : has_struct(call) ? STRUCT : MOST_LISTS;
}

/* Puts the agreed and absent lists and the pairs that are lent into the struct that is lent. */
static void put_struct(enum call call, const struct lent *l) {
    if (has_struct(call) && l[STRUCT].start) {
        struct spp_lists lists = lists_of(l[1].start, l[1].count, l[2].start, l[2].count, l[3].start, l[3].count);
        memcpy(l[STRUCT].start, &lists, sizeof lists);
    }
}

/* Fills the block with a pattern and lends each list at a place of its own, with what an accepted call needs. */
static void lend(enum call call, struct lent *l) {
    static const size_t counts[][MOST_LISTS] = {{85, 8, 8, 13, 0, 0},    {8, 8, 13, 85, 0, 0}, {8, 8, 13, 85, 0, 0},
                                                {85, 3, 0, 0, 0, 0},     {85, 8, 5, 0, 0, 0},  {85, 5, 0, 0, 0, 0},
                                                {85, 5, 0, 0, 0, 0},     {85, 1, 1, 2, 5, 1},  {85, 1, 1, 2, 5, 1},
                                                {PLACES, 8, 0, 0, 0, 0}, {85, 5, 0, 0, 0, 0},  {85, 1, 0, 0, 0, 0},
                                                {85, 1, 0, 0, 0, 0},     {85, 1, 0, 0, 0, 0}};
    size_t i;
    for (i = 0; i < BLOCK; i++) {
        block.bytes[i] = (uint8_t)(i * 5 + 77);
    }
    for (i = 0; i < list_counts[call]; i++) {
        l[i].start = block.bytes + APART * (i + 1);
        l[i].count = counts[call][i];
    }
    if (is_writer(call)) {
        memcpy(l[0].start, call == WRITE ? costs : earning, sizeof costs);
        memcpy(l[1].start, lengths, sizeof lengths);
        memcpy(l[2].start, rows, sizeof rows);
    } else if (call == ASSIGN) {
        memcpy(l[TABLE].start, table, sizeof table);
    } else {
        memcpy(l[0].start, file, sizeof file);
    }
    if (call == CHECK) {
        memcpy(l[1].start, plan, sizeof plan);
    }
    if (has_struct(call)) {
        memcpy(l[1].start, agreed, sizeof agreed);
        memcpy(l[2].start, absent, sizeof absent);
        memcpy(l[3].start, pairs, sizeof pairs);
    }
}

/* The call must refuse with this number and leave the whole block as it was. */
static void refuses(enum call call, const struct lent *l, uint32_t wanted, const char *what) {
    put_struct(call, l);
    before = block;
    holds(refusal_of(call, l) == wanted, call, what);
    holds(memcmp(&before, &block, sizeof block) == 0, call, "a refusal touched a list");
}

/* The call must not be refused by a guard. */
static void enters(enum call call, const struct lent *l, const char *what) {
    put_struct(call, l);
    holds(refusal_of(call, l) < SPP_OVERLAP, call, what);
}

/* Moves list j so that it begins at the byte at an offset from list i, rounded up to the size of its places. */
static void move(enum call call, struct lent *l, size_t i, size_t j, size_t offset) {
    size_t size = place_sizes[call][j];
    l[j].start = (uint8_t *)l[i].start + (offset + size - 1) / size * size;
}

/* One array lent as two lists, lists that share some bytes, and lists that lie side by side. */
static void two_lists(enum call call) {
    struct lent l[MOST_LISTS];
    size_t i, j, bytes;
    for (i = 0; i < list_counts[call]; i++) {
        for (j = 0; j < list_counts[call]; j++) {
            if (i == j) {
                continue;
            }
            lend(call, l);
            bytes = l[i].count * place_sizes[call][i];
            move(call, l, i, j, 0);
            refuses(call, l, SPP_OVERLAP, "one array lent as two lists");
            if (place_sizes[call][j] <= place_sizes[call][i]) {
                move(call, l, i, j, bytes - place_sizes[call][j]);
                refuses(call, l, SPP_OVERLAP, "two lists share their last and first place");
            }
            move(call, l, i, j, bytes);
            enters(call, l, "two lists side by side");
            if (j == uncounted(call)) {
                continue;
            }
            lend(call, l);
            l[j].count = 0;
            move(call, l, i, j, 0);
            enters(call, l, "an empty list at another's first place");
            move(call, l, i, j, bytes / 2);
            enters(call, l, "an empty list inside another");
        }
    }
}

/* Makes all lists null and empty but for the one that is lent without a count. */
static void make_empty(enum call call, struct lent *l) {
    size_t i;
    for (i = 0; i < list_counts[call]; i++) {
        if (i != uncounted(call)) {
            l[i].start = NULL;
            l[i].count = 0;
        }
    }
}

/* A null pointer for the list that is lent without a count, with other lists and with none. */
static void null_uncounted(enum call call) {
    struct lent l[MOST_LISTS];
    lend(call, l);
    l[uncounted(call)].start = NULL;
    refuses(call, l, SPP_NULL, "a null pointer for the struct, the table or the desk");
    make_empty(call, l);
    refuses(call, l, SPP_NULL, "a null pointer for the struct, the table or the desk, and all lists null and empty");
}

/* Null pointers, with and without a count, and counts beyond the address space. */
static void nulls(enum call call) {
    struct lent l[MOST_LISTS];
    size_t i;
    if (uncounted(call) < MOST_LISTS) {
        null_uncounted(call);
    }
    for (i = 0; i < list_counts[call]; i++) {
        if (i == uncounted(call)) {
            continue;
        }
        lend(call, l);
        l[i].start = NULL;
        refuses(call, l, SPP_NULL, "a null pointer with a count");
        l[i].count = 1;
        refuses(call, l, SPP_NULL, "a null pointer with count 1");
        l[i].count = 0;
        enters(call, l, "a null pointer with count 0");
        lend(call, l);
        l[i].count = SIZE_MAX;
        refuses(call, l, SPP_OVERLAP, "a count beyond the address space");
        if (place_sizes[call][i] > 1) {
            l[i].count = SIZE_MAX / place_sizes[call][i] + 1;
            refuses(call, l, SPP_OVERLAP, "a count whose bytes wrap round to 0");
        }
        if (i + 1 < list_counts[call]) {
            l[i].count = APART / place_sizes[call][i] + 1;
            refuses(call, l, SPP_OVERLAP, "a list that ends in the next one");
            l[i].count = APART / place_sizes[call][i];
            enters(call, l, "a list that ends where the next one starts");
        }
        make_empty(call, l);
        enters(call, l, "all lists null and empty");
    }
}

static int equal_answers(struct spp_answer a, struct spp_answer b) {
    return a.refusal == b.refusal && a.outcome == b.outcome && a.has_plan == b.has_plan && a.columns == b.columns &&
           a.nodes == b.nodes && a.price == b.price && a.bound == b.bound;
}

/* An accepted search of a file of example 1's rows through the header: the stated answer and plan, and the same as from the engine. */
static void accepted_search(enum call call, const uint8_t *bytes, uint32_t node_limit, const uint16_t *wanted_plan,
                            struct spp_answer wanted, const char *what) {
    uint16_t found[5], core_found[5], empty[3] = {0, 0, 0};
    struct spp_answer answer = (call == SEARCH ? spp_search : spp_longest)(bytes, 85, node_limit, found, 5);
    struct spp_answer core_answer = (call == SEARCH ? spp_core_search : spp_core_longest)(
        bytes, 85, node_limit, empty, 0, empty + 1, 0, empty + 2, 0, core_found, 5);
    size_t size = wanted.columns * sizeof *plan;
    holds(equal_answers(answer, wanted) && !memcmp(found, wanted_plan, size), call, what);
    holds(equal_answers(answer, core_answer) && !memcmp(found, core_found, size), call, "header and engine");
}

/* Both searches with lists. */
typedef struct spp_answer (*search_with)(const uint8_t *, size_t, uint32_t, const struct spp_lists *, uint16_t *, size_t);

/* Refusals of lists through the header. */
static void refused_lists(enum call call, search_with search) {
    uint16_t found[5], twice[2] = {2, 2}, out_of_range[2] = {2, 9};
    static uint16_t many[2 * SPP_MOST_PAIRS + 2];
    struct spp_lists lists = lists_of(twice, 2, twice, 2, NULL, 0);
    size_t i;
    holds(search(file, 85, 1000, &lists, found, 5).refusal == SPP_OVERLAP, call, "one list lent as agreed and absent");
    lists = lists_of(twice, 2, NULL, 0, twice, 2);
    holds(search(file, 85, 1000, &lists, found, 5).refusal == SPP_OVERLAP, call, "one list lent as agreed and as pairs");
    lists = lists_of(NULL, 0, found, 5, found, 2);
    holds(search(file, 85, 1000, &lists, found, 5).refusal == SPP_OVERLAP, call, "the plan list lent as absent and as pairs");
    lists = lists_of(twice, 2, absent, 1, pairs, 1);
    holds(search(file, 85, 1000, &lists, found, 5).refusal == SPP_BAD_AGREED, call, "an agreed list that does not rise");
    lists = lists_of(agreed, 1, twice, 2, pairs, 1);
    holds(search(file, 85, 1000, &lists, found, 5).refusal == SPP_BAD_ABSENT, call, "an absent list that does not rise");
    lists = lists_of(agreed, 1, absent, 1, pairs, 1);
    holds(search(file, 85, 1000, &lists, found, 5).refusal == SPP_BAD_PAIR_COUNT, call, "one number in the list of pairs");
    lists = lists_of(agreed, 1, absent, 1, twice, 2);
    holds(search(file, 85, 1000, &lists, found, 5).refusal == SPP_BAD_PAIR, call, "a pair of a column and itself");
    lists = lists_of(agreed, 1, absent, 1, out_of_range, 2);
    holds(search(file, 85, 1000, &lists, found, 5).refusal == SPP_BAD_PAIR, call, "a pair with column 9 of 8");
    for (i = 0; i < sizeof many / sizeof *many; i++) {
        many[i] = (uint16_t)(i % 2 + 2);
    }
    lists = lists_of(NULL, 0, NULL, 0, many, 2 * SPP_MOST_PAIRS);
    holds(search(file, 85, 1000, &lists, found, 5).refusal == SPP_ACCEPTED, call, "128 pairs");
    lists = lists_of(NULL, 0, NULL, 0, many, 2 * SPP_MOST_PAIRS + 2);
    holds(search(file, 85, 1000, &lists, found, 5).refusal == SPP_BAD_PAIR_COUNT, call, "129 pairs");
}

/* Searches of a file of example 1's rows with lists: a struct of zeros gives the answer without, and other lists the stated answers. */
static void accepted_lists(enum call call, const uint8_t *bytes, int64_t price, struct spp_answer with_pairs) {
    const search_with search = call == SEARCH_WITH ? spp_search_with : spp_longest_with;
    const spp_core_call core = call == SEARCH_WITH ? spp_core_search : spp_core_longest;
    struct spp_answer wanted = {0, SPP_BEST, 1, 3, 1, price, price};
    struct spp_lists none = lists_of(NULL, 0, NULL, 0, NULL, 0), lists = lists_of(agreed, 1, absent, 1, NULL, 0);
    uint16_t found[5], former_found[5], empty[2] = {0, 0};
    struct spp_answer answer = search(bytes, 85, 1000, &none, found, 5);
    struct spp_answer former = (call == SEARCH_WITH ? spp_search : spp_longest)(bytes, 85, 1000, former_found, 5);
    holds(equal_answers(answer, former) && !memcmp(found, former_found, sizeof plan), call, "no lists");
    answer = search(bytes, 85, 1000, &lists, found, 5);
    holds(equal_answers(answer, wanted) && !memcmp(found, longest_plan, sizeof plan), call, "agreed 2, absent 8");
    lists = lists_of(NULL, 0, NULL, 0, pairs, 2);
    answer = search(bytes, 85, 1000, &lists, found, 5);
    holds(equal_answers(answer, with_pairs) && !memcmp(found, longest_plan, sizeof plan), call, "1 needs 5");
    former = core(bytes, 85, 1000, empty, 0, empty + 1, 0, pairs, 2, former_found, 5);
    holds(equal_answers(answer, former) && !memcmp(found, former_found, sizeof plan), call, "pairs, header and engine");
    refused_lists(call, search);
}

/* A column in both lists, which are two arrays: the stated answer, which is that of the absent list alone. */
static void column_in_both(enum call call, const uint8_t *bytes, int64_t price) {
    const search_with search = call == SEARCH_WITH ? spp_search_with : spp_longest_with;
    const uint16_t also_absent[1] = {2};
    struct spp_lists both = lists_of(agreed, 1, also_absent, 1, NULL, 0), alone = lists_of(NULL, 0, also_absent, 1, NULL, 0);
    uint16_t found[5], found_alone[5];
    struct spp_answer answer = search(bytes, 85, 1000, &both, found, 5);
    struct spp_answer wanted = search(bytes, 85, 1000, &alone, found_alone, 5);
    holds(answer.outcome == SPP_BEST && answer.price == price && !memcmp(found, plan, sizeof plan), call, "2 agreed and absent");
    holds(equal_answers(answer, wanted) && !memcmp(found, found_alone, sizeof plan), call, "2 agreed and absent, and 2 absent");
}

/* A struct that gives the first four fields by their places, as a plug-in may, has no pairs. */
#pragma GCC diagnostic push
#pragma GCC diagnostic ignored "-Wmissing-field-initializers"
static void four_fields(enum call call, const uint8_t *bytes, int64_t price) {
    const struct spp_lists lists = {agreed, 1, absent, 1};
    struct spp_answer wanted = {0, SPP_BEST, 1, 3, 1, price, price}, answer;
    uint16_t found[5];
    answer = (call == SEARCH_WITH ? spp_search_with : spp_longest_with)(bytes, 85, 1000, &lists, found, 5);
    holds(lists.pairs == NULL && lists.pair_count == 0, call, "four fields given, no pairs");
    holds(equal_answers(answer, wanted) && !memcmp(found, longest_plan, sizeof plan), call, "four fields given");
}
#pragma GCC diagnostic pop

/* An answer list at an offset from the table's first byte, and the refusal, 0 for none. */
static const struct {
    ptrdiff_t offset;
    size_t count;
    uint32_t refusal;
    const char *what;
} answer_places[] = {
    {-8, 8, SPP_ACCEPTED, "an answer list that ends where the table starts"},
    {-7, 8, SPP_OVERLAP, "an answer list that ends with the table's first byte"},
    {-1, 8, SPP_OVERLAP, "an answer list that starts a byte before the table"},
    {0, 1, SPP_OVERLAP, "an answer list of the table's first byte"},
    {512, 8, SPP_OVERLAP, "an answer list inside the table"},
    {1023, 1, SPP_OVERLAP, "an answer list of the table's last byte"},
    {1023, 8, SPP_OVERLAP, "an answer list that starts with the table's last byte"},
    {1024, 8, SPP_ACCEPTED, "an answer list that starts where the table ends"},
    {0, 0, SPP_SHORT_LIST, "an empty answer list at the table's first byte"},
    {512, 0, SPP_SHORT_LIST, "an empty answer list inside the table"},
    {1024, 0, SPP_SHORT_LIST, "an empty answer list where the table ends"},
};

/* Answer lists that share bytes with the table, and others beside it and empty. What is accepted fills in 5 places and no more. */
static void answers_about_table(void) {
    struct lent l[MOST_LISTS];
    size_t i;
    for (i = 0; i < sizeof answer_places / sizeof *answer_places; i++) {
        lend(ASSIGN, l);
        l[1].start = (uint8_t *)l[TABLE].start + answer_places[i].offset;
        l[1].count = answer_places[i].count;
        if (answer_places[i].refusal) {
            refuses(ASSIGN, l, answer_places[i].refusal, answer_places[i].what);
            continue;
        }
        before = block;
        memcpy(before.bytes + ((uint8_t *)l[1].start - block.bytes), vessels, sizeof vessels);
        holds(refusal_of(ASSIGN, l) == SPP_ACCEPTED, ASSIGN, answer_places[i].what);
        holds(memcmp(&before, &block, sizeof block) == 0, ASSIGN, "the vessels filled in, and all else as it was");
    }
}

/* The stated answer of spp_assign, and the same from the engine. */
static void assigns(size_t crews, size_t count, const uint32_t *costs_of, size_t room, struct spp_assigned wanted,
                    const char *what) {
    uint8_t found[16], core_found[16];
    struct spp_assigned a = spp_assign(crews, count, costs_of, found, room);
    struct spp_assigned b = spp_core_assign(crews, count, costs_of, core_found, room);
    holds(a.refusal == wanted.refusal && a.outcome == wanted.outcome && a.total == wanted.total, ASSIGN, what);
    holds(b.refusal == wanted.refusal && b.outcome == wanted.outcome && b.total == wanted.total, ASSIGN, what);
}

/* Answers of spp_assign that have a number of their own in each field of the struct. */
static void accepted_assign(void) {
    const struct spp_assigned best = {SPP_ACCEPTED, SPP_BEST, 21}, dearest = {SPP_ACCEPTED, SPP_BEST, 16000000};
    const struct spp_assigned none = {SPP_ACCEPTED, SPP_NONE, 0}, bad_table = {SPP_BAD_TABLE, 0, 0};
    const struct spp_assigned bad_cost = {SPP_BAD_TABLE_COST, 0, 0}, short_list = {SPP_SHORT_LIST, 0, 0};
    uint32_t other[PLACES];
    size_t i;
    assigns(5, 5, table, 5, best, "example 5");
    assigns(6, 5, table, 4, bad_table, "more crews than vessels");
    assigns(5, 6, table, 4, bad_cost, "a cost out of range");
    assigns(5, 5, table, 4, short_list, "a short answer list");
    for (i = 0; i < PLACES; i++) {
        other[i] = SPP_MOST_COST;
    }
    assigns(16, 16, other, 16, dearest, "16 by 16 at the largest cost");
    memset(other, 0, sizeof other);
    assigns(16, 16, other, 16, none, "no open pairing");
}

/* The stated answer of spp_uncrewed and the columns shown, with no other place of the list touched, and the same from the engine. */
static void tries(const uint8_t *bytes, size_t count, uint32_t node_limit, size_t room, struct spp_uncrewed wanted,
                  const char *what) {
    uint16_t found[64], core_found[64], wanted_list[64];
    struct spp_uncrewed a, b;
    memset(found, 0xa5, sizeof found);
    memset(core_found, 0xa5, sizeof core_found);
    memset(wanted_list, 0xa5, sizeof wanted_list);
    memcpy(wanted_list, gap_shown, wanted.columns * sizeof *gap_shown);
    a = spp_uncrewed(bytes, count, node_limit, found, room);
    b = spp_core_uncrewed(bytes, count, node_limit, core_found, room);
    holds(a.refusal == wanted.refusal && a.outcome == wanted.outcome && a.row == wanted.row && a.columns == wanted.columns,
          UNCREWED, what);
    holds(b.refusal == wanted.refusal && b.outcome == wanted.outcome && b.row == wanted.row && b.columns == wanted.columns,
          UNCREWED, what);
    holds(!memcmp(found, wanted_list, sizeof found) && !memcmp(core_found, wanted_list, sizeof found), UNCREWED, what);
}

/* A file of columns of the same rows, 1 to a length, all at cost 1; gives its number of bytes. */
static size_t same_columns(uint16_t row_count, size_t count, uint16_t length, uint8_t *out) {
    static int32_t ones[SPP_MOST_COLUMNS];
    static uint16_t same_lengths[SPP_MOST_COLUMNS];
    static uint8_t numbers[SPP_MOST_ENTRIES];
    size_t i;
    for (i = 0; i < count; i++) {
        ones[i] = 1;
        same_lengths[i] = length;
    }
    for (i = 0; i < count * length; i++) {
        numbers[i] = (uint8_t)(i % length + 1);
    }
    return spp_write(row_count, ones, count, same_lengths, count, numbers, count * length, out, SPP_MOST_BYTES).length;
}

/* Answers of spp_uncrewed that have a number of their own in each field of the struct, and its refusals. */
static void accepted_uncrewed(void) {
    const struct spp_uncrewed no_crew = {SPP_ACCEPTED, SPP_NO_CREW, 4, 2}, planned = {SPP_ACCEPTED, SPP_PLAN_EXISTS, 0, 0};
    const struct spp_uncrewed no_crew_for_1 = {SPP_ACCEPTED, SPP_NO_CREW, 1, 0}, stopped = {SPP_ACCEPTED, SPP_STOPPED, 1, 0};
    const struct spp_uncrewed short_list = {SPP_SHORT_LIST, 0, 0, 0}, bad_limit = {SPP_BAD_LIMIT, 0, 0, 0};
    const struct spp_uncrewed many_columns = {SPP_MANY_COLUMNS, 0, 0, 0}, many_entries = {SPP_MANY_ENTRIES, 0, 0, 0};
    static uint8_t other[SPP_MOST_BYTES];
    uint8_t row_2[17];
    size_t count;
    struct spp_written written = spp_write(5, gap_costs, 3, gap_lengths, 3, gap_rows, 4, gap_file, sizeof gap_file);
    holds(written.refusal == 0 && written.length == sizeof gap_file, WRITE, "the file without a column on row 4");
    tries(gap_file, sizeof gap_file, 1000, 5, no_crew, "no column on row 4");
    tries(gap_file, sizeof gap_file, SPP_MOST_NODES, 64, no_crew, "no column on row 4, a longer list");
    tries(gap_file, sizeof gap_file, 1000, 4, short_list, "a short list");
    tries(gap_file, sizeof gap_file, 0, 5, bad_limit, "node limit 0");
    tries(gap_file, sizeof gap_file, SPP_MOST_NODES + 1, 5, bad_limit, "node limit 1,000,001");
    tries(file, 85, 1000, 5, planned, "example 1");
    written = spp_write(2, costs, 1, lengths, 1, gap_rows + 1, 1, row_2, sizeof row_2);
    tries(row_2, written.length, 1000, 2, no_crew_for_1, "no column on row 1");
    count = same_columns(1, SPP_MOST_TRIAL_COLUMNS, 1, other);
    tries(other, count, 1000, 1, planned, "192 columns");
    count = same_columns(1, SPP_MOST_TRIAL_COLUMNS + 1, 1, other);
    tries(other, count, 0, 0, many_columns, "193 columns");
    count = same_columns(64, 64, 63, other);
    tries(other, count, 0, 0, short_list, "4,032 entries and 63 extra columns");
    count = same_columns(64, 64, 64, other);
    tries(other, count, 0, 0, many_entries, "4,096 entries and 63 extra columns");
    count = same_columns(2, 2, 1, other);
    tries(other, count, 1, 2, stopped, "two columns on row 1, node limit 1");
}

/* A file at an offset from the desk's first byte, and the refusal, 0 for none. */
static const struct {
    ptrdiff_t offset;
    size_t count;
    uint32_t refusal;
    const char *what;
} file_places[] = {
    {-85, 85, SPP_ACCEPTED, "a file that ends where the desk starts"},
    {-84, 85, SPP_OVERLAP, "a file that ends with the desk's first byte"},
    {-1, 85, SPP_OVERLAP, "a file that starts a byte before the desk"},
    {0, 1, SPP_OVERLAP, "a file of the desk's first byte"},
    {255, 85, SPP_OVERLAP, "a file inside the desk"},
    {-85, 700, SPP_OVERLAP, "a file about the desk"},
    {519, 1, SPP_OVERLAP, "a file of the desk's last byte"},
    {519, 85, SPP_OVERLAP, "a file that starts with the desk's last byte"},
    {520, 85, SPP_ACCEPTED, "a file that starts where the desk ends"},
    {0, 0, SPP_BAD_MARK, "an empty file at the desk's first byte"},
    {300, 0, SPP_BAD_MARK, "an empty file inside the desk"},
    {520, 0, SPP_BAD_MARK, "an empty file where the desk ends"},
};

/* Files that share bytes with the desk, and others beside it and empty. What is accepted writes to the desk alone. */
static void files_about_desk(enum call call) {
    struct lent l[MOST_LISTS];
    size_t i;
    for (i = 0; i < sizeof file_places / sizeof *file_places; i++) {
        lend(call, l);
        l[0].start = (uint8_t *)l[DESK].start + file_places[i].offset;
        l[0].count = file_places[i].count;
        if (file_places[i].refusal) {
            refuses(call, l, file_places[i].refusal, file_places[i].what);
            continue;
        }
        memcpy(l[0].start, file, sizeof file);
        before = block;
        holds(refusal_of(call, l) == SPP_ACCEPTED, call, file_places[i].what);
        memcpy(before.bytes + ((uint8_t *)l[DESK].start - block.bytes), l[DESK].start, sizeof(struct spp_desk));
        holds(memcmp(&before, &block, sizeof block) == 0, call, "all but the desk as it was");
    }
    lend(call, l);
    l[0].start = NULL;
    l[0].count = 0;
    refuses(call, l, SPP_BAD_MARK, "a null pointer for a file of no bytes");
}

/* A file of example 1's rows, and its costs. */
struct priced {
    const uint8_t *bytes;
    const int32_t *costs;
};

/* The desk over a file of example 1's rows that has these columns in, counted from them. */
static struct spp_desk desk_with(struct priced over, const uint16_t *columns, size_t count) {
    struct spp_desk desk;
    size_t i, j, start;
    memset(&desk, 0, sizeof desk);
    for (i = 0; i < count; i++) {
        for (start = 0, j = 0; j + 1 < columns[i]; j++) {
            start += lengths[j];
        }
        for (j = 0; j < lengths[columns[i] - 1]; j++) {
            desk.covered[rows[start + j] - 1]++;
        }
        desk.marks[columns[i] - 1] = 1;
        desk.total += over.costs[columns[i] - 1];
    }
    for (i = 0; i < 5; i++) {
        desk.off += desk.covered[i] != 1;
    }
    return desk;
}

/* A step through the header and the same by the engine: the stated answer, and the desk that has these columns in. */
static void steps_to(enum call call, struct priced over, struct spp_desk *desk, uint32_t column, struct spp_step wanted,
                     const uint16_t *columns, size_t count, const char *what) {
    struct spp_desk by_core = *desk, counted = desk_with(over, columns, count);
    struct spp_step a = (call == DESK_ADD ? spp_desk_add : spp_desk_remove)(over.bytes, 85, column, desk);
    struct spp_step b = (call == DESK_ADD ? spp_core_desk_add : spp_core_desk_remove)(
        over.bytes, 85, column, by_core.marks, by_core.covered, &by_core.off, &by_core.total);
    holds(a.refusal == wanted.refusal && a.changed == wanted.changed, call, what);
    holds(b.refusal == wanted.refusal && b.changed == wanted.changed, call, what);
    holds(!memcmp(desk, &counted, sizeof counted) && !memcmp(&by_core, &counted, sizeof counted), call, what);
}

/* The stated reply to these two numbers. Nothing else of the desk is read. */
static void replies(uint32_t off, int32_t total, struct spp_reply wanted, const char *what) {
    struct spp_desk desk;
    struct spp_reply a, b;
    memset(&desk, 0xa5, sizeof desk);
    desk.off = off;
    desk.total = total;
    a = spp_desk_reply(&desk);
    b = spp_core_desk_reply(off, total);
    holds(a.refusal == wanted.refusal && a.is_plan == wanted.is_plan && a.price == wanted.price, DESK_REPLY, what);
    holds(b.refusal == wanted.refusal && b.is_plan == wanted.is_plan && b.price == wanted.price, DESK_REPLY, what);
}

/* Replies of desks that have a number of their own in each field of the struct, and of no desk. */
static void accepted_replies(void) {
    const struct spp_reply no_plan = {SPP_ACCEPTED, 0, 0}, planned = {SPP_ACCEPTED, 1, 17}, below = {SPP_ACCEPTED, 1, -17};
    struct spp_reply refused = spp_desk_reply(NULL);
    holds(refused.refusal == SPP_NULL && refused.is_plan == 0 && refused.price == 0, DESK_REPLY, "a null pointer");
    replies(0, 17, planned, "no row off");
    replies(0, -17, below, "no row off, a total below 0");
    replies(1, 17, no_plan, "a row off");
    replies(UINT32_MAX, 17, no_plan, "as many rows off as the field can say");
}

/*
 * A desk over a file of example 1's rows through the header: the plan 1 4 7 goes in, a column beside it in and out, with steps that change
 * nothing.
 */
static void accepted_desk(struct priced over, int32_t price) {
    static const uint16_t in[4] = {1, 4, 7, 2};
    const struct spp_step changed = {SPP_ACCEPTED, 1}, idle = {SPP_ACCEPTED, 0}, no_column = {SPP_NO_COLUMN, 0};
    struct spp_desk desk, other, empty = desk_with(over, in, 0);
    uint32_t refusal;
    memset(&desk, 0xa5, sizeof desk);
    memset(&other, 0x5a, sizeof other);
    refusal = spp_core_desk_empty(over.bytes, 85, other.marks, other.covered, &other.off, &other.total);
    holds(refusal == 0 && spp_desk_empty(over.bytes, 85, &desk) == 0, DESK_EMPTY, "example 1");
    holds(!memcmp(&desk, &empty, sizeof desk) && !memcmp(&other, &empty, sizeof desk), DESK_EMPTY, "all fields filled in");
    steps_to(DESK_REMOVE, over, &desk, 1, idle, in, 0, "a column that is not in");
    steps_to(DESK_ADD, over, &desk, 1, changed, in, 1, "the first column of the plan");
    steps_to(DESK_ADD, over, &desk, 4, changed, in, 2, "the second column of the plan");
    steps_to(DESK_ADD, over, &desk, 7, changed, in, 3, "the last column of the plan");
    holds(spp_desk_reply(&desk).is_plan == 1 && spp_desk_reply(&desk).price == price, DESK_REPLY, "the plan of example 1");
    steps_to(DESK_ADD, over, &desk, 7, idle, in, 3, "a column that is in");
    steps_to(DESK_ADD, over, &desk, 2, changed, in, 4, "a column beside the plan");
    holds(spp_desk_reply(&desk).is_plan == 0 && spp_desk_reply(&desk).price == 0, DESK_REPLY, "a column beside the plan");
    steps_to(DESK_ADD, over, &desk, 9, no_column, in, 4, "column 9 of 8");
    steps_to(DESK_REMOVE, over, &desk, 0, no_column, in, 4, "column 0");
    steps_to(DESK_REMOVE, over, &desk, UINT32_MAX, no_column, in, 4, "the largest number");
    steps_to(DESK_REMOVE, over, &desk, 2, changed, in, 3, "the column beside the plan");
}

/* The file of example 1's rows with these costs, laid out by the papers. */
static void lay_out(int edition, const int32_t *costs_of, uint8_t *out) {
    static const uint8_t head[8] = {'S', 'P', 'P', '0', 5, 0, 8, 0};
    size_t i, j, start = 72;
    memset(out, 0, start);
    memcpy(out, head, sizeof head);
    out[3] = (uint8_t)('0' + edition);
    for (i = 0; i < 8; i++) {
        uint8_t *entry = out + 8 + 8 * i;
        for (j = 0; j < 4; j++) {
            entry[j] = (uint8_t)((uint32_t)costs_of[i] >> 8 * j);
        }
        entry[4] = (uint8_t)start;
        entry[6] = (uint8_t)lengths[i];
        start += lengths[i];
    }
    memcpy(out + 72, rows, sizeof rows);
}

/* A writer through the header and the same by the engine: the stated bytes and no other, or the refusal and none. */
static void writes(enum call call, const int32_t *costs_of, const uint8_t *bytes, uint32_t refusal, const char *what) {
    const uint32_t length = refusal ? 0 : 85;
    uint8_t found[96], core_found[96], wanted[96];
    struct spp_written a, b;
    memset(found, 0xa5, sizeof found);
    memset(core_found, 0xa5, sizeof core_found);
    memset(wanted, 0xa5, sizeof wanted);
    memcpy(wanted, bytes, length);
    a = (call == WRITE ? spp_write : spp_write2)(5, costs_of, 8, lengths, 8, rows, 13, found, sizeof found);
    b = (call == WRITE ? spp_core_write : spp_core_write2)(5, costs_of, 8, lengths, 8, rows, 13, core_found,
                                                           sizeof core_found);
    holds(a.refusal == refusal && a.length == length && !memcmp(found, wanted, sizeof found), call, what);
    holds(b.refusal == refusal && b.length == length && !memcmp(core_found, wanted, sizeof found), call, what);
}

/* The reader through the header and the same by the engine: the shape of example 1 and this edition, and the lists. */
static void reads(const uint8_t *bytes, const int32_t *costs_of, uint32_t edition, const char *what) {
    int32_t read_costs[2][8];
    uint16_t read_lengths[2][8];
    uint8_t read_rows[2][13];
    const struct spp_shape shapes[2] = {spp_read(bytes, 85, read_costs[0], 8, read_lengths[0], 8, read_rows[0], 13),
                                        spp_core_read(bytes, 85, read_costs[1], 8, read_lengths[1], 8, read_rows[1], 13)};
    size_t i;
    for (i = 0; i < 2; i++) {
        holds(shapes[i].refusal == 0 && shapes[i].rows == 5 && shapes[i].columns == 8 && shapes[i].entries == 13 &&
                  shapes[i].edition == edition,
              READ, what);
        holds(!memcmp(read_costs[i], costs_of, sizeof costs) && !memcmp(read_lengths[i], lengths, sizeof lengths) &&
                  !memcmp(read_rows[i], rows, sizeof rows),
              READ, what);
    }
}

/* The reader refuses: no field but the refusal is filled in, and no list. */
static void refuses_to_read(const uint8_t *bytes, uint32_t refusal, const char *what) {
    int32_t read_costs[8];
    uint16_t read_lengths[8];
    uint8_t read_rows[13], untouched[32];
    struct spp_shape shape;
    memset(read_costs, 0xa5, sizeof read_costs);
    memset(read_lengths, 0xa5, sizeof read_lengths);
    memset(read_rows, 0xa5, sizeof read_rows);
    memset(untouched, 0xa5, sizeof untouched);
    shape = spp_read(bytes, 85, read_costs, 8, read_lengths, 8, read_rows, 13);
    holds(shape.refusal == refusal && shape.rows == 0 && shape.columns == 0 && shape.entries == 0 && shape.edition == 0,
          READ, what);
    holds(!memcmp(read_costs, untouched, sizeof read_costs) && !memcmp(read_lengths, untouched, sizeof read_lengths) &&
              !memcmp(read_rows, untouched, sizeof read_rows),
          READ, what);
}

/* A refusal by a guard fills in no other field. */
static void refused_fields(void) {
    const char *const what = "a refusal by a guard and no other field";
    const struct spp_answer refused = {SPP_NULL, 0, 0, 0, 0, 0, 0};
    const struct spp_shape shape = spp_read(NULL, 1, NULL, 0, NULL, 0, NULL, 0);
    const struct spp_written written = spp_write(5, NULL, 1, NULL, 0, NULL, 0, NULL, 0);
    const struct spp_written written2 = spp_write2(5, NULL, 1, NULL, 0, NULL, 0, NULL, 0);
    const struct spp_checked checked = spp_check(NULL, 1, NULL, 0);
    const struct spp_reduced reduced = spp_reduce(NULL, 1, NULL, 0, NULL, 0);
    holds(shape.refusal == SPP_NULL && !shape.rows && !shape.columns && !shape.entries && !shape.edition, READ, what);
    holds(written.refusal == SPP_NULL && !written.length, WRITE, what);
    holds(written2.refusal == SPP_NULL && !written2.length, WRITE2, what);
    holds(checked.refusal == SPP_NULL && !checked.is_plan && !checked.row && !checked.covered && !checked.price, CHECK,
          what);
    holds(reduced.refusal == SPP_NULL && !reduced.used && !reduced.bound, REDUCE, what);
    holds(equal_answers(spp_search(NULL, 1, 1000, NULL, 0), refused), SEARCH, what);
    holds(equal_answers(spp_longest(NULL, 1, 1000, NULL, 0), refused), LONGEST, what);
}

/* A first cost, and the refusal of both editions. */
static const struct {
    int32_t cost;
    uint32_t refusals[2];
    const char *what;
} first_costs[] = {
    {1, {SPP_ACCEPTED, SPP_ACCEPTED}, "cost 1"},
    {SPP_MOST_COST, {SPP_ACCEPTED, SPP_ACCEPTED}, "cost 1,000,000"},
    {SPP_MOST_COST + 1, {SPP_BAD_COST, SPP_BAD_COST}, "cost 1,000,001"},
    {0, {SPP_BAD_COST, SPP_ACCEPTED}, "cost 0"},
    {-1, {SPP_BAD_COST, SPP_ACCEPTED}, "cost -1"},
    {SPP_LEAST_COST, {SPP_BAD_COST, SPP_ACCEPTED}, "cost -1,000,000"},
    {SPP_LEAST_COST - 1, {SPP_BAD_COST, SPP_BAD_COST}, "cost -1,000,001"},
    {INT32_MAX, {SPP_BAD_COST, SPP_BAD_COST}, "the largest number as a cost"},
    {INT32_MIN, {SPP_BAD_COST, SPP_BAD_COST}, "the smallest number as a cost"},
};

/* Both writers, and all calls that take either edition, go by its range of costs; and the reader gives back what a writer took. */
static void costs_by_edition(void) {
    int32_t first_changed[8];
    uint8_t bytes[85];
    struct spp_desk desk;
    uint16_t found[5];
    size_t i;
    for (i = 0; i < 2 * (sizeof first_costs / sizeof *first_costs); i++) {
        const uint32_t refusal = first_costs[i / 2].refusals[i % 2];
        const char *const what = first_costs[i / 2].what;
        const int edition = (int)(i % 2) + 1;
        memcpy(first_changed, costs, sizeof costs);
        first_changed[0] = first_costs[i / 2].cost;
        lay_out(edition, first_changed, bytes);
        writes(edition == 1 ? WRITE : WRITE2, first_changed, bytes, refusal, what);
        if (refusal) {
            refuses_to_read(bytes, refusal, what);
        } else {
            reads(bytes, first_changed, (uint32_t)edition, what);
        }
        holds(spp_check(bytes, 85, plan, 3).refusal == refusal, CHECK, what);
        holds(spp_search(bytes, 85, 1000, found, 5).refusal == refusal, SEARCH, what);
        holds(spp_desk_empty(bytes, 85, &desk) == refusal, DESK_EMPTY, what);
    }
}

/* Lists that a writer refuses, with the buffer as it was. */
static void refused_writes(enum call call) {
    struct lent l[MOST_LISTS];
    lend(call, l);
    l[0].count = 7;
    refuses(call, l, SPP_UNEQUAL_LISTS, "8 body lengths and 7 costs");
    lend(call, l);
    l[1].count = 7;
    refuses(call, l, SPP_UNEQUAL_LISTS, "7 body lengths and 8 costs");
    lend(call, l);
    l[2].count = 12;
    refuses(call, l, SPP_UNEQUAL_LISTS, "12 row numbers of 13");
    lend(call, l);
    l[3].count = 84;
    refuses(call, l, SPP_SHORT_LIST, "84 bytes for 85");
    lend(call, l);
    *(uint8_t *)l[2].start = 6;
    refuses(call, l, SPP_BAD_ROW, "row 6 of 5");
    lend(call, l);
    *(uint16_t *)l[1].start = 6;
    refuses(call, l, SPP_BAD_LENGTH, "a body of 6 rows of 5");
}

/* The plan check through the header and the same by the engine: the stated answer. */
static void checks(const uint8_t *bytes, size_t length, const uint16_t *columns, size_t count, struct spp_checked wanted,
                   const char *what) {
    const struct spp_checked found[2] = {spp_check(bytes, length, columns, count),
                                         spp_core_check(bytes, length, columns, count)};
    size_t i;
    for (i = 0; i < 2; i++) {
        holds(found[i].refusal == wanted.refusal && found[i].is_plan == wanted.is_plan && found[i].row == wanted.row &&
                  found[i].covered == wanted.covered && found[i].price == wanted.price,
              CHECK, what);
    }
}

/* Whether the call takes SPP1 files alone. */
static int takes_spp1_alone(enum call call) {
    return call == REDUCE || call == LONGEST || call == LONGEST_WITH || call == UNCREWED;
}

/* The edition in the file's fourth byte: SPP2 goes by the call, even in a file that is cut, and others are refused by all. */
static void editions(enum call call) {
    static const uint8_t others[] = {'0', '3', 0, 2, '1' + 128};
    struct lent l[MOST_LISTS];
    size_t i;
    for (i = 0; i < sizeof others; i++) {
        lend(call, l);
        ((uint8_t *)l[0].start)[3] = others[i];
        refuses(call, l, SPP_BAD_MARK, "neither SPP1 nor SPP2");
    }
    lend(call, l);
    ((uint8_t *)l[0].start)[3] = '2';
    put_struct(call, l);
    if (!takes_spp1_alone(call)) {
        holds(refusal_of(call, l) == SPP_ACCEPTED, call, "an SPP2 file");
        return;
    }
    refuses(call, l, SPP_BAD_MARK, "an SPP2 file where SPP1 alone is taken");
    l[0].count = 84;
    refuses(call, l, SPP_BAD_MARK, "an SPP2 file that is cut, where SPP1 alone is taken");
    l[0].count = 85;
    l[call == LONGEST_WITH ? PLAN : 1].count = 0;
    refuses(call, l, SPP_BAD_MARK, "an SPP2 file and a short list, where SPP1 alone is taken");
}

/* An SPP2 file of 64 rows with a column for each, at two costs in turn: one plan, of all columns, at 32 times their sum. */
static void sums_of_64(int32_t first, int32_t second, const char *what) {
    const int64_t price = 32 * ((int64_t)first + second);
    const struct spp_answer wanted = {0, SPP_BEST, 1, 64, 1, price, price};
    const struct spp_checked planned = {0, 1, 0, 0, price};
    int32_t two_costs[64];
    uint16_t ones[64], all[64], found[64];
    uint8_t numbers[64], bytes[584];
    struct spp_desk desk;
    size_t i;
    for (i = 0; i < 64; i++) {
        two_costs[i] = i % 2 ? second : first;
        ones[i] = 1;
        all[i] = (uint16_t)(i + 1);
        numbers[i] = (uint8_t)(i + 1);
    }
    holds(spp_write2(64, two_costs, 64, ones, 64, numbers, 64, bytes, sizeof bytes).length == sizeof bytes, WRITE2, what);
    holds(equal_answers(spp_search(bytes, sizeof bytes, 1, found, 64), wanted), SEARCH, what);
    checks(bytes, sizeof bytes, all, 64, planned, what);
    holds(spp_desk_empty(bytes, sizeof bytes, &desk) == 0, DESK_EMPTY, what);
    for (i = 0; i < 64; i++) {
        spp_desk_add(bytes, sizeof bytes, all[i], &desk);
    }
    holds(spp_desk_reply(&desk).is_plan == 1 && spp_desk_reply(&desk).price == price, DESK_REPLY, what);
}

/* SPP2 files through the header: stated answers that have a number of their own in each field of the struct. */
static void accepted_spp2(void) {
    const struct spp_answer best = {0, SPP_BEST, 1, 3, 3, -5, -5}, with_pairs = {0, SPP_BEST, 1, 3, 4, -1, -5};
    const struct spp_answer no_plan_yet = {0, SPP_STOPPED, 0, 0, 2, 0, -5}, best_late = {0, SPP_BEST, 1, 3, 6, -17, -17};
    const struct spp_answer stopped = {0, SPP_STOPPED, 1, 4, 5, -16, -17}, none = {0, SPP_NONE, 0, 0, 1, 0, 0};
    const struct spp_checked planned = {0, 1, 0, 0, -5}, twice = {0, 0, 5, 2, 0}, refused = {SPP_BAD_COLUMN, 0, 0, 0, 0};
    const uint16_t row_5_twice[4] = {1, 4, 6, 8}, falling[2] = {7, 4};
    struct priced over = {earning_file, earning};
    uint8_t late_file[85], no_plan_file[36];
    uint16_t found[5];
    reads(earning_file, earning, 2, "example 1 with costs of SPP2");
    checks(earning_file, 85, plan, 3, planned, "a price below 0");
    checks(earning_file, 85, row_5_twice, 4, twice, "row 5 covered twice");
    checks(earning_file, 85, falling, 2, refused, "a list that does not rise");
    accepted_search(SEARCH, earning_file, 1000, plan, best, "a best price below 0");
    accepted_search(SEARCH, earning_file, 2, plan, no_plan_yet, "stopped without a plan, a lower bound below 0");
    accepted_lists(SEARCH_WITH, earning_file, -1, with_pairs);
    column_in_both(SEARCH_WITH, earning_file, -5);
    four_fields(SEARCH_WITH, earning_file, -1);
    lay_out(2, late, late_file);
    accepted_search(SEARCH, late_file, 1000, late_plan, best_late, "a better plan found later");
    accepted_search(SEARCH, late_file, 5, early_plan, stopped, "stopped with a plan below 0");
    spp_write2(5, gap_costs, 3, gap_lengths, 3, gap_rows, 4, no_plan_file, sizeof no_plan_file);
    holds(equal_answers(spp_search(no_plan_file, sizeof no_plan_file, 1000, found, 5), none), SEARCH, "no plan in SPP2");
    sums_of_64(SPP_LEAST_COST, SPP_LEAST_COST, "64 columns at the least cost");
    sums_of_64(SPP_MOST_COST, SPP_MOST_COST, "64 columns at the largest cost");
    sums_of_64(SPP_LEAST_COST, SPP_MOST_COST, "64 columns at both costs, price 0");
    accepted_desk(over, -5);
}

/* Accepted calls through the header: stated values. */
static void accepted(void) {
    static const int32_t wanted_reduced[8] = {0, 1, 0, 0, 5, 1, 0, 3};
    const struct spp_answer by_sum = {0, SPP_BEST, 1, 3, 3, 17, 17}, by_longest = {0, SPP_BEST, 1, 3, 3, 7, 6};
    const struct spp_answer pairs_by_sum = {0, SPP_BEST, 1, 3, 2, 18, 17}, pairs_by_longest = {0, SPP_BEST, 1, 3, 2, 7, 6};
    const struct spp_checked planned = {0, 1, 0, 0, 17};
    struct priced over = {file, costs};
    int32_t reduced[8];
    uint8_t order[5];
    struct spp_reduced reduction = spp_reduce(file, 85, reduced, 8, order, 5);
    reads(file, costs, 1, "example 1");
    checks(file, 85, plan, 3, planned, "example 1");
    holds(reduction.refusal == 0 && reduction.bound == 17 && reduction.used == 4, REDUCE, "example 1");
    holds(order[0] == 1 && order[1] == 4 && order[2] == 2 && order[3] == 5, REDUCE, "the order of example 1");
    holds(!memcmp(reduced, wanted_reduced, sizeof reduced), REDUCE, "the reduced costs of example 1");
    accepted_search(SEARCH, file, 1000, plan, by_sum, "example 1");
    accepted_search(LONGEST, file, 1000, longest_plan, by_longest, "example 1");
    accepted_lists(SEARCH_WITH, file, 18, pairs_by_sum);
    accepted_lists(LONGEST_WITH, file, 7, pairs_by_longest);
    column_in_both(SEARCH_WITH, file, 17);
    column_in_both(LONGEST_WITH, file, 8);
    four_fields(SEARCH_WITH, file, 18);
    four_fields(LONGEST_WITH, file, 7);
    accepted_assign();
    accepted_uncrewed();
    accepted_desk(over, 17);
    accepted_replies();
}

int main(void) {
    int call;
    lay_out(1, costs, file);
    lay_out(2, earning, earning_file);
    fill_table();
    writes(WRITE, costs, file, SPP_ACCEPTED, "example 1");
    writes(WRITE2, earning, earning_file, SPP_ACCEPTED, "example 1 with costs of SPP2");
    accepted();
    accepted_spp2();
    costs_by_edition();
    refused_fields();
    refused_writes(WRITE);
    refused_writes(WRITE2);
    for (call = READ; call < DESK_REPLY; call++) {
        two_lists((enum call)call);
        nulls((enum call)call);
        if (!is_writer((enum call)call) && call != ASSIGN) {
            editions((enum call)call);
        }
    }
    answers_about_table();
    for (call = DESK_EMPTY; call < DESK_REPLY; call++) {
        files_about_desk((enum call)call);
    }
    printf("%9lu  cases of the header's guards compared, %lu differences\n", cases, differences);
    return differences != 0;
}
