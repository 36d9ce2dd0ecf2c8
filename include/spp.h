/*
 * Crew plans from a duty file, and crews onto vessels: the C interface of the engine.
 *
 * Link with target/staticlib/libspp.a, which tests/staticlib builds. Call the functions at the end of this file, spp_read to
 * spp_desk_reply. They refuse lists of which any two overlap, two that are only read among them, and null pointers, before the engine is
 * entered; the functions spp_core_.. are the engine itself, which takes for granted that no two lists overlap and that no pointer is
 * null.
 *
 * A row is a sailing, a column a duty; both are numbered from 1. A list is lent as a pointer and the number of its places. A call that
 * refuses writes to no list and to no desk. Places beyond what is filled keep their contents. Fields that a case does not use are 0.
 *
 * A file begins with its edition, SPP1 or SPP2. A cost is 1 to 1,000,000 in SPP1, and -1,000,000 to 1,000,000 in SPP2, where a column may
 * earn more than it costs. spp_read, spp_check, spp_search, spp_search_with and the desk take either. spp_reduce, spp_longest,
 * spp_longest_with and spp_uncrewed take SPP1 alone: they refuse every SPP2 file with SPP_BAD_MARK, which is the engine's first test.
 * spp_read gives the edition; spp_write writes SPP1, spp_write2 writes SPP2. Costs in lists and a desk's total and price are int32_t, other
 * prices and lower bounds int64_t: print them by PRId32 and PRId64 of <inttypes.h>. The table of spp_assign and its total are unsigned.
 *
 * A plug-in that was written before SPP2 must change its lists of costs and of reduced costs from uint32_t to int32_t, print costs, prices
 * and lower bounds as signed numbers, and be compiled anew: struct spp_shape has grown. SPP1 files give it the same answers as before.
 */
#ifndef SPP_H
#define SPP_H

#include <stddef.h>
#include <stdint.h>

#ifdef __cplusplus
extern "C" {
#endif

/* Largest values in an accepted file. */
#define SPP_MOST_ROWS 64
#define SPP_MOST_COLUMNS 256
#define SPP_MOST_ENTRIES 4096
#define SPP_MOST_BYTES 6152
#define SPP_MOST_COST 1000000
#define SPP_MOST_NODES 1000000

/* The smallest cost in an accepted SPP2 file; in an SPP1 file it is 1. */
#define SPP_LEAST_COST (-1000000)

/* The most columns of a file that spp_uncrewed takes. */
#define SPP_MOST_TRIAL_COLUMNS 192

/* The most pairs of columns that a search takes. */
#define SPP_MOST_PAIRS 128

/* Largest values in an accepted table; its costs are at most SPP_MOST_COST. */
#define SPP_MOST_CREWS 16
#define SPP_MOST_VESSELS 16

/* Values of `refusal`. */
#define SPP_ACCEPTED 0        /* the call was carried out */
#define SPP_BAD_MARK 1        /* the file has under 8 bytes, or begins with neither SPP1 nor, where that is taken, SPP2 */
#define SPP_BAD_SIZE 2        /* number of rows or columns out of range */
#define SPP_CUT_CONTENTS 3    /* the file ends inside the contents */
#define SPP_BAD_COST 4        /* a cost is out of the range of the file's edition, or of the one to be written */
#define SPP_BAD_LENGTH 5      /* a body length is out of range */
#define SPP_MANY_ENTRIES 6    /* the body lengths sum to more than 4,096, for spp_uncrewed with its extra columns */
#define SPP_BAD_START 7       /* a body does not start where the former ends */
#define SPP_BAD_END 8         /* the file does not end with the last body */
#define SPP_BAD_ROW 9         /* a row number is out of range, or a body does not rise */
#define SPP_SHORT_LIST 10     /* a list or buffer lent for the answer is too short */
#define SPP_BAD_LIMIT 11      /* the node limit is out of range */
#define SPP_BAD_COLUMN 12     /* an offered column is out of range, or the offered list does not rise */
#define SPP_UNEQUAL_LISTS 13  /* the writer's lists disagree in length */
#define SPP_BAD_AGREED 14     /* an agreed column is out of range, or the agreed list does not rise */
#define SPP_BAD_ABSENT 15     /* an absent column is out of range, or the absent list does not rise */
#define SPP_BAD_TABLE 16      /* the table has no crews, above 16 crews or vessels, or more crews than vessels */
#define SPP_BAD_TABLE_COST 17 /* a cost in the table is above 1,000,000 */
#define SPP_MANY_COLUMNS 18   /* the file has more columns than spp_uncrewed takes, 192 */
#define SPP_NO_COLUMN 19      /* the column number is out of range */
#define SPP_BAD_PAIR 20       /* a column of a pair is out of range, or both columns of a pair are the same */
#define SPP_BAD_PAIR_COUNT 21 /* the list of pairs has an odd number of numbers, or more than 128 pairs */
#define SPP_OVERLAP 100       /* two lent lists, structs or tables overlap, or a list reaches beyond the address space */
#define SPP_NULL 101          /* a null pointer was lent with a number of places above 0, or for a struct or a table */

/*
 * Values of `outcome`, but for struct spp_uncrewed; 0 with a refusal. Plans are those that hold every agreed column that is not absent and
 * no absent one, and obey the pairs (struct spp_lists). For spp_assign read assignment for plan and total for price.
 */
#define SPP_BEST 1    /* no plan has a lower price than the one shown */
#define SPP_NONE 2    /* there is no plan */
#define SPP_STOPPED 3 /* the node limit was reached */

/* Values of `outcome` in struct spp_uncrewed, with SPP_STOPPED as the third; 0 with a refusal. */
#define SPP_NO_CREW 1     /* rows 1 to `row` cannot be covered */
#define SPP_PLAN_EXISTS 2 /* there is a plan */

/* What the reader found. */
struct spp_shape {
    uint32_t refusal; /* 0, or why nothing was read */
    uint32_t rows;    /* number of rows, 1 to 64 */
    uint32_t columns; /* number of columns, 1 to 256 */
    uint32_t entries; /* number of row numbers in all bodies, at most 4,096 */
    uint32_t edition; /* 1 for SPP1, 2 for SPP2: spp_write or spp_write2 gives the file back */
};

/* What a writer wrote. */
struct spp_written {
    uint32_t refusal; /* 0, or why nothing was written */
    uint32_t length;  /* number of bytes written at the front of the buffer */
};

/* What the plan check found. */
struct spp_checked {
    uint32_t refusal; /* 0, or why nothing was checked */
    uint32_t is_plan; /* 1 if each row is covered exactly once, else 0 */
    uint32_t row;     /* with no plan: the lowest row not covered exactly once */
    uint32_t covered; /* with no plan: how often that row is covered */
    int64_t price;    /* with a plan: the sum of its costs */
};

/* What reducing gave. */
struct spp_reduced {
    uint32_t refusal; /* 0, or why nothing was reduced */
    uint32_t used;    /* number of rows used, filled in at the front of the order list */
    int64_t bound;    /* the lower bound (floor): no plan costs less */
};

/*
 * Columns that must be in the plan, columns that must not be, and pairs of columns of which the first may be in the plan only if the
 * second is. Each list may be empty, and a struct of zeros means no lists. The agreed and the absent list rise. A column may stand in both:
 * once both lists are tested as they are lent, it is struck from the agreed one. One array lent as both lists is refused. There are at most
 * 128 pairs, which may form chains and rings; a ring means all of its columns or none. Fields may be added at the end, so set all of it to
 * zeros first:
 *
 *     struct spp_lists lists;
 *     memset(&lists, 0, sizeof lists);
 */
struct spp_lists {
    const uint16_t *agreed; /* columns that must be in the plan, but for those that are absent too */
    size_t agreed_count;
    const uint16_t *absent; /* columns that must not be in the plan */
    size_t absent_count;
    const uint16_t *pairs; /* pairs of columns, first and second in turn: the first may be in the plan only if the second is */
    size_t pair_count;     /* the number of numbers in this list, twice the number of pairs */
};

/*
 * What a search answers. A plan's price is the sum of its costs for spp_search and spp_search_with, and the largest of its costs for
 * spp_longest and spp_longest_with.
 */
struct spp_answer {
    uint32_t refusal;  /* 0, or why nothing was searched */
    uint32_t outcome;  /* SPP_BEST, SPP_NONE or SPP_STOPPED */
    uint32_t has_plan; /* 1 if a plan is shown, else 0 */
    uint32_t columns;  /* number of columns of the plan shown, filled in at the front of the plan list */
    uint32_t nodes;    /* number of nodes entered */
    int64_t price;     /* price of the plan shown */
    int64_t bound;     /* with best and stopped: the root's lower bound (root floor); no plan has a lower price */
};

/*
 * What an assignment of crews to vessels answers. An assignment gives each crew one vessel over an open pairing, and no vessel two
 * crews; its total is the sum of the costs of these pairings.
 */
struct spp_assigned {
    uint32_t refusal; /* 0, or why nothing was assigned */
    uint32_t outcome; /* SPP_BEST or SPP_NONE */
    uint64_t total;   /* with best: the total of the assignment shown */
};

/*
 * Up to which row the rows cannot be covered. Rows 1 to k can be covered if there are columns, of which no two share a row, that cover each
 * of these rows; they may cover rows above k too.
 */
struct spp_uncrewed {
    uint32_t refusal; /* 0, or why nothing was tried */
    uint32_t outcome; /* SPP_NO_CREW, SPP_PLAN_EXISTS or SPP_STOPPED */
    uint32_t row;     /* with SPP_NO_CREW: the lowest k such that rows 1 to k cannot be covered; with SPP_STOPPED: the trial stopped */
    uint32_t columns; /* with SPP_NO_CREW: number of columns shown, filled in at the front of the list */
};

/*
 * A desk: which columns are in, and what is kept of them. spp_desk_empty fills in all of it, and steps change it. It may be copied, and
 * only the functions below need its fields. The numbers wrap at 32 bits; by steps over the file that the desk was made over they never get
 * that far.
 */
struct spp_desk {
    uint8_t marks[SPP_MOST_COLUMNS]; /* for each column: 0 if it is not in, any other value if it is in */
    uint32_t covered[SPP_MOST_ROWS]; /* for each row: how often it is covered */
    uint32_t off;                    /* number of rows that are not covered exactly once */
    int32_t total;                   /* sum of the costs of the columns in */
};

/* What a step came to. */
struct spp_step {
    uint32_t refusal; /* 0, or why no step was made */
    uint32_t changed; /* 1, or 0 if the column to add was in already or the one to remove was not in */
};

/* What a desk replies. */
struct spp_reply {
    uint32_t refusal; /* 0, or SPP_NULL */
    uint32_t is_plan; /* 1 if the columns in are a plan, else 0 */
    int32_t price;    /* with a plan: the sum of its costs */
};

/* The engine. No two lists of a call may overlap and no pointer may be null, not even for an empty list. */
struct spp_shape spp_core_read(const uint8_t *file, size_t file_count, int32_t *costs, size_t cost_count,
                               uint16_t *lengths, size_t length_count, uint8_t *rows, size_t row_count);
struct spp_written spp_core_write(uint16_t rows, const int32_t *costs, size_t cost_count, const uint16_t *lengths,
                                  size_t length_count, const uint8_t *row_numbers, size_t row_count, uint8_t *out,
                                  size_t out_count);
struct spp_written spp_core_write2(uint16_t rows, const int32_t *costs, size_t cost_count, const uint16_t *lengths,
                                   size_t length_count, const uint8_t *row_numbers, size_t row_count, uint8_t *out,
                                   size_t out_count);
struct spp_checked spp_core_check(const uint8_t *file, size_t file_count, const uint16_t *columns, size_t column_count);
struct spp_reduced spp_core_reduce(const uint8_t *file, size_t file_count, int32_t *reduced, size_t reduced_count,
                                   uint8_t *order, size_t order_count);
struct spp_answer spp_core_search(const uint8_t *file, size_t file_count, uint32_t node_limit, const uint16_t *agreed,
                                  size_t agreed_count, const uint16_t *absent, size_t absent_count, const uint16_t *pairs,
                                  size_t pair_count, uint16_t *plan, size_t plan_count);
struct spp_answer spp_core_longest(const uint8_t *file, size_t file_count, uint32_t node_limit, const uint16_t *agreed,
                                   size_t agreed_count, const uint16_t *absent, size_t absent_count, const uint16_t *pairs,
                                   size_t pair_count, uint16_t *plan, size_t plan_count);
struct spp_assigned spp_core_assign(size_t crews, size_t vessels, const uint32_t *table, uint8_t *answer,
                                    size_t answer_count);
struct spp_uncrewed spp_core_uncrewed(const uint8_t *file, size_t file_count, uint32_t node_limit, uint16_t *shown,
                                      size_t shown_count);
uint32_t spp_core_desk_empty(const uint8_t *file, size_t file_count, uint8_t *marks, uint32_t *covered, uint32_t *off,
                             int32_t *total);
struct spp_step spp_core_desk_add(const uint8_t *file, size_t file_count, uint32_t column, uint8_t *marks,
                                  uint32_t *covered, uint32_t *off, int32_t *total);
struct spp_step spp_core_desk_remove(const uint8_t *file, size_t file_count, uint32_t column, uint8_t *marks,
                                     uint32_t *covered, uint32_t *off, int32_t *total);
struct spp_reply spp_core_desk_reply(uint32_t off, int32_t total);

/* One of the engine's two writers. */
typedef struct spp_written (*spp_core_writer)(uint16_t rows, const int32_t *costs, size_t cost_count,
                                              const uint16_t *lengths, size_t length_count, const uint8_t *row_numbers,
                                              size_t row_count, uint8_t *out, size_t out_count);

/* One of the engine's two searches. */
typedef struct spp_answer (*spp_core_call)(const uint8_t *file, size_t file_count, uint32_t node_limit,
                                           const uint16_t *agreed, size_t agreed_count, const uint16_t *absent,
                                           size_t absent_count, const uint16_t *pairs, size_t pair_count, uint16_t *plan,
                                           size_t plan_count);

/* One of the engine's two steps of a desk. */
typedef struct spp_step (*spp_core_step)(const uint8_t *file, size_t file_count, uint32_t column, uint8_t *marks,
                                         uint32_t *covered, uint32_t *off, int32_t *total);

#ifdef __cplusplus
}
#endif

/* One lent list, as bytes. */
struct spp_list {
    const void *start; /* its first place */
    size_t count;      /* number of places */
    size_t size;       /* bytes of one place */
};

/* Whether a list reaches beyond what the address space holds. */
static inline int spp_too_long(struct spp_list list) {
    size_t most = (size_t)PTRDIFF_MAX / list.size;
    return list.count > most || (uintptr_t)list.start > UINTPTR_MAX - list.count * list.size;
}

/* Whether two lists, neither of them too long, share a byte. An empty list shares none. */
static inline int spp_share(struct spp_list a, struct spp_list b) {
    uintptr_t a_start = (uintptr_t)a.start, b_start = (uintptr_t)b.start;
    if (a.count == 0 || b.count == 0) {
        return 0;
    }
    return a_start < b_start + b.count * b.size && b_start < a_start + a.count * a.size;
}

/* The refusal for the lists of one call: SPP_NULL comes before SPP_OVERLAP. */
static inline uint32_t spp_guard(const struct spp_list *lists, size_t count) {
    size_t i, j;
    for (i = 0; i < count; i++) {
        if (!lists[i].start && lists[i].count > 0) {
            return SPP_NULL;
        }
    }
    for (i = 0; i < count; i++) {
        if (spp_too_long(lists[i])) {
            return SPP_OVERLAP;
        }
        for (j = 0; j < i; j++) {
            if (spp_share(lists[i], lists[j])) {
                return SPP_OVERLAP;
            }
        }
    }
    return SPP_ACCEPTED;
}

/*
 * Reads a duty file: fills in the cost of each column, the length of each body and the row numbers of all bodies.
 * The lists must hold as many places as there are columns, columns and entries.
 */
static inline struct spp_shape spp_read(const uint8_t *file, size_t file_count, int32_t *costs, size_t cost_count,
                                        uint16_t *lengths, size_t length_count, uint8_t *rows, size_t row_count) {
    const struct spp_list lists[4] = {{file, file_count, sizeof *file},
                                      {costs, cost_count, sizeof *costs},
                                      {lengths, length_count, sizeof *lengths},
                                      {rows, row_count, sizeof *rows}};
    struct spp_shape refused = {0, 0, 0, 0, 0};
    uint8_t no_file = 0, no_row = 0;
    int32_t no_cost = 0;
    uint16_t no_length = 0;
    refused.refusal = spp_guard(lists, 4);
    if (refused.refusal) {
        return refused;
    }
    return spp_core_read(file ? file : &no_file, file_count, costs ? costs : &no_cost, cost_count,
                         lengths ? lengths : &no_length, length_count, rows ? rows : &no_row, row_count);
}

/* A file written by the engine's call, with its lists guarded. */
static inline struct spp_written spp_guarded_write(spp_core_writer call, uint16_t rows, const int32_t *costs,
                                                   size_t cost_count, const uint16_t *lengths, size_t length_count,
                                                   const uint8_t *row_numbers, size_t row_count, uint8_t *out,
                                                   size_t out_count) {
    const struct spp_list lists[4] = {{costs, cost_count, sizeof *costs},
                                      {lengths, length_count, sizeof *lengths},
                                      {row_numbers, row_count, sizeof *row_numbers},
                                      {out, out_count, sizeof *out}};
    struct spp_written refused = {0, 0};
    uint8_t no_row = 0, no_byte = 0;
    int32_t no_cost = 0;
    uint16_t no_length = 0;
    refused.refusal = spp_guard(lists, 4);
    if (refused.refusal) {
        return refused;
    }
    return call(rows, costs ? costs : &no_cost, cost_count, lengths ? lengths : &no_length, length_count,
                row_numbers ? row_numbers : &no_row, row_count, out ? out : &no_byte, out_count);
}

/*
 * Writes an SPP1 file at the front of `out`. The number of columns is that of the costs; the body lengths are as many, and the row
 * numbers as many as the lengths sum to.
 */
static inline struct spp_written spp_write(uint16_t rows, const int32_t *costs, size_t cost_count, const uint16_t *lengths,
                                           size_t length_count, const uint8_t *row_numbers, size_t row_count, uint8_t *out,
                                           size_t out_count) {
    return spp_guarded_write(spp_core_write, rows, costs, cost_count, lengths, length_count, row_numbers, row_count, out,
                             out_count);
}

/* Writes an SPP2 file, whose costs are -1,000,000 to 1,000,000; all else is as for spp_write. */
static inline struct spp_written spp_write2(uint16_t rows, const int32_t *costs, size_t cost_count, const uint16_t *lengths,
                                            size_t length_count, const uint8_t *row_numbers, size_t row_count, uint8_t *out,
                                            size_t out_count) {
    return spp_guarded_write(spp_core_write2, rows, costs, cost_count, lengths, length_count, row_numbers, row_count, out,
                             out_count);
}

/* Checks whether the offered columns, rising, are a plan of the file. */
static inline struct spp_checked spp_check(const uint8_t *file, size_t file_count, const uint16_t *columns,
                                           size_t column_count) {
    const struct spp_list lists[2] = {{file, file_count, sizeof *file}, {columns, column_count, sizeof *columns}};
    struct spp_checked refused = {0, 0, 0, 0, 0};
    uint8_t no_file = 0;
    uint16_t no_column = 0;
    refused.refusal = spp_guard(lists, 2);
    if (refused.refusal) {
        return refused;
    }
    return spp_core_check(file ? file : &no_file, file_count, columns ? columns : &no_column, column_count);
}

/*
 * Reduces the costs of the file, SPP1 alone: fills in the reduced cost of each column and the rows in the sequence used.
 * The lists must hold as many places as there are columns and rows.
 */
static inline struct spp_reduced spp_reduce(const uint8_t *file, size_t file_count, int32_t *reduced, size_t reduced_count,
                                            uint8_t *order, size_t order_count) {
    const struct spp_list lists[3] = {{file, file_count, sizeof *file},
                                      {reduced, reduced_count, sizeof *reduced},
                                      {order, order_count, sizeof *order}};
    struct spp_reduced refused = {0, 0, 0};
    uint8_t no_file = 0, no_row = 0;
    int32_t no_cost = 0;
    refused.refusal = spp_guard(lists, 3);
    if (refused.refusal) {
        return refused;
    }
    return spp_core_reduce(file ? file : &no_file, file_count, reduced ? reduced : &no_cost, reduced_count,
                           order ? order : &no_row, order_count);
}

/* A search by the engine's call, with its lists guarded, and the struct as a list of one place. */
static inline struct spp_answer spp_guarded_search(spp_core_call call, const uint8_t *file, size_t file_count,
                                                   uint32_t node_limit, const struct spp_lists *lists, uint16_t *plan,
                                                   size_t plan_count) {
    const struct spp_lists none = {NULL, 0, NULL, 0, NULL, 0}, l = lists ? *lists : none;
    const struct spp_list lent[6] = {{file, file_count, sizeof *file},
                                     {l.agreed, l.agreed_count, sizeof *l.agreed},
                                     {l.absent, l.absent_count, sizeof *l.absent},
                                     {l.pairs, l.pair_count, sizeof *l.pairs},
                                     {plan, plan_count, sizeof *plan},
                                     {lists, 1, sizeof *lists}};
    struct spp_answer refused = {0, 0, 0, 0, 0, 0, 0};
    uint8_t no_file = 0;
    uint16_t no_agreed = 0, no_absent = 0, no_pair = 0, no_column = 0;
    refused.refusal = spp_guard(lent, 6);
    if (refused.refusal) {
        return refused;
    }
    return call(file ? file : &no_file, file_count, node_limit, l.agreed ? l.agreed : &no_agreed, l.agreed_count,
                l.absent ? l.absent : &no_absent, l.absent_count, l.pairs ? l.pairs : &no_pair, l.pair_count,
                plan ? plan : &no_column, plan_count);
}

/*
 * Searches for a plan with the least sum of costs that holds every agreed column that is not absent and no absent one, and obeys the
 * pairs, and enters at most `node_limit` nodes, 1 to 1,000,000: fills in the plan's columns, rising. The plan list must hold as many
 * places as there are rows. The struct is lent as the lists are: it must not be null nor share a byte with one of them.
 *
 * In an SPP2 file the search takes each column's cost with 1,000,000 more for each row that it covers. Every plan's price is then
 * 1,000,000 higher for each row of the file, which is taken off the price and the lower bound answered.
 */
static inline struct spp_answer spp_search_with(const uint8_t *file, size_t file_count, uint32_t node_limit,
                                                const struct spp_lists *lists, uint16_t *plan, size_t plan_count) {
    return spp_guarded_search(spp_core_search, file, file_count, node_limit, lists, plan, plan_count);
}

/* Searches an SPP1 file for a plan whose largest cost is least (its longest duty); all else is as for spp_search_with. */
static inline struct spp_answer spp_longest_with(const uint8_t *file, size_t file_count, uint32_t node_limit,
                                                 const struct spp_lists *lists, uint16_t *plan, size_t plan_count) {
    return spp_guarded_search(spp_core_longest, file, file_count, node_limit, lists, plan, plan_count);
}

/* spp_search_with, with no lists. */
static inline struct spp_answer spp_search(const uint8_t *file, size_t file_count, uint32_t node_limit, uint16_t *plan,
                                           size_t plan_count) {
    const struct spp_lists none = {NULL, 0, NULL, 0, NULL, 0};
    return spp_search_with(file, file_count, node_limit, &none, plan, plan_count);
}

/* spp_longest_with, with no lists. */
static inline struct spp_answer spp_longest(const uint8_t *file, size_t file_count, uint32_t node_limit, uint16_t *plan,
                                            size_t plan_count) {
    const struct spp_lists none = {NULL, 0, NULL, 0, NULL, 0};
    return spp_longest_with(file, file_count, node_limit, &none, plan, plan_count);
}

/*
 * Assigns crews to vessels at the least total: fills in the vessel of each crew, crew by crew, counted from 1. Of assignments with the
 * same total the one whose vessels, read crew by crew, come first is shown; with SPP_NONE the answer list is not touched.
 *
 * The table has 256 places, 16 for each crew: table[16 * i + j] is the cost of crew i on vessel j, both counted from 0. It is 1 to
 * 1,000,000, or 0 for a closed pairing. Places outside the crews and vessels given may hold anything. There are 1 to 16 crews and at
 * most 16 vessels, and no more crews than vessels; the answer list must hold as many places as there are crews.
 */
static inline struct spp_assigned spp_assign(size_t crews, size_t vessels, const uint32_t *table, uint8_t *answer,
                                             size_t answer_count) {
    const struct spp_list lists[2] = {{table, SPP_MOST_CREWS * SPP_MOST_VESSELS, sizeof *table},
                                      {answer, answer_count, sizeof *answer}};
    struct spp_assigned refused = {0, 0, 0};
    uint8_t no_vessel = 0;
    refused.refusal = spp_guard(lists, 2);
    if (refused.refusal) {
        return refused;
    }
    return spp_core_assign(crews, vessels, table, answer ? answer : &no_vessel, answer_count);
}

/*
 * Finds the lowest k such that rows 1 to k cannot be covered: fills in columns, rising, of which no two share a row and which cover each of
 * rows 1 to k - 1, none for k = 1. With SPP_PLAN_EXISTS and SPP_STOPPED the list is not touched.
 *
 * Trial k is spp_search, with `node_limit` from 1 to 1,000,000, on the file with one extra column of cost 1 appended for each row above k,
 * rising. The trials go from k = 1 upwards. The first one without a plan gives k if it is not stopped, and SPP_STOPPED if it is. The
 * columns shown are those of the plan of trial k - 1, which may have been stopped, without the extra ones. If each trial has a plan, there
 * is a plan of the file.
 *
 * The file must be SPP1, have at most 192 columns, and with the extra columns of trial 1, one fewer than there are rows, at most 4,096
 * entries. The list must hold as many places as there are rows.
 */
static inline struct spp_uncrewed spp_uncrewed(const uint8_t *file, size_t file_count, uint32_t node_limit, uint16_t *shown,
                                               size_t shown_count) {
    const struct spp_list lists[2] = {{file, file_count, sizeof *file}, {shown, shown_count, sizeof *shown}};
    struct spp_uncrewed refused = {0, 0, 0, 0};
    uint8_t no_file = 0;
    uint16_t no_column = 0;
    refused.refusal = spp_guard(lists, 2);
    if (refused.refusal) {
        return refused;
    }
    return spp_core_uncrewed(file ? file : &no_file, file_count, node_limit, shown ? shown : &no_column, shown_count);
}

/* The refusal for a file and a desk, which is a list of one place. */
static inline uint32_t spp_guard_desk(const uint8_t *file, size_t file_count, const struct spp_desk *desk) {
    const struct spp_list lists[2] = {{file, file_count, sizeof *file}, {desk, 1, sizeof *desk}};
    return spp_guard(lists, 2);
}

/* A step by the engine's call, with its file and desk guarded. */
static inline struct spp_step spp_guarded_step(spp_core_step call, const uint8_t *file, size_t file_count, uint32_t column,
                                               struct spp_desk *desk) {
    struct spp_step refused = {0, 0};
    uint8_t no_file = 0;
    refused.refusal = spp_guard_desk(file, file_count, desk);
    if (refused.refusal) {
        return refused;
    }
    return call(file ? file : &no_file, file_count, column, desk->marks, desk->covered, &desk->off, &desk->total);
}

/*
 * Makes an empty desk over the file, which is tested as the reader tests it: no column is in, and all of its rows are off. Gives the
 * refusal, 0 if the desk was made.
 */
static inline uint32_t spp_desk_empty(const uint8_t *file, size_t file_count, struct spp_desk *desk) {
    uint32_t refusal = spp_guard_desk(file, file_count, desk);
    uint8_t no_file = 0;
    if (refusal) {
        return refusal;
    }
    return spp_core_desk_empty(file ? file : &no_file, file_count, desk->marks, desk->covered, &desk->off, &desk->total);
}

/*
 * Adds a column of the file to the desk, unless it is in already. The file is tested as the reader tests it, then the column number.
 * The step goes by the rows and the cost of this column alone.
 */
static inline struct spp_step spp_desk_add(const uint8_t *file, size_t file_count, uint32_t column, struct spp_desk *desk) {
    return spp_guarded_step(spp_core_desk_add, file, file_count, column, desk);
}

/* Removes a column of the file from the desk, if it is in; all else is as for spp_desk_add. */
static inline struct spp_step spp_desk_remove(const uint8_t *file, size_t file_count, uint32_t column,
                                              struct spp_desk *desk) {
    return spp_guarded_step(spp_core_desk_remove, file, file_count, column, desk);
}

/*
 * Replies whether the columns in are a plan, and at which price, from `off` and `total` alone. With all steps over the file that the
 * desk was made over, the reply is what spp_check finds of the columns in.
 */
static inline struct spp_reply spp_desk_reply(const struct spp_desk *desk) {
    const struct spp_reply refused = {SPP_NULL, 0, 0};
    return desk ? spp_core_desk_reply(desk->off, desk->total) : refused;
}

#endif
