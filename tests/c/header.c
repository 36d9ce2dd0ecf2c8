/* Includes the header alone; compiled as C99 and as C++, with every warning an error. */
#include "spp.h"

/* Both searches are called alike. */
typedef struct spp_answer (*search)(const uint8_t *, size_t, uint32_t, uint16_t *, size_t);
const search spp_header_searches[2] = {spp_search, spp_longest};
typedef struct spp_answer (*search_with)(const uint8_t *, size_t, uint32_t, const struct spp_lists *, uint16_t *, size_t);
const search_with spp_header_searches_with[2] = {spp_search_with, spp_longest_with};
const spp_core_call spp_header_core_searches[2] = {spp_core_search, spp_core_longest};
/* The engine's call and the guarded one are called alike. */
typedef struct spp_shape (*reader)(const uint8_t *, size_t, int32_t *, size_t, uint16_t *, size_t, uint8_t *, size_t);
const reader spp_header_readers[2] = {spp_read, spp_core_read};
typedef struct spp_reduced (*reduce)(const uint8_t *, size_t, int32_t *, size_t, uint8_t *, size_t);
const reduce spp_header_reduces[2] = {spp_reduce, spp_core_reduce};
typedef struct spp_assigned (*assign)(size_t, size_t, const uint32_t *, uint8_t *, size_t);
const assign spp_header_assigns[2] = {spp_assign, spp_core_assign};
typedef struct spp_uncrewed (*uncrewed)(const uint8_t *, size_t, uint32_t, uint16_t *, size_t);
const uncrewed spp_header_uncrewed[2] = {spp_uncrewed, spp_core_uncrewed};
/* Both steps are called alike, and so are the engine's. */
typedef struct spp_step (*step)(const uint8_t *, size_t, uint32_t, struct spp_desk *);
const step spp_header_steps[2] = {spp_desk_add, spp_desk_remove};
const spp_core_step spp_header_core_steps[2] = {spp_core_desk_add, spp_core_desk_remove};
/* Both writers are called alike, and as the engine's are. */
typedef struct spp_written (*writer)(uint16_t, const int32_t *, size_t, const uint16_t *, size_t, const uint8_t *, size_t,
                                     uint8_t *, size_t);
const writer spp_header_writers[4] = {spp_write, spp_write2, spp_core_write, spp_core_write2};
const spp_core_writer spp_header_core_writers[2] = {spp_core_write, spp_core_write2};

/* The layout of struct spp_lists, as a type that is in error if it differs: six fields without a gap. */
#define WORDS_BEFORE(field) (offsetof(struct spp_lists, field) / sizeof(size_t))
typedef char spp_header_lists_layout[WORDS_BEFORE(agreed) == 0 && WORDS_BEFORE(agreed_count) == 1 &&
                                             WORDS_BEFORE(absent) == 2 && WORDS_BEFORE(absent_count) == 3 &&
                                             WORDS_BEFORE(pairs) == 4 && WORDS_BEFORE(pair_count) == 5 &&
                                             sizeof(struct spp_lists) == 6 * sizeof(size_t)
                                         ? 1
                                         : -1];

/* The layout of struct spp_assigned, in the same way: 4, 4 and 8 bytes without a gap. */
#define BYTES_BEFORE(field) offsetof(struct spp_assigned, field)
typedef char spp_header_assigned_layout[BYTES_BEFORE(refusal) == 0 && BYTES_BEFORE(outcome) == 4 &&
                                                BYTES_BEFORE(total) == 8 && sizeof(struct spp_assigned) == 16
                                            ? 1
                                            : -1];

/* The layout of struct spp_uncrewed, in the same way: four times 4 bytes without a gap. */
#define WORDS_OF_UNCREWED(field) (offsetof(struct spp_uncrewed, field) / sizeof(uint32_t))
typedef char spp_header_uncrewed_layout[WORDS_OF_UNCREWED(refusal) == 0 && WORDS_OF_UNCREWED(outcome) == 1 &&
                                                WORDS_OF_UNCREWED(row) == 2 && WORDS_OF_UNCREWED(columns) == 3 &&
                                                sizeof(struct spp_uncrewed) == 16
                                            ? 1
                                            : -1];

/* The layout of struct spp_desk, in the same way: 256 bytes, 64 times 4, and twice 4, without a gap. */
#define BYTES_OF_DESK(field) offsetof(struct spp_desk, field)
typedef char spp_header_desk_layout[BYTES_OF_DESK(marks) == 0 && BYTES_OF_DESK(covered) == 256 &&
                                            BYTES_OF_DESK(off) == 512 && BYTES_OF_DESK(total) == 516 &&
                                            sizeof(struct spp_desk) == 520
                                        ? 1
                                        : -1];

/* The layouts of struct spp_step and struct spp_reply, in the same way: twice and three times 4 bytes. */
typedef char spp_header_step_layout[offsetof(struct spp_step, refusal) == 0 && offsetof(struct spp_step, changed) == 4 &&
                                            sizeof(struct spp_step) == 8
                                        ? 1
                                        : -1];
typedef char spp_header_reply_layout[offsetof(struct spp_reply, refusal) == 0 && offsetof(struct spp_reply, is_plan) == 4 &&
                                             offsetof(struct spp_reply, price) == 8 && sizeof(struct spp_reply) == 12
                                         ? 1
                                         : -1];

/* The layouts of struct spp_shape and struct spp_written, in the same way: five times and twice 4 bytes. */
#define WORDS_OF_SHAPE(field) (offsetof(struct spp_shape, field) / sizeof(uint32_t))
typedef char spp_header_shape_layout[WORDS_OF_SHAPE(refusal) == 0 && WORDS_OF_SHAPE(rows) == 1 &&
                                             WORDS_OF_SHAPE(columns) == 2 && WORDS_OF_SHAPE(entries) == 3 &&
                                             WORDS_OF_SHAPE(edition) == 4 && sizeof(struct spp_shape) == 20
                                         ? 1
                                         : -1];
typedef char spp_header_written_layout[offsetof(struct spp_written, refusal) == 0 &&
                                               offsetof(struct spp_written, length) == 4 && sizeof(struct spp_written) == 8
                                           ? 1
                                           : -1];

/* The layout of struct spp_checked, in the same way: four times 4 bytes and 8 without a gap. */
#define BYTES_OF_CHECKED(field) offsetof(struct spp_checked, field)
typedef char spp_header_checked_layout[BYTES_OF_CHECKED(refusal) == 0 && BYTES_OF_CHECKED(is_plan) == 4 &&
                                               BYTES_OF_CHECKED(row) == 8 && BYTES_OF_CHECKED(covered) == 12 &&
                                               BYTES_OF_CHECKED(price) == 16 && sizeof(struct spp_checked) == 24
                                           ? 1
                                           : -1];

/* The layout of struct spp_reduced, in the same way: 4, 4 and 8 bytes without a gap. */
#define BYTES_OF_REDUCED(field) offsetof(struct spp_reduced, field)
typedef char spp_header_reduced_layout[BYTES_OF_REDUCED(refusal) == 0 && BYTES_OF_REDUCED(used) == 4 &&
                                               BYTES_OF_REDUCED(bound) == 8 && sizeof(struct spp_reduced) == 16
                                           ? 1
                                           : -1];

/* The layout of struct spp_answer, in the same way: five times 4 bytes, a gap of 4, and twice 8 bytes. */
#define BYTES_OF_ANSWER(field) offsetof(struct spp_answer, field)
typedef char spp_header_answer_layout[BYTES_OF_ANSWER(refusal) == 0 && BYTES_OF_ANSWER(outcome) == 4 &&
                                              BYTES_OF_ANSWER(has_plan) == 8 && BYTES_OF_ANSWER(columns) == 12 &&
                                              BYTES_OF_ANSWER(nodes) == 16 && BYTES_OF_ANSWER(price) == 24 &&
                                              BYTES_OF_ANSWER(bound) == 32 && sizeof(struct spp_answer) == 40
                                          ? 1
                                          : -1];

/* The ranges of costs, as a type that is in error if they differ. */
typedef char spp_header_costs[SPP_LEAST_COST == -1000000 && SPP_MOST_COST == 1000000 ? 1 : -1];

/* The types of prices and lower bounds, and of the edition: the address of a field of another type, unsigned or not, is in error. */
void spp_header_types(struct spp_checked *checked, struct spp_reduced *reduced, struct spp_answer *answer, int64_t *out[4]) {
    out[0] = &checked->price;
    out[1] = &reduced->bound;
    out[2] = &answer->price;
    out[3] = &answer->bound;
}
uint32_t *spp_header_edition(struct spp_shape *shape) {
    return &shape->edition;
}

int spp_header_compiles(void) {
    return SPP_ACCEPTED;
}
