/*
 * Document 01's built-in hall from C: plans it in chunks of two rows and prints the operator's result, `out 1`.
 *
 *     cc -std=c99 hall.c PATH_OF/libedge.a -o hall && ./hall
 */
#include "pivotfern.h"

#include <stdio.h>

#define COUNT(list) (sizeof(list) / sizeof((list)[0]))
/* a list as it is lent: where it is, and its length */
#define LIST(list) (list), COUNT(list)

enum { ROWS = 5, COLUMNS = 3, ENTRIES = 8, KEPT = 1, ELIMINATED = 2, CHUNK = 2, CHUNKS = 3 };

static const uint32_t ptrs[COLUMNS + 1] = {0, 4, 6, 8};
static const uint32_t row_numbers[ENTRIES] = {0, 1, 3, 4, 0, 1, 3, 4};
static const double values[ENTRIES] = {1, 2, 3, 4, 1, 1, 2, 1};
/* pairs: first column, dof */
static const uint32_t kept[2 * KEPT] = {0, 1};
static const uint32_t elims[2 * ELIMINATED] = {1, 1, 2, 1};
static const double v[KEPT] = {2};
static const double inverses[ELIMINATED] = {0.5, 0.25};

/* the lists of a plan */
static uint32_t map[COLUMNS], kept_cols[COLUMNS], elims_cols[COLUMNS], elims_blocks[COLUMNS], owners[ROWS];
static uint32_t row_list[ROWS], row_starts[ELIMINATED + 1], visible[ENTRIES], visible_starts[KEPT + 1];
static uint32_t kept_starts[CHUNKS + 1], kept_lo[ENTRIES], kept_hi[ENTRIES], kept_local[ENTRIES];
static uint32_t elims_starts[CHUNKS + 1], elims_lo[ENTRIES], elims_hi[ENTRIES], elims_local[ENTRIES];

/* the operator's room */
static double y[ROWS], t[ELIMINATED], u[ELIMINATED], out[KEPT];

static int refused(const char *call, uint32_t number, uint64_t first, uint64_t second) {
    printf("%s: refusal %u, %llu, %llu\n", call, (unsigned)number, (unsigned long long)first, (unsigned long long)second);
    return 1;
}

int main(void) {
    uint64_t first, second;
    uint32_t number = pivotfern_plan(
        ROWS, LIST(ptrs), LIST(row_numbers), LIST(values), LIST(kept), LIST(elims), CHUNK,
        LIST(map), LIST(kept_cols), LIST(elims_cols), LIST(elims_blocks), LIST(owners),
        LIST(row_list), LIST(row_starts), LIST(visible), LIST(visible_starts),
        LIST(kept_starts), LIST(kept_lo), LIST(kept_hi), LIST(kept_local),
        LIST(elims_starts), LIST(elims_lo), LIST(elims_hi), LIST(elims_local),
        &first, &second);
    if (number != PIVOTFERN_DONE) {
        return refused("plan", number, first, second);
    }

    /* the operator wants the spans alone, without the room behind them; d is empty */
    size_t kept_spans = (size_t)first, elims_spans = (size_t)second;
    number = pivotfern_operator(
        ROWS, LIST(ptrs), LIST(row_numbers), LIST(values), LIST(kept), LIST(elims), LIST(map), CHUNK,
        LIST(v), LIST(inverses), v, 0,
        LIST(kept_starts), kept_lo, kept_spans, kept_hi, kept_spans, kept_local, kept_spans,
        LIST(elims_starts), elims_lo, elims_spans, elims_hi, elims_spans, elims_local, elims_spans,
        LIST(y), LIST(t), LIST(u), LIST(out),
        &first, &second);
    if (number != PIVOTFERN_DONE) {
        return refused("operator", number, first, second);
    }
    printf("out %.17g\n", out[0]);
    return 0;
}
