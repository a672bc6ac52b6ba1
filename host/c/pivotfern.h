/*
 * Pivotfern's three calls of every night, for C: libedge.a has them (host/archives.sh writes it). They hold no state, allocate nothing and
 * keep no pointer. A test compares these prototypes and numbers with the sources.
 *
 * Every list is a pointer and, next to it, its length in elements. What a caller has to see to:
 *   - Each pointer is aligned and valid for its length, for reading, or for reading and writing where it is not const. An empty list is a length
 *     of 0 and any aligned pointer that is not null.
 *   - What a call may change (every pointer that is not const) overlaps nothing else that the call is lent.
 * All else is checked: whatever the lists hold and however long they are, a call stays within them, and answers.
 *
 * A call returns the number of its answer (enum pivotfern_answer) and writes that answer's two values to *first and *second, 0 where there is
 * none. The first rule that is broken answers, in the order of the numbers. A refused call has changed nothing else, except that after 7 to 14
 * the first columns places of `map` hold PIVOTFERN_MARK, and after 10 the first rows places of `owners` too.
 */
#ifndef PIVOTFERN_H
#define PIVOTFERN_H

#include <stddef.h>
#include <stdint.h>

/* A row without an owner, and every column of `map` after the refusals 7 to 14. */
#define PIVOTFERN_MARK UINT32_MAX

/* The answers, and what *first and *second are. The numbers 12 and 14 are those of other calls. A later library may have more numbers. */
enum pivotfern_answer {
    PIVOTFERN_DONE = 0,                /* of plan: kept span count, eliminated span count */
    PIVOTFERN_TOO_BIG = 1,             /* above 1,048,576 rows, 65,536 columns, 16,777,216 entries or 65,536 blocks of a side */
    PIVOTFERN_BAD_SHAPE = 2,           /* pointers that do not rise from 0 to the entry count, values and rows of unlike length, an odd block list */
    PIVOTFERN_BAD_ROW = 3,             /* a row too large or not above the one before: column, place among all entries */
    PIVOTFERN_EMPTY_SIDE = 4,          /* a side without a block: 0 kept, 1 eliminated */
    PIVOTFERN_BAD_CHUNK = 5,           /* a chunk length of 0 or above 1,048,576 */
    PIVOTFERN_NO_ROOM = 6,             /* a buffer too short: its place among the buffers of plan from 0 (map is 0 in each call), need */
    PIVOTFERN_COLUMN_OUT_OF_RANGE = 7, /* a block that starts or reaches past the columns: the column */
    PIVOTFERN_COLUMN_TWICE = 8,        /* a column that is claimed twice: the column */
    PIVOTFERN_COLUMN_UNCLAIMED = 9,    /* a column that no block claims: the lowest such */
    PIVOTFERN_CONNECTED = 10,          /* a row with entries of two eliminated blocks: the block that finds it taken, the block that holds it */
    PIVOTFERN_WRONG_LENGTH = 11,       /* a list of another length than said below: its place, need */
    PIVOTFERN_BAD_DAMPING = 12,        /* damping limits that are NaN or cross */
    PIVOTFERN_BAD_PLAN = 13,           /* spans that do not fit columns and chunk length: 0 kept, 1 eliminated */
    PIVOTFERN_BAD_SCHEDULE = 14        /* a work order that cannot be done: its place */
};

/*
 * What every call is lent first:
 *   nrows    how many rows there are
 *   ptrs     where each column's entries begin, and after the last where they end: one more than columns
 *   rows     each entry's row number, strictly ascending in a column
 *   values   each entry's value, as many as rows
 *   kept     the blocks of the side that is kept: pairs of first column and dof; every column is in exactly one block of one side
 *   elims    the blocks of the side that is eliminated, likewise
 * A column's local number is the dofs of the earlier blocks of its side plus its place in its own block.
 */

/*
 * The structure plan for chunks of chunk_len rows. Its buffers are filled and need at least this room; longer is fine, and places past the used
 * part stay as they were. In the order of refusal 6, from 0:
 *   map                                      columns: a column's kept local number, or the kept dof plus its eliminated local number
 *   kept_cols, elims_cols, elims_blocks      columns each: a side's columns in local order; the block of each eliminated column
 *   owners                                   nrows: the eliminated block with an entry in the row, or PIVOTFERN_MARK
 *   row_list, row_starts                     nrows; eliminated blocks + 1: each eliminated block's rows, and where each block's begin
 *   visible, visible_starts                  entries; kept blocks + 1: the owners of each kept block's rows, and where each block's begin
 *   kept_starts                              chunks + 1: where each chunk's spans begin; there are nrows / chunk_len chunks, rounded up
 *   kept_lo, kept_hi, kept_local             entries each: a span's first entry, one past its last, its column's local number
 *   elims_starts, elims_lo, .. elims_local   likewise, of the eliminated side
 */
uint32_t pivotfern_plan(
    size_t nrows, const uint32_t *ptrs, size_t ptrs_len, const uint32_t *rows, size_t rows_len, const double *values, size_t values_len,
    const uint32_t *kept, size_t kept_len, const uint32_t *elims, size_t elims_len,
    size_t chunk_len,
    uint32_t *map, size_t map_len,
    uint32_t *kept_cols, size_t kept_cols_len,
    uint32_t *elims_cols, size_t elims_cols_len,
    uint32_t *elims_blocks, size_t elims_blocks_len,
    uint32_t *owners, size_t owners_len,
    uint32_t *row_list, size_t row_list_len,
    uint32_t *row_starts, size_t row_starts_len,
    uint32_t *visible, size_t visible_len,
    uint32_t *visible_starts, size_t visible_starts_len,
    uint32_t *kept_starts, size_t kept_starts_len,
    uint32_t *kept_lo, size_t kept_lo_len,
    uint32_t *kept_hi, size_t kept_hi_len,
    uint32_t *kept_local, size_t kept_local_len,
    uint32_t *elims_starts, size_t elims_starts_len,
    uint32_t *elims_lo, size_t elims_lo_len,
    uint32_t *elims_hi, size_t elims_hi_len,
    uint32_t *elims_local, size_t elims_local_len,
    uint64_t *first, uint64_t *second);

/*
 * The reduced operator over a plan: out = F'(F v - E inverses E' F v) + d v, where F are the kept columns and E the eliminated ones. Lengths are
 * exact but for map, which may be longer. The spans are those of the plan, made with the same chunk_len: starts are chunks + 1, and lo, hi and
 * local are cut to the span count that the plan told. In the order of refusal 11, from 0:
 *   v                 kept dof: the vector
 *   inverses          sum of the squares of the eliminated dofs: each block's inverse by columns, one block after the other
 *   d                 0, or kept dof: the kept side's damping
 *   kept_starts, kept_lo, kept_hi, kept_local, then elims_starts, elims_lo, elims_hi, elims_local
 *   y                 nrows: the rows end as F v - E u
 *   t, u              eliminated dof each: end as E' F v and as the inverses times t
 *   out               kept dof: the result
 * map needs columns places, as in the plan.
 */
uint32_t pivotfern_operator(
    size_t nrows, const uint32_t *ptrs, size_t ptrs_len, const uint32_t *rows, size_t rows_len, const double *values, size_t values_len,
    const uint32_t *kept, size_t kept_len, const uint32_t *elims, size_t elims_len,
    uint32_t *map, size_t map_len,
    size_t chunk_len,
    const double *v, size_t v_len,
    const double *inverses, size_t inverses_len,
    const double *d, size_t d_len,
    const uint32_t *kept_starts, size_t kept_starts_len,
    const uint32_t *kept_lo, size_t kept_lo_len,
    const uint32_t *kept_hi, size_t kept_hi_len,
    const uint32_t *kept_local, size_t kept_local_len,
    const uint32_t *elims_starts, size_t elims_starts_len,
    const uint32_t *elims_lo, size_t elims_lo_len,
    const uint32_t *elims_hi, size_t elims_hi_len,
    const uint32_t *elims_local, size_t elims_local_len,
    double *y, size_t y_len,
    double *t, size_t t_len,
    double *u, size_t u_len,
    double *out, size_t out_len,
    uint64_t *first, uint64_t *second);

/*
 * The update of all columns: each side's entries put back at their columns. map needs columns places; the other lengths are exact, in the order
 * of refusal 11, from 0:
 *   kept_update    kept dof, in local order
 *   elims_update   eliminated dof, in local order
 *   out            columns: the result
 */
uint32_t pivotfern_update(
    size_t nrows, const uint32_t *ptrs, size_t ptrs_len, const uint32_t *rows, size_t rows_len, const double *values, size_t values_len,
    const uint32_t *kept, size_t kept_len, const uint32_t *elims, size_t elims_len,
    uint32_t *map, size_t map_len,
    const double *kept_update, size_t kept_update_len,
    const double *elims_update, size_t elims_update_len,
    double *out, size_t out_len,
    uint64_t *first, uint64_t *second);

#endif
