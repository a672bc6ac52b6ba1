//! The exports of the proved crates `edge` and `edge_compare`, as they cross C linkage. A slice crosses as a pointer and a length,
//! `NAME` and `NAME_len`. Each call answers document 01's number and writes its two values through `first` and `second`.
//!
//! No compiler sees both sides of this border, so tests/signatures.rs compares these declarations with the Rattle sources.

// crates/edge
#[rustfmt::skip]
extern "C" {
    pub fn pivotfern_plan(
        nrows: usize, ptrs: *const u32, ptrs_len: usize, rows: *const u32, rows_len: usize, values: *const f64, values_len: usize,
        kept: *const u32, kept_len: usize, elims: *const u32, elims_len: usize,
        chunk_len: usize,
        map: *mut u32, map_len: usize,
        kept_cols: *mut u32, kept_cols_len: usize,
        elims_cols: *mut u32, elims_cols_len: usize,
        elims_blocks: *mut u32, elims_blocks_len: usize,
        owners: *mut u32, owners_len: usize,
        row_list: *mut u32, row_list_len: usize,
        row_starts: *mut u32, row_starts_len: usize,
        visible: *mut u32, visible_len: usize,
        visible_starts: *mut u32, visible_starts_len: usize,
        kept_starts: *mut u32, kept_starts_len: usize,
        kept_lo: *mut u32, kept_lo_len: usize,
        kept_hi: *mut u32, kept_hi_len: usize,
        kept_local: *mut u32, kept_local_len: usize,
        elims_starts: *mut u32, elims_starts_len: usize,
        elims_lo: *mut u32, elims_lo_len: usize,
        elims_hi: *mut u32, elims_hi_len: usize,
        elims_local: *mut u32, elims_local_len: usize,
        first: *mut u64, second: *mut u64,
    ) -> u32;

    pub fn pivotfern_operator(
        nrows: usize, ptrs: *const u32, ptrs_len: usize, rows: *const u32, rows_len: usize, values: *const f64, values_len: usize,
        kept: *const u32, kept_len: usize, elims: *const u32, elims_len: usize,
        map: *mut u32, map_len: usize,
        chunk_len: usize,
        v: *const f64, v_len: usize,
        inverses: *const f64, inverses_len: usize,
        d: *const f64, d_len: usize,
        kept_starts: *const u32, kept_starts_len: usize,
        kept_lo: *const u32, kept_lo_len: usize,
        kept_hi: *const u32, kept_hi_len: usize,
        kept_local: *const u32, kept_local_len: usize,
        elims_starts: *const u32, elims_starts_len: usize,
        elims_lo: *const u32, elims_lo_len: usize,
        elims_hi: *const u32, elims_hi_len: usize,
        elims_local: *const u32, elims_local_len: usize,
        y: *mut f64, y_len: usize,
        t: *mut f64, t_len: usize,
        u: *mut f64, u_len: usize,
        out: *mut f64, out_len: usize,
        first: *mut u64, second: *mut u64,
    ) -> u32;

    pub fn pivotfern_update(
        nrows: usize, ptrs: *const u32, ptrs_len: usize, rows: *const u32, rows_len: usize, values: *const f64, values_len: usize,
        kept: *const u32, kept_len: usize, elims: *const u32, elims_len: usize,
        map: *mut u32, map_len: usize,
        kept_update: *const f64, kept_update_len: usize,
        elims_update: *const f64, elims_update_len: usize,
        out: *mut f64, out_len: usize,
        first: *mut u64, second: *mut u64,
    ) -> u32;
}

// crates/edge_compare: the rest, for comparisons
#[cfg(feature = "compare")]
#[rustfmt::skip]
extern "C" {
    pub fn pivotfern_check_columns(
        nrows: usize, ptrs: *const u32, ptrs_len: usize, rows: *const u32, rows_len: usize, values: *const f64, values_len: usize,
        first: *mut u64, second: *mut u64,
    ) -> u32;

    pub fn pivotfern_column_dot(
        nrows: usize, ptrs: *const u32, ptrs_len: usize, rows: *const u32, rows_len: usize, values: *const f64, values_len: usize,
        a: usize, b: usize,
        res: *mut f64,
        first: *mut u64, second: *mut u64,
    ) -> u32;

    pub fn pivotfern_jt_vec(
        nrows: usize, ptrs: *const u32, ptrs_len: usize, rows: *const u32, rows_len: usize, values: *const f64, values_len: usize,
        v: *const f64, v_len: usize,
        out: *mut f64, out_len: usize,
        first: *mut u64, second: *mut u64,
    ) -> u32;

    pub fn pivotfern_diag_jt_j(
        nrows: usize, ptrs: *const u32, ptrs_len: usize, rows: *const u32, rows_len: usize, values: *const f64, values_len: usize,
        out: *mut f64, out_len: usize,
        first: *mut u64, second: *mut u64,
    ) -> u32;

    pub fn pivotfern_jt_j_vec_product(
        nrows: usize, ptrs: *const u32, ptrs_len: usize, rows: *const u32, rows_len: usize, values: *const f64, values_len: usize,
        v: *const f64, v_len: usize,
        y: *mut f64, y_len: usize,
        out: *mut f64, out_len: usize,
        first: *mut u64, second: *mut u64,
    ) -> u32;

    pub fn pivotfern_check_blocks(
        nrows: usize, ptrs: *const u32, ptrs_len: usize, rows: *const u32, rows_len: usize, values: *const f64, values_len: usize,
        kept: *const u32, kept_len: usize, elims: *const u32, elims_len: usize,
        map: *mut u32, map_len: usize,
        first: *mut u64, second: *mut u64,
    ) -> u32;

    pub fn pivotfern_slot(
        kept: *const u32, kept_len: usize, elims: *const u32, elims_len: usize,
        column: usize,
        first: *mut u64, second: *mut u64,
    ) -> u32;

    pub fn pivotfern_kept_local(
        kept: *const u32, kept_len: usize,
        column: usize,
        first: *mut u64, second: *mut u64,
    ) -> u32;

    pub fn pivotfern_eliminated_local(
        elims: *const u32, elims_len: usize,
        column: usize,
        first: *mut u64, second: *mut u64,
    ) -> u32;

    pub fn pivotfern_block(
        values: *const f64, values_len: usize,
        elims: *const u32, elims_len: usize,
        number: usize,
        first: *mut u64, second: *mut u64,
    ) -> u32;

    pub fn pivotfern_gather_from_jacobian(
        nrows: usize, ptrs: *const u32, ptrs_len: usize, rows: *const u32, rows_len: usize, values: *const f64, values_len: usize,
        kept: *const u32, kept_len: usize, elims: *const u32, elims_len: usize,
        map: *mut u32, map_len: usize,
        out: *mut f64, out_len: usize,
        first: *mut u64, second: *mut u64,
    ) -> u32;

    pub fn pivotfern_damp(
        nrows: usize, ptrs: *const u32, ptrs_len: usize, rows: *const u32, rows_len: usize, values: *const f64, values_len: usize,
        kept: *const u32, kept_len: usize, elims: *const u32, elims_len: usize,
        map: *mut u32, map_len: usize,
        lambda: f64, min: f64, max: f64,
        out: *mut f64, out_len: usize,
        first: *mut u64, second: *mut u64,
    ) -> u32;

    pub fn pivotfern_diagonal_term(
        lambda: f64, min: f64, max: f64,
        value: f64,
        res: *mut f64,
        first: *mut u64, second: *mut u64,
    ) -> u32;

    pub fn pivotfern_apply_eliminated_inverse(
        nrows: usize, ptrs: *const u32, ptrs_len: usize, rows: *const u32, rows_len: usize, values: *const f64, values_len: usize,
        kept: *const u32, kept_len: usize, elims: *const u32, elims_len: usize,
        map: *mut u32, map_len: usize,
        b: *const f64, b_len: usize,
        inverses: *const f64, inverses_len: usize,
        out: *mut f64, out_len: usize,
        first: *mut u64, second: *mut u64,
    ) -> u32;

    pub fn pivotfern_coupling_times(
        nrows: usize, ptrs: *const u32, ptrs_len: usize, rows: *const u32, rows_len: usize, values: *const f64, values_len: usize,
        kept: *const u32, kept_len: usize, elims: *const u32, elims_len: usize,
        map: *mut u32, map_len: usize,
        u: *const f64, u_len: usize,
        y: *mut f64, y_len: usize,
        out: *mut f64, out_len: usize,
        first: *mut u64, second: *mut u64,
    ) -> u32;

    pub fn pivotfern_coupling_transpose_times(
        nrows: usize, ptrs: *const u32, ptrs_len: usize, rows: *const u32, rows_len: usize, values: *const f64, values_len: usize,
        kept: *const u32, kept_len: usize, elims: *const u32, elims_len: usize,
        map: *mut u32, map_len: usize,
        v: *const f64, v_len: usize,
        y: *mut f64, y_len: usize,
        out: *mut f64, out_len: usize,
        first: *mut u64, second: *mut u64,
    ) -> u32;

    pub fn pivotfern_sweep(
        side: u32,
        nrows: usize, ptrs: *const u32, ptrs_len: usize, rows: *const u32, rows_len: usize, values: *const f64, values_len: usize,
        kept: *const u32, kept_len: usize, elims: *const u32, elims_len: usize,
        map: *mut u32, map_len: usize,
        chunk_len: usize,
        v: *const f64, v_len: usize,
        starts: *const u32, starts_len: usize,
        lo: *const u32, lo_len: usize,
        hi: *const u32, hi_len: usize,
        local: *const u32, local_len: usize,
        y: *mut f64, y_len: usize,
        progress: *mut u32, progress_len: usize,
        order: *const u32, order_len: usize,
        first: *mut u64, second: *mut u64,
    ) -> u32;

    pub fn pivotfern_step(
        side: u32,
        nrows: usize, ptrs: *const u32, ptrs_len: usize, rows: *const u32, rows_len: usize, values: *const f64, values_len: usize,
        kept: *const u32, kept_len: usize, elims: *const u32, elims_len: usize,
        map: *mut u32, map_len: usize,
        chunk_len: usize,
        v: *const f64, v_len: usize,
        starts: *const u32, starts_len: usize,
        lo: *const u32, lo_len: usize,
        hi: *const u32, hi_len: usize,
        local: *const u32, local_len: usize,
        y: *mut f64, y_len: usize,
        progress: *mut u32, progress_len: usize,
        chunk: usize,
        first: *mut u64, second: *mut u64,
    ) -> u32;
}
