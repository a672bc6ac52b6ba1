//! The exports of `edge_compare`.

use super::Told;
use crate::input::{Columns, Damping, Sides, Sweep, System};

/// The check of the columns.
pub fn check_columns(columns: Columns) -> Told {
    call!(pivotfern_check_columns: columns columns)
}

/// The dot of two columns; `result` stays as it was after a refusal.
pub fn column_dot(columns: Columns, a: usize, b: usize, result: &mut f64) -> Told {
    call!(pivotfern_column_dot: columns columns, plain a, plain b, plain result)
}

/// `Jᵀ·v`.
pub fn jt_vec(columns: Columns, v: &[f64], out: &mut [f64]) -> Told {
    call!(pivotfern_jt_vec: columns columns, list v, buffer out)
}

/// The diagonal of `JᵀJ`.
pub fn diag_jt_j(columns: Columns, out: &mut [f64]) -> Told {
    call!(pivotfern_diag_jt_j: columns columns, buffer out)
}

/// `Jᵀ(J·v)`; `rows` ends as `J·v`.
pub fn jt_j_vec_product(columns: Columns, v: &[f64], rows: &mut [f64], out: &mut [f64]) -> Told {
    call!(pivotfern_jt_j_vec_product: columns columns, list v, buffer rows, buffer out)
}

/// The check of columns and blocks, and the column map.
pub fn check_blocks(system: System, map: &mut [u32]) -> Told {
    call!(pivotfern_check_blocks: system system, buffer map)
}

/// Where a column stands: number 0 nowhere; 1 kept, its local number; 2 eliminated, its block and its offset there.
pub fn slot(sides: Sides, column: usize) -> Told {
    call!(pivotfern_slot: sides sides, plain column)
}

/// A column's kept local number: number 0 none; 1 with it.
pub fn kept_local(kept: &[u32], column: usize) -> Told {
    call!(pivotfern_kept_local: list kept, plain column)
}

/// A column's eliminated block: number 0 none; 2 with block and offset.
pub fn eliminated_local(eliminated: &[u32], column: usize) -> Told {
    call!(pivotfern_eliminated_local: list eliminated, plain column)
}

/// Which part of the values a block is: number 0, start and length.
pub fn block(values: &[f64], eliminated: &[u32], number: usize) -> Told {
    call!(pivotfern_block: list values, list eliminated, plain number)
}

/// The diagonal blocks of `EᵀE`.
pub fn gather_from_jacobian(system: System, map: &mut [u32], out: &mut [f64]) -> Told {
    call!(pivotfern_gather_from_jacobian: system system, buffer map, buffer out)
}

/// Damping added to the diagonal of every block.
pub fn damp(system: System, map: &mut [u32], damping: Damping, out: &mut [f64]) -> Told {
    call!(pivotfern_damp: system system, buffer map, damping damping, buffer out)
}

/// What damping adds to one diagonal value; `result` stays as it was after a refusal.
pub fn diagonal_term(damping: Damping, value: f64, result: &mut f64) -> Told {
    call!(pivotfern_diagonal_term: damping damping, plain value, plain result)
}

/// The block inverses times `b`.
pub fn apply_eliminated_inverse(system: System, map: &mut [u32], b: &[f64], inverses: &[f64], out: &mut [f64]) -> Told {
    call!(pivotfern_apply_eliminated_inverse: system system, buffer map, list b, list inverses, buffer out)
}

/// `FᵀE·u`; `rows` ends as `E·u`.
pub fn coupling_times(system: System, map: &mut [u32], u: &[f64], rows: &mut [f64], out: &mut [f64]) -> Told {
    call!(pivotfern_coupling_times: system system, buffer map, list u, buffer rows, buffer out)
}

/// `EᵀF·v`; `rows` ends as `F·v`.
pub fn coupling_transpose_times(system: System, map: &mut [u32], v: &[f64], rows: &mut [f64], out: &mut [f64]) -> Told {
    call!(pivotfern_coupling_transpose_times: system system, buffer map, list v, buffer rows, buffer out)
}

/// One side's sweep along a work order.
pub fn sweep(system: System, sweep: Sweep, map: &mut [u32], rows: &mut [f64], progress: &mut [u32], order: &[u32]) -> Told {
    call!(pivotfern_sweep: plain sweep.side.number(), system system, buffer map, plain sweep.chunk_len, list sweep.v, spans sweep.spans,
        buffer rows, buffer progress, list order)
}

/// One step of a sweep: the next span of one chunk.
pub fn step(system: System, sweep: Sweep, map: &mut [u32], rows: &mut [f64], progress: &mut [u32], chunk: usize) -> Told {
    call!(pivotfern_step: plain sweep.side.number(), system system, buffer map, plain sweep.chunk_len, list sweep.v, spans sweep.spans,
        buffer rows, buffer progress, plain chunk)
}
