//! The calls of `edge_compare`.

use super::map_room;
use crate::input::{Columns, Damping, Side, Sides, Sweep, System};
use crate::raw;
use crate::refusal::Error;
use std::ops::Range;

/// The check of the columns alone.
///
/// # Errors
///
/// Document 01's refusals 1 to 3.
pub fn check_columns(columns: Columns) -> Result<(), Error> {
    raw::check_columns(columns).done()
}

/// The dot of columns `a` and `b`: the products at their common rows, added in ascending order.
///
/// # Errors
///
/// Document 01's refusals 1 to 3 and 7.
pub fn column_dot(columns: Columns, a: usize, b: usize) -> Result<f64, Error> {
    let mut result = 0.0;
    raw::column_dot(columns, a, b, &mut result).done()?;
    Ok(result)
}

/// `Jᵀ·v`, with `v` over the rows.
///
/// # Errors
///
/// Document 01's refusals 1 to 3 and 11.
pub fn jt_vec(columns: Columns, v: &[f64]) -> Result<Vec<f64>, Error> {
    let mut out = vec![0.0; columns.column_room()];
    raw::jt_vec(columns, v, &mut out).done()?;
    Ok(out)
}

/// The diagonal of `JᵀJ`.
///
/// # Errors
///
/// Document 01's refusals 1 to 3.
pub fn diag_jt_j(columns: Columns) -> Result<Vec<f64>, Error> {
    let mut out = vec![0.0; columns.column_room()];
    raw::diag_jt_j(columns, &mut out).done()?;
    Ok(out)
}

/// `Jᵀ(J·v)`, with `v` over the columns.
///
/// # Errors
///
/// Document 01's refusals 1 to 3 and 11.
pub fn jt_j_vec_product(columns: Columns, v: &[f64]) -> Result<Vec<f64>, Error> {
    let mut rows = vec![0.0; columns.row_room()];
    let mut out = vec![0.0; columns.column_room()];
    raw::jt_j_vec_product(columns, v, &mut rows, &mut out).done()?;
    Ok(out)
}

/// The check of columns and blocks. Its result is the column map: a column's kept local number, or the kept dof plus its eliminated one.
///
/// # Errors
///
/// Document 01's refusals 1 to 4 and 7 to 9.
pub fn check_blocks(system: System) -> Result<Vec<u32>, Error> {
    let mut map = map_room(system);
    raw::check_blocks(system, &mut map).done()?;
    Ok(map)
}

/// Where a column stands.
#[derive(Clone, Copy, Debug, PartialEq, Eq)]
pub enum Slot {
    /// It is kept.
    Kept {
        /// Its local number.
        local: u64,
    },
    /// It is eliminated.
    Eliminated {
        /// Its block.
        block: u64,
        /// Its place in the block.
        offset: u64,
    },
}

impl Slot {
    /// What a lookup tells.
    ///
    /// # Errors
    ///
    /// [`Error::Unknown`] for a number past 2.
    pub fn from_told(told: raw::Told) -> Result<Option<Slot>, Error> {
        match told.number {
            0 => Ok(None),
            1 => Ok(Some(Slot::Kept { local: told.first })),
            2 => Ok(Some(Slot::Eliminated {
                block: told.first,
                offset: told.second,
            })),
            _ => Err(Error::Unknown(told)),
        }
    }
}

/// Where a column stands, asked of lists that nobody has checked: the first pair that holds it, kept first.
///
/// # Errors
///
/// [`Error::Unknown`] alone: nothing is refused.
pub fn slot(sides: Sides, column: usize) -> Result<Option<Slot>, Error> {
    Slot::from_told(raw::slot(sides, column))
}

/// Where a column stands, asked of the kept list alone.
///
/// # Errors
///
/// [`Error::Unknown`] alone: nothing is refused.
pub fn kept_local(kept: &[u32], column: usize) -> Result<Option<Slot>, Error> {
    Slot::from_told(raw::kept_local(kept, column))
}

/// Where a column stands, asked of the eliminated list alone.
///
/// # Errors
///
/// [`Error::Unknown`] alone: nothing is refused.
pub fn eliminated_local(eliminated: &[u32], column: usize) -> Result<Option<Slot>, Error> {
    Slot::from_told(raw::eliminated_local(eliminated, column))
}

/// Which part of the values a block is; empty for a number past the list, or where there are too few values.
///
/// # Errors
///
/// [`Error::Unknown`] alone: nothing is refused.
pub fn block_place(values: &[f64], eliminated: &[u32], number: usize) -> Result<Range<usize>, Error> {
    let told = raw::block(values, eliminated, number);
    told.done()?;
    let start = told.first as usize;
    let end = start.checked_add(told.second as usize).filter(|&end| end <= values.len());
    Ok(start..end.ok_or(Error::Unknown(told))?)
}

/// The values of one block, by columns; empty for a number past the list, or where there are too few values.
///
/// # Errors
///
/// [`Error::Unknown`] alone: nothing is refused.
pub fn block<'a>(values: &'a [f64], eliminated: &[u32], number: usize) -> Result<&'a [f64], Error> {
    block_place(values, eliminated, number).map(|place| &values[place])
}

/// The diagonal blocks of `EᵀE`, one after the other, each by columns. `values` must have [`value_count`](crate::value_count) places.
///
/// # Errors
///
/// Document 01's refusals 1 to 4, 7 to 9 and 11.
pub fn gather_from_jacobian(system: System, values: &mut [f64]) -> Result<(), Error> {
    raw::gather_from_jacobian(system, &mut map_room(system), values).done()
}

/// Adds damping to the diagonal of every block.
///
/// # Errors
///
/// Document 01's refusals 1 to 4, 7 to 9, 11 and 12.
pub fn damp(system: System, damping: Damping, values: &mut [f64]) -> Result<(), Error> {
    raw::damp(system, &mut map_room(system), damping, values).done()
}

/// What damping adds to one diagonal value.
///
/// # Errors
///
/// Document 01's refusal 12.
pub fn diagonal_term(damping: Damping, value: f64) -> Result<f64, Error> {
    let mut result = 0.0;
    raw::diagonal_term(damping, value, &mut result).done()?;
    Ok(result)
}

/// The block inverses times `b`, both over the eliminated columns.
///
/// # Errors
///
/// Document 01's refusals 1 to 4, 7 to 9 and 11.
pub fn apply_eliminated_inverse(system: System, b: &[f64], inverses: &[f64]) -> Result<Vec<f64>, Error> {
    let mut out = vec![0.0; system.side_room(Side::Eliminated)];
    raw::apply_eliminated_inverse(system, &mut map_room(system), b, inverses, &mut out).done()?;
    Ok(out)
}

/// `FᵀE·u`: from the eliminated columns to the kept ones.
///
/// # Errors
///
/// Document 01's refusals 1 to 4, 7 to 9 and 11.
pub fn coupling_times(system: System, u: &[f64]) -> Result<Vec<f64>, Error> {
    let mut rows = vec![0.0; system.columns.row_room()];
    let mut out = vec![0.0; system.side_room(Side::Kept)];
    raw::coupling_times(system, &mut map_room(system), u, &mut rows, &mut out).done()?;
    Ok(out)
}

/// `EᵀF·v`: from the kept columns to the eliminated ones.
///
/// # Errors
///
/// Document 01's refusals 1 to 4, 7 to 9 and 11.
pub fn coupling_transpose_times(system: System, v: &[f64]) -> Result<Vec<f64>, Error> {
    let mut rows = vec![0.0; system.columns.row_room()];
    let mut out = vec![0.0; system.side_room(Side::Eliminated)];
    raw::coupling_transpose_times(system, &mut map_room(system), v, &mut rows, &mut out).done()?;
    Ok(out)
}

/// One side's sweep along a work order. The kept sweep starts the rows at +0.0, the eliminated one subtracts from what they hold. Its
/// result is the progress: how many spans of each chunk were done.
///
/// # Errors
///
/// Document 01's refusals 1 to 5, 7 to 9, 11, 13 and 14.
pub fn sweep(system: System, sweep: Sweep, rows: &mut [f64], order: &[u32]) -> Result<Vec<u32>, Error> {
    let mut progress = vec![0; system.columns.chunk_room(sweep.chunk_len)];
    raw::sweep(system, sweep, &mut map_room(system), rows, &mut progress, order).done()?;
    Ok(progress)
}

/// One place of a work order: does the next span of `chunk` and adds 1 to that chunk's progress.
///
/// # Errors
///
/// Document 01's refusals 1 to 5, 7 to 9, 11, 13 and 14.
pub fn step(system: System, sweep: Sweep, rows: &mut [f64], progress: &mut [u32], chunk: usize) -> Result<(), Error> {
    raw::step(system, sweep, &mut map_room(system), rows, progress, chunk).done()
}
