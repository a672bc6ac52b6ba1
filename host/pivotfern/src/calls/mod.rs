//! The calls, safe and with results of their own. A caller borrows what it has and gets a result or a reason. Results of a number a column
//! or a row are made here; block values are lent by the caller, since a single block may have 2^32 of them.

use crate::input::{Side, System};
use crate::plan::Plan;
use crate::raw;
use crate::refusal::Error;

#[cfg(feature = "compare")]
mod compare;
#[cfg(feature = "compare")]
pub use compare::*;

/// Room for the column map.
fn map_room(system: System) -> Vec<u32> {
    vec![0; system.columns.column_room()]
}

/// Both sides' updates, each in local order, put back at their columns.
///
/// # Errors
///
/// Document 01's refusals 1 to 4, 7 to 9 and 11.
pub fn combine_updates(system: System, kept: &[f64], eliminated: &[f64]) -> Result<Vec<f64>, Error> {
    let mut out = vec![0.0; system.columns.column_room()];
    raw::update(system, &mut map_room(system), kept, eliminated, &mut out).done()?;
    Ok(out)
}

/// What the operator reads beside the system.
#[derive(Clone, Copy, Debug)]
pub struct Operands<'a> {
    /// The plan of the system, or of one of the same pattern.
    pub plan: &'a Plan,
    /// The vector over the kept columns, in local order.
    pub v: &'a [f64],
    /// The inverses of the eliminated blocks, one after the other, each by columns: [`value_count`](crate::value_count) of them.
    pub inverses: &'a [f64],
    /// Empty, or the kept side's damping in local order.
    pub d: &'a [f64],
}

/// The operator's work room: made once, lent to every call.
#[derive(Clone, Debug)]
pub struct Work {
    map: Vec<u32>,
    rows: Vec<f64>,
    t: Vec<f64>,
    u: Vec<f64>,
}

impl Work {
    /// Room for this system.
    #[must_use]
    pub fn new(system: System) -> Work {
        let eliminated = system.side_room(Side::Eliminated);
        Work {
            map: map_room(system),
            rows: vec![0.0; system.columns.row_room()],
            t: vec![0.0; eliminated],
            u: vec![0.0; eliminated],
        }
    }

    /// The rows as the last operator left them: `F·v − E·u`.
    #[must_use]
    pub fn rows(&self) -> &[f64] {
        &self.rows
    }

    /// `Eᵀ·F·v` of the last operator.
    #[must_use]
    pub fn t(&self) -> &[f64] {
        &self.t
    }

    /// The block inverses times `t`.
    #[must_use]
    pub fn u(&self) -> &[f64] {
        &self.u
    }
}

/// The reduced operator: `out = Fᵀ(F·v − E·inverses·Eᵀ·F·v) + d·v`.
///
/// # Errors
///
/// Document 01's refusals 1 to 5, 7 to 9, 11 and 13; and 6 where the work room is another system's.
pub fn operator(system: System, operands: Operands, work: &mut Work, out: &mut [f64]) -> Result<(), Error> {
    let Operands { plan, v, inverses, d } = operands;
    let Work { map, rows, t, u } = work;
    let operands = raw::Operands {
        chunk_len: plan.chunk_len(),
        v,
        inverses,
        d,
        kept: plan.spans(Side::Kept),
        eliminated: plan.spans(Side::Eliminated),
    };
    raw::operator(system, operands, raw::Work { map, rows, t, u, out }).done()
}
