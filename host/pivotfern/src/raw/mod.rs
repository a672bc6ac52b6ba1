//! Every export as a function that takes slices and hands back the number and the two values as they came. These are safe: no export has
//! a condition on what it is lent. Nothing is prepared or cut, so buffers of any length can be tried.

#![allow(unsafe_code)]

use crate::input::{Spans, System};

/// What a call tells: document 01's number and two values, 0 where there is none.
#[derive(Clone, Copy, Debug, PartialEq, Eq)]
#[must_use = "a refusal is told by its number"]
pub struct Told {
    /// 0, or the number of the refusal.
    pub number: u32,
    /// The first value.
    pub first: u64,
    /// The second value.
    pub second: u64,
}

/// The buffers of a plan, in the order of document 01's room list: map, kept_cols, elims_cols, elims_blocks, owners, row_list, row_starts,
/// visible, visible_starts, then starts, lo, hi and local of the kept side and of the eliminated one.
pub type PlanBuffers<'a> = [&'a mut [u32]; 17];

/// What the operator reads beside the system.
#[derive(Clone, Copy, Debug)]
pub struct Operands<'a> {
    /// The length of the chunks that the spans are divided by.
    pub chunk_len: usize,
    /// The vector over the kept columns.
    pub v: &'a [f64],
    /// The inverses of the eliminated blocks, each by columns.
    pub inverses: &'a [f64],
    /// Empty, or the kept side's damping.
    pub d: &'a [f64],
    /// The kept side's spans.
    pub kept: Spans<'a>,
    /// The eliminated side's spans.
    pub eliminated: Spans<'a>,
}

/// What the operator writes.
#[derive(Debug)]
pub struct Work<'a> {
    /// The column map.
    pub map: &'a mut [u32],
    /// A value a row.
    pub rows: &'a mut [f64],
    /// A value an eliminated column: `Eᵀ·F·v`.
    pub t: &'a mut [f64],
    /// A value an eliminated column: the block inverses times `t`.
    pub u: &'a mut [f64],
    /// A value a kept column: the result.
    pub out: &'a mut [f64],
}

fn told(call: impl FnOnce(*mut u64, *mut u64) -> u32) -> Told {
    let (mut first, mut second) = (0, 0);
    let number = call(&mut first, &mut second);
    Told { number, first, second }
}

// Calls an export with what follows its name, spelled out as C linkage has it.
// SAFETY: every pointer comes from a slice or a place that is borrowed for the whole call and goes with that slice's length. The export is
// proved to stay within them, whatever they hold.
macro_rules! call {
    (@ $f:ident [$($arg:expr,)*]) => {
        $crate::raw::told(|first, second| unsafe { $crate::ffi::$f($($arg,)* first, second) })
    };
    (@ $f:ident [$($arg:expr,)*] system $s:expr, $($rest:tt)*) => {
        call!(@ $f [$($arg,)*] columns $s.columns, sides $s.sides, $($rest)*)
    };
    (@ $f:ident [$($arg:expr,)*] columns $c:expr, $($rest:tt)*) => {
        call!(@ $f [$($arg,)*] plain $c.nrows, list $c.ptrs, list $c.rows, list $c.values, $($rest)*)
    };
    (@ $f:ident [$($arg:expr,)*] sides $s:expr, $($rest:tt)*) => {
        call!(@ $f [$($arg,)*] list $s.kept, list $s.eliminated, $($rest)*)
    };
    (@ $f:ident [$($arg:expr,)*] spans $s:expr, $($rest:tt)*) => {
        call!(@ $f [$($arg,)*] list $s.starts, list $s.lo, list $s.hi, list $s.local, $($rest)*)
    };
    (@ $f:ident [$($arg:expr,)*] damping $d:expr, $($rest:tt)*) => {
        call!(@ $f [$($arg,)*] plain $d.lambda, plain $d.min, plain $d.max, $($rest)*)
    };
    (@ $f:ident [$($arg:expr,)*] list $s:expr, $($rest:tt)*) => {
        call!(@ $f [$($arg,)* $s.as_ptr(), $s.len(),] $($rest)*)
    };
    (@ $f:ident [$($arg:expr,)*] buffer $s:expr, $($rest:tt)*) => {
        call!(@ $f [$($arg,)* $s.as_mut_ptr(), $s.len(),] $($rest)*)
    };
    (@ $f:ident [$($arg:expr,)*] plain $x:expr, $($rest:tt)*) => {
        call!(@ $f [$($arg,)* $x,] $($rest)*)
    };
    ($f:ident: $($rest:tt)*) => {
        call!(@ $f [] $($rest)* ,)
    };
}

#[cfg(feature = "compare")]
mod compare;
#[cfg(feature = "compare")]
pub use compare::*;

/// The structure plan.
#[rustfmt::skip]
pub fn plan(system: System, chunk_len: usize, buffers: PlanBuffers) -> Told {
    let [
        map, kept_cols, elims_cols, elims_blocks, owners, row_list, row_starts, visible, visible_starts,
        kept_starts, kept_lo, kept_hi, kept_local, elims_starts, elims_lo, elims_hi, elims_local,
    ] = buffers;
    call!(pivotfern_plan: system system, plain chunk_len,
        buffer map, buffer kept_cols, buffer elims_cols, buffer elims_blocks, buffer owners, buffer row_list, buffer row_starts,
        buffer visible, buffer visible_starts,
        buffer kept_starts, buffer kept_lo, buffer kept_hi, buffer kept_local,
        buffer elims_starts, buffer elims_lo, buffer elims_hi, buffer elims_local)
}

/// The reduced operator over a plan.
pub fn operator(system: System, operands: Operands, work: Work) -> Told {
    call!(pivotfern_operator: system system, buffer work.map, plain operands.chunk_len,
        list operands.v, list operands.inverses, list operands.d, spans operands.kept, spans operands.eliminated,
        buffer work.rows, buffer work.t, buffer work.u, buffer work.out)
}

/// Both sides' updates put back at their columns.
pub fn update(system: System, map: &mut [u32], kept: &[f64], eliminated: &[f64], out: &mut [f64]) -> Told {
    call!(pivotfern_update: system system, buffer map, list kept, list eliminated, buffer out)
}
