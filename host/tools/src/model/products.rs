//! The sums: term by term, each product rounded, then each sum. Also the checks 13 and 14, which only the products over a plan make.

use super::checks::*;
use super::{check_partition, done, Checked, Refusal};
use crate::answer::Answer;
use crate::case::{Call, OwnColumns, OwnSides};
use pivotfern::{Damping, Side};

/// The products of two columns' values at their common rows, ascending, from +0.0.
pub fn column_dot(columns: &OwnColumns, a: usize, b: usize) -> f64 {
    let mut sum = 0.0;
    for i in entries(columns, a) {
        for j in entries(columns, b) {
            if columns.rows[i] == columns.rows[j] {
                sum += columns.values[i] * columns.values[j];
            }
        }
    }
    sum
}

/// One number for each of these columns: the sum of value times row entry. No zero is skipped.
pub fn gather(columns: &OwnColumns, which: &[usize], rows: &[f64], out: &mut [f64], start: f64) {
    for (local, column) in which.iter().enumerate() {
        let mut sum = start;
        for k in entries(columns, *column) {
            sum += columns.values[k] * rows[columns.rows[k] as usize];
        }
        out[local] = sum;
    }
}

/// The gather of every column.
pub fn jt_vec(columns: &OwnColumns, v: &[f64], out: &mut [f64], start: f64) {
    let all: Vec<usize> = (0..column_count(columns)).collect();
    gather(columns, &all, v, out, start);
}

/// The sum of squares of every column.
pub fn diag_jt_j(columns: &OwnColumns, out: &mut [f64], start: f64) {
    for (column, out) in out.iter_mut().enumerate() {
        let mut sum = start;
        for k in entries(columns, column) {
            sum += columns.values[k] * columns.values[k];
        }
        *out = sum;
    }
}

/// Adds value times x to the row of each entry, or nothing at all where x is a zero.
fn add(columns: &OwnColumns, places: std::ops::Range<usize>, x: f64, rows: &mut [f64]) {
    if x == 0.0 {
        return;
    }
    for k in places {
        rows[columns.rows[k] as usize] += columns.values[k] * x;
    }
}

/// The same, subtracting.
fn subtract(columns: &OwnColumns, places: std::ops::Range<usize>, x: f64, rows: &mut [f64]) {
    if x == 0.0 {
        return;
    }
    for k in places {
        rows[columns.rows[k] as usize] -= columns.values[k] * x;
    }
}

/// Column after column, undivided.
pub fn undivided_sweep(columns: &OwnColumns, which: &[usize], v: &[f64], rows: &mut [f64]) {
    for (x, column) in v.iter().zip(which) {
        add(columns, entries(columns, *column), *x, rows);
    }
}

/// Row r, column c of a block, at place c·dof + r after the blocks before it: the dot of its columns r and c.
pub fn gather_blocks(columns: &OwnColumns, eliminated: &[u32], values: &mut [f64]) {
    let mut at = 0;
    for (first, dof) in blocks(eliminated) {
        for c in first..first + dof {
            for r in first..first + dof {
                values[at] = column_dot(columns, r as usize, c as usize);
                at += 1;
            }
        }
    }
}

/// Lambda times the clamped value; NaN stays.
pub fn diagonal_term(damping: &Damping, value: f64) -> f64 {
    let mut clamped = value;
    if value < damping.min {
        clamped = damping.min;
    }
    if value > damping.max {
        clamped = damping.max;
    }
    damping.lambda * clamped
}

/// Each diagonal value plus its term.
pub fn damp(eliminated: &[u32], damping: &Damping, values: &mut [f64]) {
    let mut start = 0;
    for (_, dof) in blocks(eliminated) {
        for r in 0..dof {
            let place = (start + r * dof + r) as usize;
            values[place] += diagonal_term(damping, values[place]);
        }
        start += dof * dof;
    }
}

/// Each block's inverse times its part of b, from +0.0.
pub fn inverse_times(eliminated: &[u32], inverses: &[f64], b: &[f64], out: &mut [f64]) {
    let (mut start, mut local) = (0, 0);
    for (_, dof) in blocks(eliminated) {
        let dof = dof as usize;
        for r in 0..dof {
            let mut sum = 0.0;
            for c in 0..dof {
                sum += inverses[start + c * dof + r] * b[local + c];
            }
            out[local + r] = sum;
        }
        start += dof * dof;
        local += dof;
    }
}

/// Each number at its column.
pub fn put_back(which: &[usize], numbers: &[f64], out: &mut [f64]) {
    for (column, number) in which.iter().zip(numbers) {
        out[*column] = *number;
    }
}

/// A side's spans as they are lent.
struct Spans<'a> {
    starts: &'a [u32],
    lo: &'a [u32],
    hi: &'a [u32],
    local: &'a [u32],
}

impl Spans<'_> {
    /// The places of a span's entries.
    fn places(&self, span: usize) -> std::ops::Range<usize> {
        self.lo[span] as usize..self.hi[span] as usize
    }

    /// How many spans a chunk has.
    fn count(&self, chunk: usize) -> u32 {
        self.starts[chunk + 1] - self.starts[chunk]
    }

    /// Lengths and needs of the four lists.
    fn lengths(&self, chunks: u64) -> [(usize, u64); 4] {
        let n = self.lo.len();
        [
            (self.starts.len(), chunks + 1),
            (n, n as u64),
            (self.hi.len(), n as u64),
            (self.local.len(), n as u64),
        ]
    }
}

/// 13: the chunk starts do not rise from 0 to the span count, or a span is out of bounds or has an entry outside its chunk.
fn check_plan(columns: &OwnColumns, blocks: &[u32], chunk: u64, spans: &Spans, side: u64) -> Checked {
    let bad = || Refusal(13, vec![side]);
    let (n, dof) = (spans.starts.len(), dof(blocks));
    let rise = spans.starts[0] == 0 && (1..n).all(|i| spans.starts[i - 1] <= spans.starts[i]);
    if !rise || spans.starts[n - 1] as usize != spans.lo.len() {
        return Err(bad());
    }
    for c in 0..n - 1 {
        for span in spans.starts[c] as usize..spans.starts[c + 1] as usize {
            let (lo, hi) = (spans.lo[span] as usize, spans.hi[span] as usize);
            if lo > hi || hi > columns.rows.len() || u64::from(spans.local[span]) >= dof {
                return Err(bad());
            }
            let (first, end) = (c as u64 * chunk, (c as u64 + 1) * chunk);
            if (lo..hi).any(|k| u64::from(columns.rows[k]) < first || u64::from(columns.rows[k]) >= end) {
                return Err(bad());
            }
        }
    }
    Ok(())
}

/// 11 and 13 of a sweep and of a step, with the lengths of v, rows and progress. How many chunks there are.
#[rustfmt::skip]
fn check_side(side: Side, columns: &OwnColumns, sides: &OwnSides, chunk: u64, spans: &Spans, lengths: [usize; 3]) -> Result<u64, Refusal> {
    let (number, blocks) = match side { Side::Kept => (0, &sides.kept), Side::Eliminated => (1, &sides.eliminated) };
    let chunks = columns.nrows.div_ceil(chunk);
    let [v, rows, progress] = lengths;
    let [s, l, h, n] = spans.lengths(chunks);
    check_lengths(&[(v, dof(blocks)), s, l, h, n, (rows, columns.nrows), (progress, chunks)])?;
    check_plan(columns, blocks, chunk, spans, number)?;
    Ok(chunks)
}

/// Does one span of a side: the kept side adds, the eliminated one subtracts.
fn do_span(side: Side, columns: &OwnColumns, spans: &Spans, span: usize, v: &[f64], rows: &mut [f64]) {
    let x = v[spans.local[span] as usize];
    match side {
        Side::Kept => add(columns, spans.places(span), x, rows),
        Side::Eliminated => subtract(columns, spans.places(span), x, rows),
    }
}

/// One side's sweep along a work order.
#[rustfmt::skip]
pub fn sweep(call: &mut Call) -> Result<Answer, Refusal> {
    let Call::Sweep { side, columns, sides, map, chunk, v, starts, lo, hi, local, rows, progress, order } = call else {
        unreachable!("only a sweep comes here")
    };
    check_partition(columns, sides, map.len(), Some(*chunk))?;
    let spans = Spans { starts, lo, hi, local };
    let chunks = check_side(*side, columns, sides, *chunk, &spans, [v.len(), rows.len(), progress.len()])?;
    // the whole order is tested before anything is done
    let mut left: Vec<u32> = (0..chunks as usize).map(|c| spans.count(c)).collect();
    for (place, c) in order.iter().enumerate() {
        if u64::from(*c) >= chunks || left[*c as usize] == 0 {
            return Err(Refusal(14, vec![place as u64]));
        }
        left[*c as usize] -= 1;
    }
    if left.iter().any(|n| *n > 0) {
        return Err(Refusal(14, vec![order.len() as u64]));
    }
    fill_map(sides, map);
    if *side == Side::Kept {
        rows.fill(0.0);
    }
    progress.fill(0);
    for c in order.iter().map(|c| *c as usize) {
        do_span(*side, columns, &spans, (spans.starts[c] + progress[c]) as usize, v, rows);
        progress[c] += 1;
    }
    done(&[])
}

/// One place of a work order, on lent rows and progress.
#[rustfmt::skip]
pub fn step(call: &mut Call) -> Result<Answer, Refusal> {
    let Call::Step { side, columns, sides, map, chunk, v, starts, lo, hi, local, rows, progress, chunk_number } = call else {
        unreachable!("only a step comes here")
    };
    check_partition(columns, sides, map.len(), Some(*chunk))?;
    let spans = Spans { starts, lo, hi, local };
    let chunks = check_side(*side, columns, sides, *chunk, &spans, [v.len(), rows.len(), progress.len()])?;
    if *chunk_number >= chunks {
        return Err(Refusal(14, vec![0]));
    }
    let c = *chunk_number as usize;
    if progress[c] >= spans.count(c) {
        return Err(Refusal(14, vec![0]));
    }
    fill_map(sides, map);
    do_span(*side, columns, &spans, (spans.starts[c] + progress[c]) as usize, v, rows);
    progress[c] += 1;
    done(&[])
}

/// The reduced operator over a plan.
#[rustfmt::skip]
pub fn operator(call: &mut Call, gather_start: f64) -> Result<Answer, Refusal> {
    let Call::ApplySchurOperator {
        columns, sides, map, chunk, v, inverses, d, kept_starts, kept_lo, kept_hi, kept_local,
        elim_starts, elim_lo, elim_hi, elim_local, rows, t, u, out,
    } = call else {
        unreachable!("only an operator comes here")
    };
    check_partition(columns, sides, map.len(), Some(*chunk))?;
    let kept = Spans { starts: kept_starts, lo: kept_lo, hi: kept_hi, local: kept_local };
    let eliminated = Spans { starts: elim_starts, lo: elim_lo, hi: elim_hi, local: elim_local };
    let chunks = columns.nrows.div_ceil(*chunk);
    let (kept_dof, elim_dof) = (dof(&sides.kept), dof(&sides.eliminated));
    // d is right at length 0 too
    let d_length = if d.is_empty() { kept_dof as usize } else { d.len() };
    let [ks, kl, kh, kn] = kept.lengths(chunks);
    let [es, el, eh, en] = eliminated.lengths(chunks);
    check_lengths(&[
        (v.len(), kept_dof), (inverses.len(), value_count(&sides.eliminated)), (d_length, kept_dof), ks, kl, kh, kn, es, el, eh, en,
        (rows.len(), columns.nrows), (t.len(), elim_dof), (u.len(), elim_dof), (out.len(), kept_dof),
    ])?;
    check_plan(columns, &sides.kept, *chunk, &kept, 0)?;
    check_plan(columns, &sides.eliminated, *chunk, &eliminated, 1)?;

    fill_map(sides, map);
    rows.fill(0.0);
    for span in 0..kept.lo.len() {
        do_span(Side::Kept, columns, &kept, span, v, rows);
    }
    gather(columns, &side_columns(&sides.eliminated), rows, t, gather_start);
    inverse_times(&sides.eliminated, inverses, t, u);
    for span in 0..eliminated.lo.len() {
        do_span(Side::Eliminated, columns, &eliminated, span, u, rows);
    }
    gather(columns, &side_columns(&sides.kept), rows, out, gather_start);
    for (local, damping) in d.iter().enumerate() {
        out[local] += damping * v[local];
    }
    done(&[])
}
