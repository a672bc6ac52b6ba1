//! The checks 1 to 9, 11 and 12, what blocks mean, and the lookups.

use super::{Checked, Refusal};
use crate::answer::Answer;
use crate::case::{OwnColumns, OwnSides};
use pivotfern::Damping;

const MOST_ROWS: u64 = 1_048_576;
const MOST_COLUMNS: usize = 65_536;
const MOST_ENTRIES: usize = 16_777_216;
const MOST_BLOCKS: usize = 65_536;
const MOST_CHUNK: u64 = 1_048_576;

fn refuse_if(wrong: bool, number: u32) -> Checked {
    if wrong {
        return Err(Refusal(number, vec![]));
    }
    Ok(())
}

/// One less than the pointers, and none where there are none.
pub fn column_count(columns: &OwnColumns) -> usize {
    columns.ptrs.len().saturating_sub(1)
}

/// The places of a column's entries.
pub fn entries(columns: &OwnColumns, column: usize) -> std::ops::Range<usize> {
    columns.ptrs[column] as usize..columns.ptrs[column + 1] as usize
}

/// 1, 2, 3 for a call without sides.
pub fn check_columns(columns: &OwnColumns) -> Checked {
    check_limits(columns, &[])?;
    check_shape(columns, &[])?;
    check_rows(columns)
}

/// 1: a limit is passed.
pub fn check_limits(columns: &OwnColumns, sides: &[&Vec<u32>]) -> Checked {
    refuse_if(columns.nrows > MOST_ROWS, 1)?;
    refuse_if(column_count(columns) > MOST_COLUMNS, 1)?;
    refuse_if(columns.rows.len() > MOST_ENTRIES, 1)?;
    refuse_if(sides.iter().any(|side| side.len() / 2 > MOST_BLOCKS), 1)
}

/// 2: the pointers break a rule, values and rows differ in count, a block list is odd.
pub fn check_shape(columns: &OwnColumns, sides: &[&Vec<u32>]) -> Checked {
    let ptrs = &columns.ptrs;
    refuse_if(ptrs.is_empty(), 2)?;
    refuse_if(ptrs[0] != 0, 2)?;
    refuse_if((1..ptrs.len()).any(|i| ptrs[i] < ptrs[i - 1]), 2)?;
    refuse_if(ptrs[ptrs.len() - 1] as usize != columns.rows.len(), 2)?;
    refuse_if(columns.values.len() != columns.rows.len(), 2)?;
    refuse_if(sides.iter().any(|side| side.len() % 2 == 1), 2)
}

/// 3: a row too large, or not above the one before it in its column.
pub fn check_rows(columns: &OwnColumns) -> Checked {
    for column in 0..column_count(columns) {
        let places = entries(columns, column);
        for k in places.clone() {
            let too_large = u64::from(columns.rows[k]) >= columns.nrows;
            let not_above = k > places.start && columns.rows[k] <= columns.rows[k - 1];
            if too_large || not_above {
                return Err(Refusal(3, vec![column as u64, k as u64]));
            }
        }
    }
    Ok(())
}

/// 4: a side has no block, kept first.
pub fn check_sides(sides: &OwnSides) -> Checked {
    for (number, side) in [(0, &sides.kept), (1, &sides.eliminated)] {
        if side.is_empty() {
            return Err(Refusal(4, vec![number]));
        }
    }
    Ok(())
}

/// 5: the chunk length is 0 or too large.
pub fn check_chunk(chunk: Option<u64>) -> Checked {
    refuse_if(chunk.is_some_and(|length| length == 0 || length > MOST_CHUNK), 5)
}

/// 6: the first buffer that is shorter than its need.
pub fn check_room(lengths: &[usize], needs: &[u64]) -> Checked {
    for (place, (length, need)) in lengths.iter().zip(needs).enumerate() {
        if (*length as u64) < *need {
            return Err(Refusal(6, vec![place as u64, *need]));
        }
    }
    Ok(())
}

/// 7, 8 in one walk, kept blocks first; then 9, the lowest column that nobody claims.
pub fn check_claims(columns: &OwnColumns, sides: &OwnSides) -> Checked {
    let count = column_count(columns);
    let mut claimed = vec![false; count];
    for (first, dof) in blocks(&sides.kept).into_iter().chain(blocks(&sides.eliminated)) {
        if first >= count as u64 {
            return Err(Refusal(7, vec![first]));
        }
        for column in first..first + dof {
            if column >= count as u64 {
                return Err(Refusal(7, vec![column]));
            }
            if claimed[column as usize] {
                return Err(Refusal(8, vec![column]));
            }
            claimed[column as usize] = true;
        }
    }
    match claimed.iter().position(|c| !c) {
        Some(column) => Err(Refusal(9, vec![column as u64])),
        None => Ok(()),
    }
}

/// 11: the first list of another length than its need.
pub fn check_lengths(lists: &[(usize, u64)]) -> Checked {
    for (place, (length, need)) in lists.iter().enumerate() {
        if *length as u64 != *need {
            return Err(Refusal(11, vec![place as u64, *need]));
        }
    }
    Ok(())
}

/// 12: min or max is NaN, or min > max.
pub fn check_damping(damping: &Damping) -> Checked {
    refuse_if(damping.min.is_nan() || damping.max.is_nan() || damping.min > damping.max, 12)
}

/// The whole pairs of a side: first column, dof.
pub fn blocks(side: &[u32]) -> Vec<(u64, u64)> {
    side.chunks_exact(2).map(|pair| (pair[0].into(), pair[1].into())).collect()
}

/// The sum of a side's dofs.
pub fn dof(side: &[u32]) -> u64 {
    blocks(side).iter().map(|(_, dof)| dof).sum()
}

/// The sum of the dof squares of a checked side.
pub fn value_count(side: &[u32]) -> u64 {
    blocks(side).iter().map(|(_, dof)| dof * dof).sum()
}

/// The columns of a checked side in the order of their local numbers.
pub fn side_columns(side: &[u32]) -> Vec<usize> {
    let mut all = Vec::new();
    for (first, dof) in blocks(side) {
        all.extend((first..first + dof).map(|column| column as usize));
    }
    all
}

/// The column map of checked sides: the kept local number, or kept dof plus the eliminated local number.
pub fn fill_map(sides: &OwnSides, map: &mut [u32]) {
    let both = side_columns(&sides.kept).into_iter().chain(side_columns(&sides.eliminated));
    for (number, column) in both.enumerate() {
        map[column] = number as u32;
    }
}

/// The first pair that holds the column: its block, the offset there, and the dofs of the blocks before it. A list past the limit holds none.
fn find(side: &[u32], column: u64) -> Option<(u64, u64, u64)> {
    let all = blocks(side);
    if all.len() > MOST_BLOCKS {
        return None;
    }
    let mut before = 0;
    for (block, (first, dof)) in all.into_iter().enumerate() {
        if first <= column && column < first + dof {
            return Some((block as u64, column - first, before));
        }
        before += dof;
    }
    None
}

/// The local number among the kept.
pub fn kept_local(kept: &[u32], column: u64) -> Option<u64> {
    find(kept, column).map(|(_, offset, before)| before + offset)
}

/// Block and offset among the eliminated.
pub fn eliminated_local(eliminated: &[u32], column: u64) -> Option<(u64, u64)> {
    find(eliminated, column).map(|(block, offset, _)| (block, offset))
}

/// One block as a part of the values; empty, with start 0, for a number past the list or values too short.
pub fn block(values: &[f64], eliminated: &[u32], number: u64) -> Answer {
    let all = blocks(eliminated);
    let square = |(_, dof): &(u64, u64)| u128::from(*dof) * u128::from(*dof);
    if all.len() <= MOST_BLOCKS && number < all.len() as u64 {
        let number = number as usize;
        let start: u128 = all[..number].iter().map(square).sum();
        let end = start + square(&all[number]);
        if end <= values.len() as u128 {
            return Answer::part(start as u64, &values[start as usize..end as usize]);
        }
    }
    Answer::part(0, &[])
}
