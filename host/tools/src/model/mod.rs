//! A plain model of every call of docs/CASES.md, written from document 01 alone: slow and obvious, with no use of the port. It predicts the
//! number, the values and every buffer that a call may change.
//!
//! Each call is two things: a line of checks in the order of their numbers, then the work. What a refusal leaves is said once, in `refuse`.

mod checks;
mod plan;
mod products;

use crate::answer::Answer;
use crate::case::{Call, OwnColumns, OwnSides};
use checks::*;
pub use plan::{spans_of, PlannedSpans};

/// A row without an owner, and every place of the column map after the refusals 7 to 14.
const MARK: u32 = 4_294_967_295;

/// A refusal: its number and its values.
#[derive(Clone, Debug, PartialEq)]
struct Refusal(u32, Vec<u64>);

type Checked = Result<(), Refusal>;

/// The model. It has two switches, so that a test can make it wrong and see that a comparison notices.
#[derive(Clone, Copy, Debug)]
pub struct Model {
    /// Where the operator's gathers, `jt_vec` and `diag_jt_j` start. Right is -0.0.
    pub gather_start: f64,
    /// Whether the refusals 7 to 14 leave the mark in the column map. Right is that they do.
    pub marks: bool,
}

impl Default for Model {
    fn default() -> Model {
        Model {
            gather_start: -0.0,
            marks: true,
        }
    }
}

/// Done, with values.
fn done(values: &[u64]) -> Result<Answer, Refusal> {
    Ok(Answer::done(values))
}

impl Model {
    /// Answers a call as document 01 says, and leaves its buffers as document 01 says.
    pub fn answer(&self, call: &mut Call) -> Answer {
        match self.answered(call) {
            Ok(answer) => answer,
            Err(Refusal(number, values)) => {
                self.refuse(call, number);
                Answer {
                    number,
                    ..Answer::done(&values)
                }
            }
        }
    }

    /// What a refusal leaves: nothing changed after 1 to 6; marks in the map after 7 to 14, in the owners after 10; zeros in the progress of
    /// a sweep after 14.
    fn refuse(&self, call: &mut Call, number: u32) {
        if number < 7 || !self.marks {
            return;
        }
        if let Some((columns, map)) = map_of(call) {
            map[..columns].fill(MARK);
        }
        match call {
            Call::Plan { columns, owners, .. } if number == 10 => owners[..columns.nrows as usize].fill(MARK),
            Call::Sweep { progress, .. } if number == 14 => progress.fill(0),
            _ => (),
        }
    }

    /// The checks of each call and then its work. A refusal has changed nothing yet.
    #[rustfmt::skip]
    fn answered(&self, call: &mut Call) -> Result<Answer, Refusal> {
        match call {
            Call::CheckColumns { columns } => {
                check_columns(columns)?;
                done(&[])
            }
            Call::ColumnDot { columns, a, b } => {
                check_columns(columns)?;
                for column in [*a, *b] {
                    if column >= column_count(columns) as u64 {
                        return Err(Refusal(7, vec![column]));
                    }
                }
                Ok(Answer::result(products::column_dot(columns, *a as usize, *b as usize)))
            }
            Call::JtVec { columns, v, out } => {
                check_columns(columns)?;
                check_lengths(&[(v.len(), columns.nrows), (out.len(), column_count(columns) as u64)])?;
                products::jt_vec(columns, v, out, self.gather_start);
                done(&[])
            }
            Call::DiagJtJ { columns, out } => {
                check_columns(columns)?;
                check_lengths(&[(out.len(), column_count(columns) as u64)])?;
                products::diag_jt_j(columns, out, self.gather_start);
                done(&[])
            }
            Call::JtJVecProduct { columns, v, rows, out } => {
                check_columns(columns)?;
                let count = column_count(columns) as u64;
                check_lengths(&[(v.len(), count), (rows.len(), columns.nrows), (out.len(), count)])?;
                rows.fill(0.0);
                let all: Vec<usize> = (0..column_count(columns)).collect();
                products::undivided_sweep(columns, &all, v, rows);
                products::jt_vec(columns, rows, out, self.gather_start);
                done(&[])
            }
            Call::CheckBlocks { columns, sides, map } => {
                check_partition(columns, sides, map.len(), None)?;
                fill_map(sides, map);
                done(&[])
            }
            Call::Slot { sides, column } => match (kept_local(&sides.kept, *column), eliminated_local(&sides.eliminated, *column)) {
                (Some(local), _) => done(&[1, local]),
                (None, Some((block, offset))) => done(&[2, block, offset]),
                (None, None) => done(&[0]),
            },
            Call::KeptLocal { kept, column } => match kept_local(kept, *column) {
                Some(local) => done(&[1, local]),
                None => done(&[0]),
            },
            Call::EliminatedLocal { eliminated, column } => match eliminated_local(eliminated, *column) {
                Some((block, offset)) => done(&[2, block, offset]),
                None => done(&[0]),
            },
            Call::Block { block_values, eliminated, number } => Ok(block(block_values, eliminated, *number)),
            Call::GatherFromJacobian { columns, sides, map, block_values } => {
                check_partition(columns, sides, map.len(), None)?;
                check_lengths(&[(block_values.len(), value_count(&sides.eliminated))])?;
                fill_map(sides, map);
                products::gather_blocks(columns, &sides.eliminated, block_values);
                done(&[])
            }
            Call::Damp { columns, sides, map, damping, block_values } => {
                check_partition(columns, sides, map.len(), None)?;
                check_lengths(&[(block_values.len(), value_count(&sides.eliminated))])?;
                check_damping(damping)?;
                fill_map(sides, map);
                products::damp(&sides.eliminated, damping, block_values);
                done(&[])
            }
            Call::DiagonalTerm { damping, value } => {
                check_damping(damping)?;
                Ok(Answer::result(products::diagonal_term(damping, *value)))
            }
            Call::Plan { .. } => plan::plan(call),
            Call::ApplyEliminatedInverse { columns, sides, map, b, inverses, out } => {
                check_partition(columns, sides, map.len(), None)?;
                let dof = dof(&sides.eliminated);
                check_lengths(&[(b.len(), dof), (inverses.len(), value_count(&sides.eliminated)), (out.len(), dof)])?;
                fill_map(sides, map);
                products::inverse_times(&sides.eliminated, inverses, b, out);
                done(&[])
            }
            Call::CouplingTimes { columns, sides, map, u, rows, out } => {
                check_partition(columns, sides, map.len(), None)?;
                check_lengths(&[(u.len(), dof(&sides.eliminated)), (rows.len(), columns.nrows), (out.len(), dof(&sides.kept))])?;
                fill_map(sides, map);
                rows.fill(0.0);
                products::undivided_sweep(columns, &side_columns(&sides.eliminated), u, rows);
                products::gather(columns, &side_columns(&sides.kept), rows, out, 0.0);
                done(&[])
            }
            Call::CouplingTransposeTimes { columns, sides, map, v, rows, out } => {
                check_partition(columns, sides, map.len(), None)?;
                check_lengths(&[(v.len(), dof(&sides.kept)), (rows.len(), columns.nrows), (out.len(), dof(&sides.eliminated))])?;
                fill_map(sides, map);
                rows.fill(0.0);
                products::undivided_sweep(columns, &side_columns(&sides.kept), v, rows);
                products::gather(columns, &side_columns(&sides.eliminated), rows, out, 0.0);
                done(&[])
            }
            Call::CombineUpdates { columns, sides, map, kept_v, elim_v, out } => {
                check_partition(columns, sides, map.len(), None)?;
                let (kept, eliminated) = (dof(&sides.kept), dof(&sides.eliminated));
                check_lengths(&[(kept_v.len(), kept), (elim_v.len(), eliminated), (out.len(), column_count(columns) as u64)])?;
                fill_map(sides, map);
                products::put_back(&side_columns(&sides.kept), kept_v, out);
                products::put_back(&side_columns(&sides.eliminated), elim_v, out);
                done(&[])
            }
            Call::Sweep { .. } => products::sweep(call),
            Call::Step { .. } => products::step(call),
            Call::ApplySchurOperator { .. } => products::operator(call, self.gather_start),
        }
    }
}

/// The column count and the column map of a call that has one.
fn map_of(call: &mut Call) -> Option<(usize, &mut [u32])> {
    match call {
        Call::CheckBlocks { columns, map, .. }
        | Call::GatherFromJacobian { columns, map, .. }
        | Call::Damp { columns, map, .. }
        | Call::Plan { columns, map, .. }
        | Call::ApplyEliminatedInverse { columns, map, .. }
        | Call::CouplingTimes { columns, map, .. }
        | Call::CouplingTransposeTimes { columns, map, .. }
        | Call::CombineUpdates { columns, map, .. }
        | Call::Sweep { columns, map, .. }
        | Call::Step { columns, map, .. }
        | Call::ApplySchurOperator { columns, map, .. } => Some((column_count(columns), map)),
        _ => None,
    }
}

/// The checks 1 to 9 of every call with a map; 5 only where a chunk length is given.
fn check_partition(columns: &OwnColumns, sides: &OwnSides, map: usize, chunk: Option<u64>) -> Checked {
    check_limits(columns, &[&sides.kept, &sides.eliminated])?;
    check_shape(columns, &[&sides.kept, &sides.eliminated])?;
    check_rows(columns)?;
    check_sides(sides)?;
    check_chunk(chunk)?;
    check_room(&[map], &[column_count(columns) as u64])?;
    check_claims(columns, sides)
}
