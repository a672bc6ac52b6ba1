//! Answers to calls: what a call tells and what it leaves, and how both are written down. The number decides how many values an answer has.

use crate::case::{write_floats, Call, CaseError, Lines, OwnColumns, OwnSides};
use pivotfern::raw::{self, Told};
use pivotfern::{block_place, Error, Refusal, Slot, Spans, Sweep, System};
use std::io::{self, BufRead, Write};

/// What a call tells. What it leaves stands in the call's own buffers.
#[derive(Clone, Debug)]
pub struct Answer {
    /// 0, or the number of the refusal.
    pub number: u32,
    /// The values that go with the number.
    pub values: Vec<u64>,
    /// The float that `column_dot` and `diagonal_term` give on success.
    pub result: Option<f64>,
    /// The part that `block` hands out.
    pub part: Option<Vec<f64>>,
}

impl Answer {
    /// Success, with values.
    #[must_use]
    pub fn done(values: &[u64]) -> Answer {
        Answer {
            number: 0,
            values: values.to_vec(),
            result: None,
            part: None,
        }
    }

    /// Success, with a float.
    #[must_use]
    pub fn result(result: f64) -> Answer {
        Answer {
            result: Some(result),
            ..Answer::done(&[])
        }
    }

    /// A block's part of the values. An empty part is written with start 0.
    #[must_use]
    pub fn part(start: u64, part: &[f64]) -> Answer {
        let start = if part.is_empty() { 0 } else { start };
        Answer {
            part: Some(part.to_vec()),
            ..Answer::done(&[start, part.len() as u64])
        }
    }

    /// Where a column stands: 0 nowhere; 1, local; 2, block, offset.
    #[must_use]
    pub fn slot(slot: Option<Slot>) -> Answer {
        match slot {
            None => Answer::done(&[0]),
            Some(Slot::Kept { local }) => Answer::done(&[1, local]),
            Some(Slot::Eliminated { block, offset }) => Answer::done(&[2, block, offset]),
        }
    }

    /// A refusal.
    #[must_use]
    pub fn refused(refusal: Refusal) -> Answer {
        Answer {
            number: refusal.number(),
            ..Answer::done(&refusal.values())
        }
    }

    /// Writes the answer down, with the buffers of the call that was run.
    ///
    /// # Errors
    ///
    /// What `out` says where it cannot be written to.
    pub fn write(&self, call: &Call, out: &mut dyn Write) -> io::Result<()> {
        write!(out, "answer {}", self.number)?;
        for value in &self.values {
            write!(out, " {value}")?;
        }
        writeln!(out)?;
        if let Some(result) = self.result {
            write_floats(out, "result", &[result])?;
        }
        if let Some(part) = &self.part {
            write_floats(out, "part", part)?;
        }
        call.write_buffers(out)?;
        writeln!(out, "end")
    }

    /// The same as text, for programs that compare.
    #[must_use]
    pub fn text(&self, call: &Call) -> String {
        let mut out = Vec::new();
        self.write(call, &mut out).expect("memory takes what is written");
        String::from_utf8(out).expect("answers are plain text")
    }
}

/// `success` where the call was done, else its refusal.
fn after(told: Told, success: Answer) -> Result<Answer, Error> {
    match told.done() {
        Ok(()) => Ok(success),
        Err(Error::Refused(refusal)) => Ok(Answer::refused(refusal)),
        Err(unknown) => Err(unknown),
    }
}

/// Runs a call on its own buffers, as they are. A refusal is an answer too.
///
/// # Errors
///
/// An answer that document 01 does not have.
#[rustfmt::skip]
pub fn run(call: &mut Call) -> Result<Answer, Error> {
    let done = Answer::done(&[]);
    match call {
        Call::CheckColumns { columns } => after(raw::check_columns(columns.lend()), done),
        Call::ColumnDot { columns, a, b } => {
            let mut result = 0.0;
            let told = raw::column_dot(columns.lend(), *a as usize, *b as usize, &mut result);
            after(told, Answer::result(result))
        }
        Call::JtVec { columns, v, out } => after(raw::jt_vec(columns.lend(), v, out), done),
        Call::DiagJtJ { columns, out } => after(raw::diag_jt_j(columns.lend(), out), done),
        Call::JtJVecProduct { columns, v, rows, out } => after(raw::jt_j_vec_product(columns.lend(), v, rows, out), done),
        Call::CheckBlocks { columns, sides, map } => after(raw::check_blocks(system(columns, sides), map), done),
        Call::Slot { sides, column } => Slot::from_told(raw::slot(sides.lend(), *column as usize)).map(Answer::slot),
        Call::KeptLocal { kept, column } => Slot::from_told(raw::kept_local(kept, *column as usize)).map(Answer::slot),
        Call::EliminatedLocal { eliminated, column } => {
            Slot::from_told(raw::eliminated_local(eliminated, *column as usize)).map(Answer::slot)
        }
        Call::Block { block_values, eliminated, number } => {
            let place = block_place(block_values, eliminated, *number as usize)?;
            Ok(Answer::part(place.start as u64, &block_values[place]))
        }
        Call::GatherFromJacobian { columns, sides, map, block_values } => {
            after(raw::gather_from_jacobian(system(columns, sides), map, block_values), done)
        }
        Call::Damp { columns, sides, map, damping, block_values } => {
            after(raw::damp(system(columns, sides), map, *damping, block_values), done)
        }
        Call::DiagonalTerm { damping, value } => {
            let mut result = 0.0;
            let told = raw::diagonal_term(*damping, *value, &mut result);
            after(told, Answer::result(result))
        }
        Call::Plan {
            columns, sides, chunk, map, kept_cols, elim_cols, elim_block, owners, row_lists, row_starts, visible, visible_starts,
            kept_starts, kept_lo, kept_hi, kept_local, elim_starts, elim_lo, elim_hi, elim_local,
        } => {
            let told = raw::plan(system(columns, sides), *chunk as usize, [
                map, kept_cols, elim_cols, elim_block, owners, row_lists, row_starts, visible, visible_starts,
                kept_starts, kept_lo, kept_hi, kept_local, elim_starts, elim_lo, elim_hi, elim_local,
            ]);
            after(told, Answer::done(&[told.first, told.second]))
        }
        Call::ApplyEliminatedInverse { columns, sides, map, b, inverses, out } => {
            after(raw::apply_eliminated_inverse(system(columns, sides), map, b, inverses, out), done)
        }
        Call::CouplingTimes { columns, sides, map, u, rows, out } => {
            after(raw::coupling_times(system(columns, sides), map, u, rows, out), done)
        }
        Call::CouplingTransposeTimes { columns, sides, map, v, rows, out } => {
            after(raw::coupling_transpose_times(system(columns, sides), map, v, rows, out), done)
        }
        Call::CombineUpdates { columns, sides, map, kept_v, elim_v, out } => {
            after(raw::update(system(columns, sides), map, kept_v, elim_v, out), done)
        }
        Call::Sweep { side, columns, sides, map, chunk, v, starts, lo, hi, local, rows, progress, order } => {
            let sweep = Sweep { side: *side, chunk_len: *chunk as usize, spans: Spans { starts, lo, hi, local }, v };
            after(raw::sweep(system(columns, sides), sweep, map, rows, progress, order), done)
        }
        Call::Step { side, columns, sides, map, chunk, v, starts, lo, hi, local, rows, progress, chunk_number } => {
            let sweep = Sweep { side: *side, chunk_len: *chunk as usize, spans: Spans { starts, lo, hi, local }, v };
            after(raw::step(system(columns, sides), sweep, map, rows, progress, *chunk_number as usize), done)
        }
        Call::ApplySchurOperator {
            columns, sides, map, chunk, v, inverses, d, kept_starts, kept_lo, kept_hi, kept_local,
            elim_starts, elim_lo, elim_hi, elim_local, rows, t, u, out,
        } => {
            let kept = Spans { starts: kept_starts, lo: kept_lo, hi: kept_hi, local: kept_local };
            let eliminated = Spans { starts: elim_starts, lo: elim_lo, hi: elim_hi, local: elim_local };
            let operands = raw::Operands { chunk_len: *chunk as usize, v, inverses, d, kept, eliminated };
            after(raw::operator(system(columns, sides), operands, raw::Work { map, rows, t, u, out }), done)
        }
    }
}

/// The system that a call is lent.
fn system<'a>(columns: &'a OwnColumns, sides: &'a OwnSides) -> System<'a> {
    System {
        columns: columns.lend(),
        sides: sides.lend(),
    }
}

/// Why answering a case file stopped.
#[derive(Debug)]
pub enum Stop {
    /// The file is wrong.
    Case(CaseError),
    /// The archive told what document 01 does not have.
    Answer(Error),
    /// The answers could not be written.
    Write(io::Error),
}

/// Answers every call of a case file, one after the other. What was answered before it stops stays written.
///
/// # Errors
///
/// Why it stopped: the file is wrong, the archive is, or the answers cannot be written.
pub fn answer_cases(input: impl BufRead, out: &mut dyn Write) -> Result<(), Stop> {
    let mut lines = Lines::new(input);
    while let Some(mut call) = Call::read(&mut lines).map_err(Stop::Case)? {
        let answer = run(&mut call).map_err(Stop::Answer)?;
        answer.write(&call, out).map_err(Stop::Write)?;
    }
    Ok(())
}

/// The tool `cases`: answers on `out`, a message on `error`. Its exit status is 0, or 2 for an error of the file, or 1 for any other.
pub fn tool(input: impl BufRead, out: &mut dyn Write, error: &mut dyn Write) -> u8 {
    let answered = answer_cases(input, out);
    let flushed = out.flush().map_err(Stop::Write);
    let (message, status) = match answered.and(flushed) {
        Ok(()) => return 0,
        Err(Stop::Case(wrong)) => (wrong.to_string(), 2),
        Err(Stop::Answer(unknown)) => (unknown.to_string(), 1),
        Err(Stop::Write(failed)) => (format!("cannot write: {failed}"), 1),
    };
    // nothing is left to be done where even this cannot be written
    let _ = writeln!(error, "cases: {message}");
    status
}
