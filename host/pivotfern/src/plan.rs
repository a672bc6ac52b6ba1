//! The structure plan as a value that owns its lists. A plan is made once and lent to every operator call of the night, so it keeps no
//! more than its used parts; those are also what the operator wants, whose lists must have the right length.

use crate::input::{Side, Spans, System, MARK};
use crate::raw::{self, PlanBuffers};
use crate::refusal::Error;

/// The lists of one side's spans.
#[derive(Clone, Debug, Default)]
struct SideSpans {
    starts: Vec<u32>,
    lo: Vec<u32>,
    hi: Vec<u32>,
    local: Vec<u32>,
}

impl SideSpans {
    fn with_room(chunks: usize, entries: usize) -> SideSpans {
        SideSpans {
            starts: vec![0; chunks + 1],
            lo: vec![0; entries],
            hi: vec![0; entries],
            local: vec![0; entries],
        }
    }

    fn cut(&mut self, spans: u64) {
        for list in [&mut self.lo, &mut self.hi, &mut self.local] {
            cut(list, spans as usize);
        }
    }

    fn lend(&self) -> Spans<'_> {
        Spans {
            starts: &self.starts,
            lo: &self.lo,
            hi: &self.hi,
            local: &self.local,
        }
    }
}

/// Keeps the used part of a list, and gives the rest back.
fn cut(list: &mut Vec<u32>, used: usize) {
    list.truncate(used);
    list.shrink_to_fit();
}

/// The last number of a list of starts: how much is used of what it divides.
fn end(starts: &[u32]) -> usize {
    starts.last().map_or(0, |&n| n as usize)
}

/// Part `i` of a list that starts divide; empty for a number past the last.
fn part<'a>(list: &'a [u32], starts: &[u32], i: usize) -> &'a [u32] {
    let (Some(&from), Some(&to)) = (starts.get(i), starts.get(i.wrapping_add(1))) else {
        return &[];
    };
    list.get(from as usize..to as usize).unwrap_or(&[])
}

/// Who owns which row, who sees whom, and the spans of both sides, chunk by chunk. It fits the columns and sides it was made of, and others of
/// the same pattern.
#[derive(Clone, Debug)]
pub struct Plan {
    chunk_len: usize,
    map: Vec<u32>,
    kept_cols: Vec<u32>,
    elims_cols: Vec<u32>,
    elims_blocks: Vec<u32>,
    owners: Vec<u32>,
    row_list: Vec<u32>,
    row_starts: Vec<u32>,
    visible: Vec<u32>,
    visible_starts: Vec<u32>,
    kept: SideSpans,
    elims: SideSpans,
}

impl Plan {
    /// Plans these columns and sides in chunks of `chunk_len` rows.
    ///
    /// # Errors
    ///
    /// Document 01's refusals 1 to 5 and 7 to 10.
    pub fn new(system: System, chunk_len: usize) -> Result<Plan, Error> {
        let mut plan = Plan::with_room(system, chunk_len);
        let told = raw::plan(system, chunk_len, plan.buffers());
        told.done()?;
        let (kept_dof, elims_dof) = (system.sides.dof(Side::Kept), system.sides.dof(Side::Eliminated));
        cut(&mut plan.kept_cols, kept_dof);
        cut(&mut plan.elims_cols, elims_dof);
        cut(&mut plan.elims_blocks, elims_dof);
        cut(&mut plan.row_list, end(&plan.row_starts));
        cut(&mut plan.visible, end(&plan.visible_starts));
        plan.kept.cut(told.first);
        plan.elims.cut(told.second);
        Ok(plan)
    }

    /// Room for every list, in document 01's order.
    fn with_room(system: System, chunk_len: usize) -> Plan {
        let System { columns, sides } = system;
        let (cols, rows) = (columns.column_room(), columns.row_room());
        let (entries, chunks) = (columns.entry_room(), columns.chunk_room(chunk_len));
        Plan {
            chunk_len,
            map: vec![0; cols],
            kept_cols: vec![0; cols],
            elims_cols: vec![0; cols],
            elims_blocks: vec![0; cols],
            owners: vec![0; rows],
            row_list: vec![0; rows],
            row_starts: vec![0; sides.block_room(Side::Eliminated) + 1],
            visible: vec![0; entries],
            visible_starts: vec![0; sides.block_room(Side::Kept) + 1],
            kept: SideSpans::with_room(chunks, entries),
            elims: SideSpans::with_room(chunks, entries),
        }
    }

    fn buffers(&mut self) -> PlanBuffers<'_> {
        [
            &mut self.map,
            &mut self.kept_cols,
            &mut self.elims_cols,
            &mut self.elims_blocks,
            &mut self.owners,
            &mut self.row_list,
            &mut self.row_starts,
            &mut self.visible,
            &mut self.visible_starts,
            &mut self.kept.starts,
            &mut self.kept.lo,
            &mut self.kept.hi,
            &mut self.kept.local,
            &mut self.elims.starts,
            &mut self.elims.lo,
            &mut self.elims.hi,
            &mut self.elims.local,
        ]
    }

    /// The chunk length that it was made with.
    #[must_use]
    pub fn chunk_len(&self) -> usize {
        self.chunk_len
    }

    /// How many chunks the rows make.
    #[must_use]
    pub fn chunks(&self) -> usize {
        self.kept.starts.len() - 1
    }

    /// The column map: a column's kept local number, or the kept dof plus its eliminated local number.
    #[must_use]
    pub fn map(&self) -> &[u32] {
        &self.map
    }

    /// A side's columns in local order.
    #[must_use]
    pub fn columns(&self, side: Side) -> &[u32] {
        match side {
            Side::Kept => &self.kept_cols,
            Side::Eliminated => &self.elims_cols,
        }
    }

    /// The block of each eliminated column, in local order.
    #[must_use]
    pub fn eliminated_blocks(&self) -> &[u32] {
        &self.elims_blocks
    }

    /// The owner of each row, or `MARK`.
    #[must_use]
    pub fn owners(&self) -> &[u32] {
        &self.owners
    }

    /// The eliminated block that owns a row, where there is one.
    #[must_use]
    pub fn owner(&self, row: usize) -> Option<usize> {
        let owner = *self.owners.get(row)?;
        (owner != MARK).then_some(owner as usize)
    }

    /// The rows of an eliminated block, ascending; none for a number past the blocks.
    #[must_use]
    pub fn rows_of(&self, block: usize) -> &[u32] {
        part(&self.row_list, &self.row_starts, block)
    }

    /// The eliminated blocks that a kept block sees, ascending; none for a number past the blocks.
    #[must_use]
    pub fn visible_to(&self, block: usize) -> &[u32] {
        part(&self.visible, &self.visible_starts, block)
    }

    /// A side's spans, as products take them.
    #[must_use]
    pub fn spans(&self, side: Side) -> Spans<'_> {
        match side {
            Side::Kept => self.kept.lend(),
            Side::Eliminated => self.elims.lend(),
        }
    }
}
