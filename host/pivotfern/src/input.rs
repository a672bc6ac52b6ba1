//! What a caller lends: columns, sides, both as a system, a side's spans, damping, a sweep. Nothing here is checked, since every call checks
//! what it is lent and refuses with a number. What is counted here is counted without overflow and never past document 01's limits: a
//! call refuses what is past them (TooBig) before it looks at any room, so no more is ever needed.

/// The most rows.
pub const MOST_ROWS: usize = 1_048_576;
/// The most columns.
pub const MOST_COLUMNS: usize = 65_536;
/// The most entries.
pub const MOST_ENTRIES: usize = 16_777_216;
/// The most blocks of a side.
pub const MOST_BLOCKS: usize = 65_536;
/// The greatest chunk length.
pub const MOST_CHUNK: usize = 1_048_576;
/// The mark: a row without an owner, and every place of the column map after the refusals 7 to 14.
pub const MARK: u32 = u32::MAX;

/// Compressed columns: what `J` is lent as.
#[derive(Clone, Copy, Debug)]
pub struct Columns<'a> {
    /// How many rows there are.
    pub nrows: usize,
    /// Where each column begins, and after the last where it ends: one more than columns.
    pub ptrs: &'a [u32],
    /// Each entry's row.
    pub rows: &'a [u32],
    /// Each entry's value.
    pub values: &'a [f64],
}

impl Columns<'_> {
    /// How many columns there are.
    #[must_use]
    pub fn count(&self) -> usize {
        self.ptrs.len().saturating_sub(1)
    }

    /// Places for one number a column.
    pub(crate) fn column_room(&self) -> usize {
        self.count().min(MOST_COLUMNS)
    }

    /// Places for one number a row.
    pub(crate) fn row_room(&self) -> usize {
        self.nrows.min(MOST_ROWS)
    }

    /// Places for one number an entry.
    pub(crate) fn entry_room(&self) -> usize {
        self.rows.len().min(MOST_ENTRIES)
    }

    /// How many chunks of this length the rows make. A length of 0 is refused before its room is looked at.
    pub(crate) fn chunk_room(&self, chunk_len: usize) -> usize {
        if chunk_len == 0 {
            return 0;
        }
        self.row_room().div_ceil(chunk_len)
    }
}

/// The blocks of both sides: each list has pairs, first column and dof, in the caller's order.
#[derive(Clone, Copy, Debug)]
pub struct Sides<'a> {
    /// The kept blocks (posts).
    pub kept: &'a [u32],
    /// The eliminated blocks (targets).
    pub eliminated: &'a [u32],
}

impl<'a> Sides<'a> {
    /// The list of one side.
    #[must_use]
    pub fn list(&self, side: Side) -> &'a [u32] {
        match side {
            Side::Kept => self.kept,
            Side::Eliminated => self.eliminated,
        }
    }

    /// How many columns a side has: the sum of its dofs.
    #[must_use]
    pub fn dof(&self, side: Side) -> usize {
        dof(self.list(side))
    }

    /// How many blocks a side has: whole pairs are counted.
    #[must_use]
    pub fn blocks(&self, side: Side) -> usize {
        self.list(side).len() / 2
    }

    /// Places for one number a block.
    pub(crate) fn block_room(&self, side: Side) -> usize {
        self.blocks(side).min(MOST_BLOCKS)
    }
}

/// What every call with blocks is about: the columns of `J`, and the blocks of both sides.
#[derive(Clone, Copy, Debug)]
pub struct System<'a> {
    /// The columns.
    pub columns: Columns<'a>,
    /// The blocks.
    pub sides: Sides<'a>,
}

impl System<'_> {
    /// Places for one number a column of a side. Each column has one block, so no side has more columns than there are.
    pub(crate) fn side_room(&self, side: Side) -> usize {
        self.sides.dof(side).min(self.columns.column_room())
    }
}

/// The sum of the dofs of a list of pairs. As many numbers of 32 bits as memory holds do not pass 64 bits; should they, the sum stays there.
fn dof(side: &[u32]) -> usize {
    side.chunks_exact(2)
        .fold(0, |sum: usize, pair| sum.saturating_add(pair[1] as usize))
}

/// How many values the blocks of a list have in all, the sum of the squares of their dofs; `None` where that passes 64 bits. It may be as
/// much as 2^32 for a list that no call refuses, so look at it before you make room.
#[must_use]
pub fn value_count(eliminated: &[u32]) -> Option<usize> {
    eliminated.chunks_exact(2).try_fold(0, |sum: usize, pair| {
        sum.checked_add((pair[1] as usize).checked_mul(pair[1] as usize)?)
    })
}

/// One of the two sides of the adjustment.
#[derive(Clone, Copy, Debug, PartialEq, Eq)]
pub enum Side {
    /// The side that is solved for (posts): number 0.
    Kept,
    /// The side that is eliminated block by block (targets): number 1.
    Eliminated,
}

impl Side {
    /// The number that document 01 gives the side.
    #[must_use]
    pub fn number(self) -> u32 {
        match self {
            Side::Kept => 0,
            Side::Eliminated => 1,
        }
    }

    /// The side of a number.
    #[must_use]
    pub fn from_number(number: u64) -> Option<Side> {
        match number {
            0 => Some(Side::Kept),
            1 => Some(Side::Eliminated),
            _ => None,
        }
    }

    /// The side's name in a message.
    #[must_use]
    pub fn name(self) -> &'static str {
        match self {
            Side::Kept => "kept",
            Side::Eliminated => "eliminated",
        }
    }
}

/// A side's spans, chunk by chunk.
#[derive(Clone, Copy, Debug, PartialEq, Eq)]
pub struct Spans<'a> {
    /// Where each chunk's spans begin, and after the last where they end: one more than chunks.
    pub starts: &'a [u32],
    /// Each span's first entry.
    pub lo: &'a [u32],
    /// One past each span's last entry.
    pub hi: &'a [u32],
    /// The local number of each span's column.
    pub local: &'a [u32],
}

/// One side's sweep: what is multiplied with what.
#[cfg(feature = "compare")]
#[derive(Clone, Copy, Debug)]
pub struct Sweep<'a> {
    /// The side whose columns are swept.
    pub side: Side,
    /// The length of the chunks that the spans are divided by.
    pub chunk_len: usize,
    /// The side's spans.
    pub spans: Spans<'a>,
    /// The vector over the side's columns, in local order.
    pub v: &'a [f64],
}

/// Damping: `lambda` times the diagonal, which is first brought between `min` and `max`.
#[cfg(feature = "compare")]
#[derive(Clone, Copy, Debug, PartialEq)]
pub struct Damping {
    /// What the clamped diagonal is multiplied by.
    pub lambda: f64,
    /// The least diagonal.
    pub min: f64,
    /// The greatest diagonal.
    pub max: f64,
}

#[cfg(feature = "compare")]
impl Damping {
    /// Damping that adds `lambda` itself, whatever the diagonal.
    #[must_use]
    pub fn identity(lambda: f64) -> Damping {
        Damping {
            lambda,
            min: 1.0,
            max: 1.0,
        }
    }
}
