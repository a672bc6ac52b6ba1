//! Random numbers, and random problems that are good before they are damaged.

use crate::case::{OwnColumns, OwnSides};
use crate::model::{spans_of, PlannedSpans};

/// A small generator (splitmix64): the same seed gives the same cases everywhere.
#[derive(Clone, Debug)]
pub struct Random(pub u64);

impl Random {
    /// The next 64 bits.
    pub fn bits(&mut self) -> u64 {
        self.0 = self.0.wrapping_add(0x9e37_79b9_7f4a_7c15);
        let mut z = self.0;
        z = (z ^ (z >> 30)).wrapping_mul(0xbf58_476d_1ce4_e5b9);
        z = (z ^ (z >> 27)).wrapping_mul(0x94d0_49bb_1331_11eb);
        z ^ (z >> 31)
    }

    /// A number below `end`; 0 where `end` is 0.
    pub fn below(&mut self, end: usize) -> usize {
        ((u128::from(self.bits()) * end as u128) >> 64) as usize
    }

    /// A number from `low` to `high`, both possible.
    pub fn range(&mut self, low: usize, high: usize) -> usize {
        low + self.below(high + 1 - low)
    }

    /// True in so many of a hundred.
    pub fn chance(&mut self, percent: usize) -> bool {
        self.below(100) < percent
    }

    /// One of a list that is not empty.
    pub fn one<T: Copy>(&mut self, list: &[T]) -> T {
        list[self.below(list.len())]
    }

    /// A list in another order.
    pub fn shuffle<T>(&mut self, list: &mut [T]) {
        for i in (1..list.len()).rev() {
            list.swap(i, self.below(i + 1));
        }
    }

    /// A float: small whole numbers, any size, or with the given percent something special.
    pub fn float(&mut self, special: usize) -> f64 {
        if self.chance(special) {
            return self.one(&[
                0.0,
                -0.0,
                1.0,
                f64::NAN,
                f64::INFINITY,
                f64::NEG_INFINITY,
                f64::MAX,
                f64::MIN_POSITIVE,
                5e-324,
                -5e-324,
            ]);
        }
        match self.below(3) {
            0 => self.range(0, 8) as f64 - 4.0,
            1 => (self.bits() >> 11) as f64 / (1u64 << 53) as f64 - 0.5,
            _ => {
                let sign_and_fraction = self.bits() & 0x800f_ffff_ffff_ffff;
                f64::from_bits(sign_and_fraction | (self.range(923, 1123) as u64) << 52)
            }
        }
    }

    /// A list of floats.
    pub fn floats(&mut self, count: usize, special: usize) -> Vec<f64> {
        (0..count).map(|_| self.float(special)).collect()
    }

    /// A list of numbers to be overwritten.
    pub fn numbers(&mut self, count: usize) -> Vec<u32> {
        (0..count).map(|_| self.bits() as u32).collect()
    }
}

/// How large a problem may be.
#[derive(Clone, Copy, Debug)]
pub struct Size {
    /// The most rows.
    pub rows: usize,
    /// The fewest columns.
    pub least_columns: usize,
    /// The most columns.
    pub columns: usize,
}

/// A problem: columns, blocks, a chunk length, and what the lengths of vectors go by.
#[derive(Clone, Debug)]
pub struct Problem {
    /// The columns.
    pub columns: OwnColumns,
    /// The blocks.
    pub sides: OwnSides,
    /// The chunk length.
    pub chunk: u64,
    /// Percent of special floats.
    pub special: usize,
}

impl Problem {
    /// A problem that every check passes but, in so many of a hundred, the one for 10: there a row may belong to several blocks.
    pub fn draw(r: &mut Random, size: Size, shared: usize) -> Problem {
        let (rows, count) = (r.below(size.rows + 1), r.range(size.least_columns, size.columns));
        let special = r.one(&[0, 0, 10, 40]);
        let (sides, block_of) = draw_sides(r, count);
        // most problems give each row to one eliminated block at most
        let elims = sides.eliminated.len() / 2;
        let shared = r.chance(shared);
        let owner: Vec<usize> = (0..rows).map(|_| r.below(elims + 1)).collect();
        let density = r.one(&[5, 30, 60, 95, 100]);
        let mut columns = OwnColumns {
            nrows: rows as u64,
            ptrs: vec![0],
            ..OwnColumns::default()
        };
        for block in block_of {
            for (row, owner) in owner.iter().enumerate() {
                let allowed = shared || block.is_none() || block == Some(*owner);
                if allowed && r.chance(density) {
                    columns.rows.push(row as u32);
                    columns.values.push(r.float(special));
                }
            }
            columns.ptrs.push(columns.rows.len() as u32);
        }
        let some = r.range(1, rows.max(1)) as u64;
        let chunk = r.one(&[1, 2, 3, some, some, rows.max(1) as u64, rows as u64 + 1, 1_048_576]);
        Problem {
            columns,
            sides,
            chunk,
            special,
        }
    }

    /// How many columns there are.
    #[must_use]
    pub fn count(&self) -> usize {
        self.columns.ptrs.len() - 1
    }

    /// The sum of a list's dofs.
    #[must_use]
    pub fn dof(list: &[u32]) -> usize {
        list.chunks_exact(2).map(|pair| pair[1] as usize).sum()
    }

    /// The sum of the squares of the eliminated dofs.
    #[must_use]
    pub fn squares(&self) -> usize {
        self.sides.eliminated.chunks_exact(2).map(|pair| (pair[1] * pair[1]) as usize).sum()
    }

    /// How many chunks the rows make.
    #[must_use]
    pub fn chunks(&self) -> usize {
        self.columns.nrows.div_ceil(self.chunk) as usize
    }

    /// A side's spans: as planned or, sometimes, another list of spans that passes the check.
    pub fn spans(&self, r: &mut Random, side: &[u32]) -> PlannedSpans {
        let mut spans = spans_of(&self.columns, side, self.chunk);
        if r.chance(25) {
            spans = foreign(r, &spans, Problem::dof(side));
        }
        spans
    }
}

/// Blocks that claim every column once, each side in any order, now and then with blocks of dof 0; and each column's eliminated block.
fn draw_sides(r: &mut Random, count: usize) -> (OwnSides, Vec<Option<usize>>) {
    let (mut kept, mut eliminated): (Vec<[u32; 2]>, Vec<[u32; 2]>) = (Vec::new(), Vec::new());
    let mut at = 0;
    while at < count {
        let dof = r.range(1, 4).min(count - at);
        let block = [at as u32, dof as u32];
        if r.chance(40) {
            kept.push(block)
        } else {
            eliminated.push(block)
        }
        at += dof;
    }
    for side in [&mut kept, &mut eliminated] {
        while side.is_empty() || r.chance(10) {
            side.push([r.below(count) as u32, 0]);
        }
        r.shuffle(side);
    }
    let mut block_of = vec![None; count];
    for (number, [first, dof]) in eliminated.iter().enumerate() {
        block_of[*first as usize..(first + dof) as usize].fill(Some(number));
    }
    let sides = OwnSides {
        kept: kept.concat(),
        eliminated: eliminated.concat(),
    };
    (sides, block_of)
}

/// Spans from elsewhere: each chunk's spans repeated, left out, cut in two or emptied, in any order, with any local number.
fn foreign(r: &mut Random, spans: &PlannedSpans, dof: usize) -> PlannedSpans {
    let mut all = PlannedSpans {
        starts: vec![0],
        ..PlannedSpans::default()
    };
    for c in 0..spans.starts.len() - 1 {
        let mut here = Vec::new();
        for s in spans.starts[c] as usize..spans.starts[c + 1] as usize {
            let (lo, hi, local) = (spans.lo[s], spans.hi[s], spans.local[s]);
            let middle = r.range(lo as usize, hi as usize) as u32;
            match r.below(6) {
                0 => (),
                1 => here.extend([(lo, middle, local), (middle, hi, local)]),
                2 => here.extend([(lo, hi, local), (lo, hi, r.below(dof) as u32)]),
                3 => here.push((middle, middle, local)),
                _ => here.push((lo, hi, local)),
            }
        }
        r.shuffle(&mut here);
        for (lo, hi, local) in here {
            all.lo.push(lo);
            all.hi.push(hi);
            all.local.push(local);
        }
        all.starts.push(all.lo.len() as u32);
    }
    all
}
