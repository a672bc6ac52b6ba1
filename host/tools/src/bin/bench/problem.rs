//! The problems, the same on every machine and the same as those of oracle/bench: same generator, same order of draws.

/// How many blocks a side has, and the dof of each.
#[derive(Clone, Copy)]
pub struct Side {
    pub blocks: usize,
    pub dof: usize,
}

impl Side {
    pub fn columns(&self) -> usize {
        self.blocks * self.dof
    }
    /// Pairs of first column and dof; the side's columns begin at `first`.
    fn pairs(&self, first: usize) -> Vec<u32> {
        (0..self.blocks)
            .flat_map(|b| [(first + b * self.dof) as u32, self.dof as u32])
            .collect()
    }
}

/// splitmix64
struct Rng(u64);

impl Rng {
    fn next(&mut self) -> u64 {
        self.0 = self.0.wrapping_add(0x9E3779B97F4A7C15);
        let mut z = self.0;
        z = (z ^ (z >> 30)).wrapping_mul(0xBF58476D1CE4E5B9);
        z = (z ^ (z >> 27)).wrapping_mul(0x94D049BB133111EB);
        z ^ (z >> 31)
    }
    fn below(&mut self, n: usize) -> usize {
        (((self.next() >> 32) * n as u64) >> 32) as usize
    }
    /// in [-1, 1)
    fn value(&mut self) -> f64 {
        (self.next() >> 11) as f64 * (2.0 / (1u64 << 53) as f64) - 1.0
    }
    fn values(&mut self, n: usize) -> Vec<f64> {
        (0..n).map(|_| self.value()).collect()
    }
}

pub struct Problem {
    pub kept: Side,
    pub elim: Side,
    pub nrows: usize,
    pub ptrs: Vec<u32>,
    pub rows: Vec<u32>,
    pub values: Vec<f64>,
    pub kept_pairs: Vec<u32>,
    pub elim_pairs: Vec<u32>,
    pub inverses: Vec<f64>,
    pub v: Vec<f64>,
    pub d: Vec<f64>,
}

/// Rows 2k and 2k+1 are one sighting: one kept block (columns first) and one eliminated block, both pseudo-random, with an entry in each of
/// their columns. If `entries` is no multiple of two rows of them, the last row (or rows) lose their last columns.
fn build(kept: Side, elim: Side, entries: usize) -> Problem {
    let row_entries = kept.dof + elim.dof;
    let sightings = entries.div_ceil(2 * row_entries);
    let nrows = 2 * sightings;
    let cols = kept.columns() + elim.columns();
    let mut rng = Rng(entries as u64);
    let seen: Vec<(usize, usize)> = (0..sightings).map(|_| (rng.below(kept.blocks), rng.below(elim.blocks))).collect();
    let each = |f: &mut dyn FnMut(usize, usize)| {
        let mut left = entries;
        for row in 0..nrows {
            let (k, e) = seen[row / 2];
            for c in 0..row_entries.min(left) {
                let col = if c < kept.dof {
                    k * kept.dof + c
                } else {
                    kept.columns() + e * elim.dof + c - kept.dof
                };
                f(row, col);
            }
            left -= row_entries.min(left);
        }
    };
    let mut ptrs = vec![0u32; cols + 1];
    each(&mut |_, col| ptrs[col + 1] += 1);
    for c in 0..cols {
        ptrs[c + 1] += ptrs[c];
    }
    let mut next = ptrs.clone();
    let mut rows = vec![0u32; entries];
    each(&mut |row, col| {
        rows[next[col] as usize] = row as u32;
        next[col] += 1;
    });
    let values = rng.values(entries);
    let inverses = rng.values(elim.blocks * elim.dof * elim.dof);
    let v = rng.values(kept.columns());
    let d = rng.values(kept.columns()).iter().map(|x| x + 1.5).collect();
    Problem {
        kept,
        elim,
        nrows,
        ptrs,
        rows,
        values,
        kept_pairs: kept.pairs(0),
        elim_pairs: elim.pairs(kept.columns()),
        inverses,
        v,
        d,
    }
}

/// `hall` is 40 posts of 6 dof and 300 targets of 3; `full` is 1,048,576 rows of 16 entries, within all limits.
pub fn named(name: &str) -> Option<Problem> {
    let side = |blocks, dof| Side { blocks, dof };
    Some(match name {
        "hall" => build(side(40, 6), side(300, 3), 72_000),
        "medium" => build(side(400, 6), side(12_000, 3), 1_000_000),
        "full" => build(side(2_000, 10), side(7_500, 6), 16_777_216),
        _ => return None,
    })
}

/// The original's own chunk length for one thread.
pub fn own_chunk(nrows: usize) -> usize {
    nrows.div_ceil(8).max(4_096)
}
