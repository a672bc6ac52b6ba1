//! Random calls: a problem, one of the calls of the table over it, and then from none to a few things damaged.

use super::random::{Problem, Random, Size};
use crate::case::{Call, Lent, OwnColumns, OwnSides};
use pivotfern::{Damping, Side};

/// A call over a good problem. Calls with more refusals of their own come more often.
#[rustfmt::skip]
pub fn good_call(r: &mut Random, size: Size) -> Call {
    let which = r.below(32);
    // a plan is where shared rows are refused
    let shared = if (19..=22).contains(&which) { 70 } else { 15 };
    let p = Problem::draw(r, size, shared);
    let (rows, count, special) = (p.columns.nrows as usize, p.count(), p.special);
    let (kept, elim) = (Problem::dof(&p.sides.kept), Problem::dof(&p.sides.eliminated));
    let squares = p.squares();
    let (column, number) = (r.below(count + 2) as u64, r.below(p.sides.eliminated.len() / 2 + 1) as u64);
    let longer = if r.chance(50) { r.below(4) } else { 0 };
    let map = r.numbers(count + longer);
    let (columns, sides, chunk) = (p.columns.clone(), p.sides.clone(), p.chunk);
    match which {
        0 => Call::CheckColumns { columns },
        1 => Call::ColumnDot { a: r.below(count) as u64, b: r.below(count) as u64, columns },
        2 => Call::JtVec { columns, v: r.floats(rows, special), out: r.floats(count, 10).into() },
        3 => Call::DiagJtJ { columns, out: r.floats(count, 10).into() },
        4 => Call::JtJVecProduct { columns, v: r.floats(count, special), rows: r.floats(rows, 10).into(), out: r.floats(count, 10).into() },
        5 | 6 => Call::CheckBlocks { columns, sides, map: map.into() },
        7 => Call::Slot { sides, column },
        8 => Call::KeptLocal { kept: sides.kept, column },
        9 => Call::EliminatedLocal { eliminated: sides.eliminated, column },
        10 => Call::Block { block_values: r.floats(squares, 10), eliminated: sides.eliminated, number },
        11 => Call::GatherFromJacobian { columns, sides, map: map.into(), block_values: r.floats(squares, 10).into() },
        12 | 13 => Call::Damp { columns, sides, map: map.into(), damping: damping(r), block_values: r.floats(squares, special).into() },
        14 => Call::DiagonalTerm { damping: damping(r), value: r.float(30) },
        15 => Call::ApplyEliminatedInverse {
            columns, sides, map: map.into(), b: r.floats(elim, special), inverses: r.floats(squares, special), out: r.floats(elim, 10).into(),
        },
        16 => Call::CouplingTimes {
            columns, sides, map: map.into(), u: r.floats(elim, special), rows: r.floats(rows, 10).into(), out: r.floats(kept, 10).into(),
        },
        17 => Call::CouplingTransposeTimes {
            columns, sides, map: map.into(), v: r.floats(kept, special), rows: r.floats(rows, 10).into(), out: r.floats(elim, 10).into(),
        },
        18 => Call::CombineUpdates {
            columns, sides, map: map.into(), kept_v: r.floats(kept, special), elim_v: r.floats(elim, special), out: r.floats(count, 10).into(),
        },
        19..=22 => {
            let (chunks, entries) = (p.chunks(), columns.rows.len());
            let (eb, kb) = (sides.eliminated.len() / 2 + 1, sides.kept.len() / 2 + 1);
            let mut buffer = |need: usize| { let more = r.below(longer + 1); r.numbers(need + more).into() };
            Call::Plan {
                map: buffer(count), kept_cols: buffer(count), elim_cols: buffer(count), elim_block: buffer(count), owners: buffer(rows),
                row_lists: buffer(rows), row_starts: buffer(eb), visible: buffer(entries), visible_starts: buffer(kb),
                kept_starts: buffer(chunks + 1), kept_lo: buffer(entries), kept_hi: buffer(entries), kept_local: buffer(entries),
                elim_starts: buffer(chunks + 1), elim_lo: buffer(entries), elim_hi: buffer(entries), elim_local: buffer(entries),
                columns, sides, chunk,
            }
        }
        23..=28 => {
            let (side, blocks, dof) = match r.below(2) {
                0 => (Side::Kept, &p.sides.kept, kept),
                _ => (Side::Eliminated, &p.sides.eliminated, elim),
            };
            let spans = p.spans(r, blocks);
            let counts: Vec<u32> = spans.starts.windows(2).map(|pair| pair[1] - pair[0]).collect();
            let (starts, lo, hi, local) = (spans.starts, spans.lo, spans.hi, spans.local);
            let (map, v, rows) = (map.into(), r.floats(dof, special), r.floats(rows, special).into());
            if which < 26 {
                let mut order: Vec<u32> = counts.iter().enumerate().flat_map(|(c, n)| vec![c as u32; *n as usize]).collect();
                r.shuffle(&mut order);
                let progress = r.numbers(counts.len()).into();
                Call::Sweep { side, columns, sides, map, chunk, v, starts, lo, hi, local, rows, progress, order }
            } else {
                let progress = counts.iter().map(|n| r.below(*n as usize + usize::from(*n == 0)) as u32).collect::<Vec<_>>().into();
                let full: Vec<u64> = (0..counts.len()).filter(|c| counts[*c] > 0).map(|c| c as u64).collect();
                let chunk_number = if full.is_empty() || r.chance(5) { r.below(counts.len() + 1) as u64 } else { r.one(&full) };
                Call::Step { side, columns, sides, map, chunk, v, starts, lo, hi, local, rows, progress, chunk_number }
            }
        }
        _ => {
            let k = p.spans(r, &p.sides.kept);
            let e = p.spans(r, &p.sides.eliminated);
            let d = if r.chance(40) { 0 } else { kept };
            Call::ApplySchurOperator {
                columns, sides, map: map.into(), chunk, v: r.floats(kept, special), inverses: r.floats(squares, special), d: r.floats(d, special),
                kept_starts: k.starts, kept_lo: k.lo, kept_hi: k.hi, kept_local: k.local,
                elim_starts: e.starts, elim_lo: e.lo, elim_hi: e.hi, elim_local: e.local,
                rows: r.floats(rows, 10).into(), t: r.floats(elim, 10).into(), u: r.floats(elim, 10).into(), out: r.floats(kept, 10).into(),
            }
        }
    }
}

/// Damping with good limits, mostly.
fn damping(r: &mut Random) -> Damping {
    let (lambda, a, b) = (r.float(15), r.float(15), r.float(15));
    match r.below(4) {
        0 => Damping::identity(lambda),
        1 => Damping {
            lambda,
            min: r.one(&[0.0, -0.0]),
            max: r.one(&[0.0, -0.0]),
        },
        _ if a > b => Damping { lambda, min: b, max: a },
        _ => Damping { lambda, min: a, max: b },
    }
}

// Which lists a refusal comes from. Damage that aims at a number takes one of these.
const AIMS: [&[&str]; 15] = [
    &[],
    &["row_count", "row_count", "row_count", "kept", "eliminated", "ptrs", "row_numbers"],
    &["ptrs", "values", "kept", "eliminated"],
    &["row_numbers"],
    &["kept", "eliminated"],
    &["chunk"],
    &[
        "map",
        "kept_cols",
        "elim_cols",
        "elim_block",
        "owners",
        "row_lists",
        "row_starts",
        "visible",
        "visible_starts",
        "kept_starts",
        "kept_lo",
        "kept_hi",
        "kept_local",
        "elim_starts",
        "elim_lo",
        "elim_hi",
        "elim_local",
    ],
    &["kept", "eliminated", "a", "b"],
    &["kept", "eliminated"],
    &["kept", "eliminated"],
    &["row_numbers"],
    &[
        "v",
        "b",
        "u",
        "kept_v",
        "elim_v",
        "inverses",
        "block_values",
        "d",
        "starts",
        "hi",
        "local",
        "kept_starts",
        "kept_hi",
        "kept_local",
        "elim_starts",
        "elim_hi",
        "elim_local",
        "rows",
        "t",
        "out",
        "progress",
    ],
    &["min", "max"],
    &[
        "starts",
        "lo",
        "hi",
        "local",
        "kept_starts",
        "kept_lo",
        "kept_hi",
        "kept_local",
        "elim_starts",
        "elim_lo",
        "elim_hi",
        "elim_local",
    ],
    &["order", "progress", "chunk_number"],
];

// How often damage aims at each number; 0 is no aim.
const WEIGHTS: [usize; 25] = [
    0, 0, 1, 2, 3, 4, 5, 5, 6, 7, 8, 9, 10, 11, 11, 11, 12, 13, 13, 13, 14, 14, 14, 14, 14,
];

/// Damages one thing of the call: aimed at some refusal, or anything.
pub fn damage(r: &mut Random, call: &mut Call) {
    let entries = call_entries(call);
    let mut all = call.lent();
    let aim = r.one(&WEIGHTS);
    if aim > 0 {
        let aimed: Vec<usize> = (0..all.len()).filter(|i| AIMS[aim].contains(&all[*i].0)).collect();
        if !aimed.is_empty() {
            let chosen = r.one(&aimed);
            return strike(r, aim, all[chosen].0, &mut all[chosen].1, entries);
        }
    }
    if !all.is_empty() {
        let chosen = r.below(all.len());
        strike(r, 0, all[chosen].0, &mut all[chosen].1, entries);
    }
}

/// How many entries the call's columns have.
fn call_entries(call: &mut Call) -> usize {
    let all = call.lent();
    let rows = all.iter().find_map(|(name, lent)| match lent {
        Lent::Numbers(list) if *name == "row_numbers" => Some(list.len()),
        _ => None,
    });
    rows.unwrap_or(0)
}

/// Damages this thing, as fits the refusal that is aimed at.
fn strike(r: &mut Random, aim: usize, name: &str, lent: &mut Lent, entries: usize) {
    match lent {
        Lent::Number(number) => **number = number_near(r, aim, **number),
        Lent::Float(float) => **float = if r.chance(60) { f64::NAN } else { r.float(40) },
        Lent::Numbers(list) => match aim {
            1 => grow(r, name, list),
            2 if name != "ptrs" => list.push(r.below(5) as u32),
            4 => list.clear(),
            7 | 8 => item(r, list, entries),
            9 if list.len() > 3 && r.chance(50) => drop(list.drain(..2)),
            9 => odd_item(r, list, |dof| dof.saturating_sub(1)),
            11 => **list = resized(r, list, |r| r.below(4) as u32),
            _ if r.chance(70) => item(r, list, entries),
            _ if r.chance(50) && list.len() > 1 => {
                let (i, j) = (r.below(list.len()), r.below(list.len()));
                list.swap(i, j);
            }
            _ => **list = resized(r, list, |r| r.below(4) as u32),
        },
        Lent::Floats(list) => {
            if aim == 0 && !list.is_empty() && r.chance(50) {
                let place = r.below(list.len());
                list[place] = r.float(80);
            } else {
                **list = resized(r, list, |r| r.float(20));
            }
        }
        Lent::NumberBuffer(buffer) => {
            if aim == 14 && !buffer.is_empty() {
                let place = r.below(buffer.len());
                buffer[place] = wild(r, buffer[place], entries);
            } else {
                let list = if aim == 6 {
                    buffer[..buffer.len().saturating_sub(r.range(1, 4))].to_vec()
                } else {
                    resized(r, buffer, |r| r.bits() as u32)
                };
                **buffer = list.into();
            }
        }
        Lent::FloatBuffer(buffer) => {
            let list = resized(r, buffer, |r| r.float(20));
            **buffer = list.into();
        }
    }
}

/// A number near this one, near a limit, or wild.
fn number_near(r: &mut Random, aim: usize, number: u64) -> u64 {
    if aim == 1 {
        return r.one(&[1_048_577, 1_048_578, 1 << 32, (1 << 32) + 1, 1 << 63, u64::MAX]);
    }
    r.one(&[
        0,
        1,
        number.wrapping_sub(1),
        number.wrapping_add(1),
        number.wrapping_mul(2),
        number / 2,
        1_048_575,
        1_048_576,
        1_048_577,
        65_536,
        (1 << 32) - 1,
        1 << 32,
        (1 << 32) + number % 8,
        u64::MAX,
    ])
}

/// A list number near this one, near the length of the entries, or wild.
fn wild(r: &mut Random, number: u32, entries: usize) -> u32 {
    let few = r.below(16) as u32;
    r.one(&[
        0,
        1,
        few,
        few,
        few,
        number.wrapping_sub(1),
        number.wrapping_add(1),
        number.wrapping_add(1),
        entries as u32,
        entries as u32 + 1,
        (1 << 31) - 1,
        1 << 31,
        u32::MAX - 1,
        u32::MAX,
    ])
}

/// Another number at one place of the list.
fn item(r: &mut Random, list: &mut [u32], entries: usize) {
    if !list.is_empty() {
        let place = r.below(list.len());
        list[place] = wild(r, list[place], entries);
    }
}

/// Another number at one odd place: a dof.
fn odd_item(r: &mut Random, list: &mut [u32], change: fn(u32) -> u32) {
    if list.len() > 1 {
        let place = 2 * r.below(list.len() / 2) + 1;
        list[place] = change(list[place]);
    }
}

/// A list one or two too short or too long, or empty.
fn resized<T: Copy>(r: &mut Random, list: &[T], more: impl Fn(&mut Random) -> T) -> Vec<T> {
    let mut list = list.to_vec();
    match r.below(5) {
        0 => list.clear(),
        1 | 2 => list.truncate(list.len().saturating_sub(r.range(1, 2))),
        _ => (0..r.range(1, 2)).for_each(|_| list.push(more(r))),
    }
    list
}

/// A list up to a limit or past it. The longest are the rarest.
fn grow(r: &mut Random, name: &str, list: &mut Vec<u32>) {
    let length = match name {
        "ptrs" => r.one(&[65_537, 65_538, 70_000]),
        "row_numbers" if r.chance(1) => 16_777_217,
        "row_numbers" => return item(r, list, 16_777_216),
        _ => r.one(&[131_071, 131_072, 131_073, 131_074]),
    };
    if r.chance(20) {
        let last = list.last().copied().unwrap_or(0);
        // blocks of dof 0, or columns without an entry
        let fill = if name == "ptrs" { last } else { 0 };
        list.resize(length, fill);
    }
}

/// A call at the limits of document 01: as many columns, rows, blocks or entries as there may be, or one more.
#[rustfmt::skip]
pub fn limit_call(r: &mut Random) -> Call {
    let over = r.below(2);
    let empty = |nrows: u64, count: usize| OwnColumns { nrows, ptrs: vec![0; count + 1], rows: vec![], values: vec![] };
    match r.below(16) {
        // every place of 16 columns: 16,777,216 entries
        0 => {
            let (rows, columns) = (1_048_576u32, 16u32);
            let mut all: Vec<u32> = (0..columns).flat_map(|_| 0..rows).collect();
            let mut ptrs: Vec<u32> = (0..=columns).map(|c| c * rows).collect();
            if over == 1 {
                all.push(0);
                ptrs.push(columns * rows + 1);
            }
            Call::CheckColumns { columns: OwnColumns { nrows: rows.into(), ptrs, values: vec![1.0; all.len()], rows: all } }
        }
        // one row more or not, one chunk to a row or one for all
        1..=3 => {
            let nrows = 1_048_576 + over as u64;
            let row = |n: u64| n as u32 - 1;
            let columns = OwnColumns { nrows, ptrs: vec![0, 2, 3], rows: vec![5, row(nrows), row(nrows)], values: vec![1.0, 2.0, 3.0] };
            let chunk = r.one(&[1, 4096, 1_048_575, 1_048_576, 1_048_577]);
            let chunks = nrows.div_ceil(chunk) as usize;
            let sides = OwnSides { kept: vec![0, 1], eliminated: vec![1, 1] };
            let buffer = |need: usize| vec![7; need].into();
            let n = nrows as usize;
            Call::Plan {
                map: buffer(2), kept_cols: buffer(2), elim_cols: buffer(2), elim_block: buffer(2), owners: buffer(n), row_lists: buffer(n),
                row_starts: buffer(2), visible: buffer(3), visible_starts: buffer(2),
                kept_starts: buffer(chunks + 1), kept_lo: buffer(3), kept_hi: buffer(3), kept_local: buffer(3),
                elim_starts: buffer(chunks + 1), elim_lo: buffer(3), elim_hi: buffer(3), elim_local: buffer(3), columns, sides, chunk,
            }
        }
        // 65,536 columns, one block or 65,535 blocks on the eliminated side
        4..=7 => {
            let count = 65_536 + over;
            let last = count as u32 - 1;
            let eliminated = if r.chance(50) { vec![0, last] } else { (0..last).rev().flat_map(|c| [c, 1]).collect() };
            let sides = OwnSides { kept: vec![last, 1], eliminated };
            let (kept_v, elim_v) = (r.floats(1, 10), r.floats(last as usize, 10));
            let (map, out) = (r.numbers(count).into(), r.floats(count, 10).into());
            Call::CombineUpdates { columns: empty(3, count), sides, map, kept_v, elim_v, out }
        }
        // a sum of dof squares that passes 32 bits
        8 | 9 => {
            let sides = OwnSides { kept: vec![0, 0], eliminated: vec![0, 65_536] };
            let (map, inverses) = (r.numbers(65_536).into(), r.floats(over, 10));
            let (b, out) = (r.floats(65_536, 10), r.floats(65_536, 10).into());
            Call::ApplyEliminatedInverse { columns: empty(1, 65_536), sides, map, b, inverses, out }
        }
        // 65,536 blocks of a side, all but one of them empty
        which => {
            let mut many = [0, 0].repeat(65_535 + over);
            many.extend([0, 1]);
            let few = vec![1, 1];
            let (kept, eliminated) = if r.chance(50) { (many, few) } else { (few, many) };
            let column = r.below(3) as u64;
            match which {
                10 => Call::Slot { sides: OwnSides { kept, eliminated }, column },
                11 => Call::KeptLocal { kept, column },
                12 => Call::EliminatedLocal { eliminated, column },
                13 => Call::Block { block_values: r.floats(1, 10), number: (eliminated.len() / 2 - 1) as u64, eliminated },
                _ => Call::CheckBlocks { columns: empty(0, 2), sides: OwnSides { kept, eliminated }, map: r.numbers(2).into() },
            }
        }
    }
}
