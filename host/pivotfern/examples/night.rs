//! One night's inner step on a made-up hall: `cargo run --features compare --example night`.
//!
//! Posts (six numbers each) are kept, targets on the rail (three each) are eliminated. The damped normal equations `(JᵀJ + λD)·x = g` are
//! reduced to the posts, solved there by conjugate gradients over the operator, and carried back to the targets. The 3x3 blocks are inverted
//! here: the box inverts nothing.

use pivotfern::*;

const POSTS: usize = 8;
const TARGETS: usize = 40;
const SEEN_BY: usize = 4;
const CHUNK_LEN: usize = 64;
const DAMPING: Damping = Damping {
    lambda: 1e-4,
    min: 1e-6,
    max: 1e32,
};
const TOLERANCE: f64 = 1e-12;

/// Made-up numbers between -1 and 1, the same each time.
struct Made(u64);

impl Made {
    fn next(&mut self) -> f64 {
        self.0 = self
            .0
            .wrapping_mul(6_364_136_223_846_793_005)
            .wrapping_add(1_442_695_040_888_963_407);
        (self.0 >> 11) as f64 / (1u64 << 52) as f64 - 1.0
    }
}

/// The hall: who sees what, as compressed columns, and the residual of each row.
struct Hall {
    nrows: usize,
    ptrs: Vec<u32>,
    rows: Vec<u32>,
    values: Vec<f64>,
    kept: Vec<u32>,
    eliminated: Vec<u32>,
    residuals: Vec<f64>,
}

/// Every sighting of a target by a post has two rows, and each row has an entry in each column of the two.
fn make_hall() -> Hall {
    let mut made = Made(1);
    let mut columns: Vec<Vec<(u32, f64)>> = vec![vec![]; 6 * POSTS + 3 * TARGETS];
    let mut nrows = 0;
    for target in 0..TARGETS {
        for sighting in 0..SEEN_BY {
            let post = (target * POSTS / TARGETS + sighting) % POSTS;
            for _ in 0..2 {
                let of_post = 6 * post..6 * post + 6;
                let of_target = 6 * POSTS + 3 * target..6 * POSTS + 3 * target + 3;
                for column in of_post.chain(of_target) {
                    columns[column].push((nrows, made.next()));
                }
                nrows += 1;
            }
        }
    }
    let mut ptrs = vec![0];
    for column in &columns {
        ptrs.push(ptrs[ptrs.len() - 1] + column.len() as u32);
    }
    let entries: Vec<_> = columns.into_iter().flatten().collect();
    Hall {
        nrows: nrows as usize,
        ptrs,
        rows: entries.iter().map(|entry| entry.0).collect(),
        values: entries.iter().map(|entry| entry.1).collect(),
        kept: (0..POSTS as u32).flat_map(|post| [6 * post, 6]).collect(),
        eliminated: (0..TARGETS as u32).flat_map(|target| [6 * POSTS as u32 + 3 * target, 3]).collect(),
        residuals: (0..nrows).map(|_| made.next()).collect(),
    }
}

/// The inverse of a symmetric 3x3 block, by columns; `None` where it has none.
fn invert(m: &[f64]) -> Option<[f64; 9]> {
    let cofactor = |r: usize, c: usize| {
        let (r1, r2, c1, c2) = ((r + 1) % 3, (r + 2) % 3, (c + 1) % 3, (c + 2) % 3);
        m[c1 * 3 + r1] * m[c2 * 3 + r2] - m[c2 * 3 + r1] * m[c1 * 3 + r2]
    };
    let determinant = m[0] * cofactor(0, 0) + m[3] * cofactor(0, 1) + m[6] * cofactor(0, 2);
    if !determinant.is_normal() {
        return None;
    }
    let mut inverse = [0.0; 9];
    for r in 0..3 {
        for c in 0..3 {
            inverse[c * 3 + r] = cofactor(c, r) / determinant;
        }
    }
    Some(inverse)
}

fn dot(a: &[f64], b: &[f64]) -> f64 {
    a.iter().zip(b).map(|(x, y)| x * y).sum()
}

fn norm(a: &[f64]) -> f64 {
    dot(a, a).sqrt()
}

/// a - b.
fn minus(a: &[f64], b: &[f64]) -> Vec<f64> {
    a.iter().zip(b).map(|(x, y)| x - y).collect()
}

/// The entries of a vector over all columns that belong to these columns.
fn pick(all: &[f64], columns: &[u32]) -> Vec<f64> {
    columns.iter().map(|&column| all[column as usize]).collect()
}

/// Solves `S·x = b` by conjugate gradients. Returns x and how many times the operator was called.
fn solve(b: &[f64], mut times: impl FnMut(&[f64], &mut [f64]) -> Result<(), Error>) -> Result<(Vec<f64>, usize), Error> {
    let mut x = vec![0.0; b.len()];
    let mut r = b.to_vec();
    let mut p = b.to_vec();
    let mut sp = vec![0.0; b.len()];
    let mut rr = dot(&r, &r);
    let mut turns = 0;
    while rr.sqrt() > TOLERANCE * norm(b) && turns < 10 * b.len() {
        times(&p, &mut sp)?;
        turns += 1;
        let step = rr / dot(&p, &sp);
        for i in 0..x.len() {
            x[i] += step * p[i];
            r[i] -= step * sp[i];
        }
        let before = std::mem::replace(&mut rr, dot(&r, &r));
        for i in 0..p.len() {
            p[i] = r[i] + rr / before * p[i];
        }
    }
    Ok((x, turns))
}

fn main() -> Result<(), Box<dyn std::error::Error>> {
    let hall = make_hall();
    let columns = Columns {
        nrows: hall.nrows,
        ptrs: &hall.ptrs,
        rows: &hall.rows,
        values: &hall.values,
    };
    let sides = Sides {
        kept: &hall.kept,
        eliminated: &hall.eliminated,
    };
    let system = System { columns, sides };
    println!("The hall: {POSTS} posts of 6, {TARGETS} targets of 3, each seen by {SEEN_BY} posts.");
    println!(
        "Its columns: {} rows, {} columns, {} entries.",
        hall.nrows,
        columns.count(),
        hall.rows.len()
    );

    let plan = Plan::new(system, CHUNK_LEN)?;
    let (kept_spans, eliminated_spans) = (plan.spans(Side::Kept).lo.len(), plan.spans(Side::Eliminated).lo.len());
    println!(
        "The plan: {} chunks of {CHUNK_LEN} rows, {kept_spans} spans of posts, {eliminated_spans} of targets.",
        plan.chunks()
    );
    println!(
        "Post 0 sees {} targets; target 0 has {} rows.",
        plan.visible_to(0).len(),
        plan.rows_of(0).len()
    );

    // g = -Jᵀ·r, side by side
    let g: Vec<f64> = jt_vec(columns, &hall.residuals)?.iter().map(|x| -x).collect();
    let g_kept = pick(&g, plan.columns(Side::Kept));
    let g_eliminated = pick(&g, plan.columns(Side::Eliminated));

    // the targets' blocks, damped and inverted
    let mut blocks = vec![0.0; value_count(sides.eliminated).ok_or("too many block values")?];
    gather_from_jacobian(system, &mut blocks)?;
    damp(system, DAMPING, &mut blocks)?;
    let mut inverses = Vec::with_capacity(blocks.len());
    for target in 0..TARGETS {
        inverses.extend(invert(block(&blocks, sides.eliminated, target)?).ok_or("a target's block has no inverse")?);
    }

    // the damping of every column, and of the posts in local order
    let terms: Result<Vec<f64>, Error> = diag_jt_j(columns)?.iter().map(|&x| diagonal_term(DAMPING, x)).collect();
    let terms = terms?;
    let d = pick(&terms, plan.columns(Side::Kept));

    // b = g_k - FᵀE·inverses·g_e, then S·x_k = b
    let carried = apply_eliminated_inverse(system, &g_eliminated, &inverses)?;
    let b = minus(&g_kept, &coupling_times(system, &carried)?);
    let mut work = Work::new(system);
    let (x_kept, turns) = solve(&b, |v, out| {
        let operands = Operands {
            plan: &plan,
            v,
            inverses: &inverses,
            d: &d,
        };
        operator(system, operands, &mut work, out)
    })?;
    println!(
        "Conjugate gradients on {} unknowns of the posts: {turns} calls of the operator.",
        x_kept.len()
    );

    // x_e = inverses·(g_e - EᵀF·x_k)
    let rest = minus(&g_eliminated, &coupling_transpose_times(system, &x_kept)?);
    let x_eliminated = apply_eliminated_inverse(system, &rest, &inverses)?;
    let x = combine_updates(system, &x_kept, &x_eliminated)?;

    // how far the rows are from what was seen, before and after: r + J·x, with J·x column by column
    let mut after = hall.residuals.clone();
    for (bounds, x) in hall.ptrs.windows(2).zip(&x) {
        for place in bounds[0] as usize..bounds[1] as usize {
            after[hall.rows[place] as usize] += hall.values[place] * x;
        }
    }
    println!("The residual: {:.6} before, {:.6} after.", norm(&hall.residuals), norm(&after));

    // the full normal equations, which the reduced ones stand for
    let product = jt_j_vec_product(columns, &x)?;
    let left: Vec<f64> = (0..g.len()).map(|i| product[i] + terms[i] * x[i] - g[i]).collect();
    let relative = norm(&left) / norm(&g);
    println!("The full normal equations hold to {relative:.1e} of the right-hand side.");
    if relative.is_nan() || relative > 1e-9 {
        return Err("the update does not solve the normal equations".into());
    }
    Ok(())
}
