//! The port's plan and operator, all checks included, on the problems of oracle/bench.
//!
//!     bench check PROBLEM L            sizes, span counts and a hash of the operator's result: the same line as oracle/bench's
//!     bench count PROBLEM WHAT L N     sets everything up and makes N calls: the difference over N cancels the set-up
//!     bench time  PROBLEM WHAT L N     best and median wall time of N calls
//!
//! PROBLEM hall, medium, full. WHAT plan, operator. L 0 is the original's own chunk length. tools/count.sh counts instructions with it.
mod problem;

use pivotfern::{raw, Columns, Sides, Spans, System};
use problem::{named, own_chunk, Problem};
use std::hint::black_box;
use std::process::exit;
use std::time::Instant;

/// The seventeen lists of a plan, as long as they have to be.
struct Lists(Vec<Vec<u32>>);

impl Lists {
    fn room(p: &Problem, l: usize) -> Lists {
        let (columns, entries, chunks) = (p.ptrs.len() - 1, p.rows.len(), p.nrows.div_ceil(l));
        let side = [chunks + 1, entries, entries, entries];
        let plain = [
            columns,
            columns,
            columns,
            columns,
            p.nrows,
            p.nrows,
            p.elim.blocks + 1,
            entries,
            p.kept.blocks + 1,
        ];
        Lists(plain.iter().chain(&side).chain(&side).map(|&n| vec![0; n]).collect())
    }
    /// Fills the lists, and gives the span counts of the kept and of the eliminated side.
    fn plan(&mut self, p: &Problem, l: usize) -> (u64, u64) {
        let mut lists = self.0.iter_mut().map(|list| &mut list[..]);
        let told = raw::plan(system(p), l, std::array::from_fn(|_| lists.next().expect("seventeen lists")));
        if told.number != 0 {
            eprintln!("refused: {told:?}");
            exit(1);
        }
        (told.first, told.second)
    }
    /// A side's spans, cut to their used part.
    fn spans(&self, first: usize, count: u64) -> Spans<'_> {
        let cut = |k: usize| &self.0[first + k][..count as usize];
        Spans {
            starts: &self.0[first],
            lo: cut(1),
            hi: cut(2),
            local: cut(3),
        }
    }
}

fn system(p: &Problem) -> System<'_> {
    System {
        columns: Columns {
            nrows: p.nrows,
            ptrs: &p.ptrs,
            rows: &p.rows,
            values: &p.values,
        },
        sides: Sides {
            kept: &p.kept_pairs,
            eliminated: &p.elim_pairs,
        },
    }
}

/// Calls `each` with one call of WHAT, as often as it asks. Ends with the lists, the span counts and the operator's result.
fn with_call(p: &Problem, what: &str, l: usize, each: &mut dyn FnMut(&mut dyn FnMut())) -> (Lists, (u64, u64), Vec<f64>) {
    let mut lists = Lists::room(p, l);
    let mut out = vec![0.0; p.kept.columns()];
    if what == "plan" {
        each(&mut || {
            black_box(lists.plan(p, black_box(l)));
        });
        let spans = lists.plan(p, l);
        return (lists, spans, out);
    }
    let spans = lists.plan(p, l);
    let mut map = vec![0; p.ptrs.len() - 1];
    let (mut rows, mut t, mut u) = (vec![0.0; p.nrows], vec![0.0; p.elim.columns()], vec![0.0; p.elim.columns()]);
    let (kept, eliminated) = (lists.spans(9, spans.0), lists.spans(13, spans.1));
    each(&mut || {
        let operands = raw::Operands {
            chunk_len: l,
            v: black_box(&p.v),
            inverses: &p.inverses,
            d: &p.d,
            kept,
            eliminated,
        };
        let work = raw::Work {
            map: &mut map,
            rows: &mut rows,
            t: &mut t,
            u: &mut u,
            out: &mut out,
        };
        let told = raw::operator(system(p), operands, work);
        if told.number != 0 {
            eprintln!("refused: {told:?}");
            exit(1);
        }
        black_box(&out);
    });
    (lists, spans, out)
}

fn check(p: &Problem, l: usize) {
    let (lists, spans, out) = with_call(p, "operator", l, &mut |call| call());
    let hash = out
        .iter()
        .fold(0u64, |h, x| (h.rotate_left(5) ^ x.to_bits()).wrapping_mul(0x100000001b3));
    println!(
        "rows {} cols {} entries {} chunk {l} kept spans {} eliminated spans {} visible pairs {} hash of out {hash:016x}",
        p.nrows,
        p.ptrs.len() - 1,
        p.rows.len(),
        spans.0,
        spans.1,
        lists.0[8][p.kept.blocks],
    );
}

fn time(p: &Problem, what: &str, l: usize, n: usize) {
    let mut ns = Vec::with_capacity(n);
    with_call(p, what, l, &mut |call| {
        for _ in 0..n {
            let start = Instant::now();
            call();
            ns.push(start.elapsed().as_nanos() as f64 / p.rows.len() as f64);
        }
    });
    ns.sort_by(f64::total_cmp);
    println!("{:8.3} best {:8.3} median  ns per entry", ns[0], ns[n / 2]);
}

fn usage() -> ! {
    eprintln!("bench check PROBLEM L | bench count|time PROBLEM plan|operator L N, with PROBLEM hall, medium or full");
    exit(2);
}

fn main() {
    let args: Vec<String> = std::env::args().skip(1).collect();
    let number = |k: usize| args.get(k).and_then(|s| s.parse::<usize>().ok()).unwrap_or_else(|| usage());
    let Some(p) = args.get(1).and_then(|name| named(name)) else {
        usage()
    };
    let chunk = |l: usize| if l == 0 { own_chunk(p.nrows) } else { l };
    let what = args.get(2).map(String::as_str);
    match (args[0].as_str(), what) {
        ("check", Some(_)) => check(&p, chunk(number(2))),
        ("count", Some(what @ ("plan" | "operator"))) => {
            let n = number(4);
            with_call(&p, what, chunk(number(3)), &mut |call| (0..n).for_each(|_| call()));
        }
        ("time", Some(what @ ("plan" | "operator"))) => time(&p, what, chunk(number(3)), number(4).max(1)),
        _ => usage(),
    }
}
