//! Problems that the original accepts: its own program draws and answers them (oracle/FORMAT.md), the port answers the same calls, and every
//! list is compared. The blocks are lent in the order that the original used.

use super::random::Random;
use super::{same_floats, Tally};
use crate::case::{Call, Lent, OwnColumns, OwnSides};
use crate::model::Model;
use pivotfern::{Damping, Side};
use std::collections::HashMap;
use std::io::{self, BufRead, BufReader};
use std::process::{Command, Stdio};

/// The options of the original's generator, one batch after the other.
const OPTIONS: [&str; 10] = [
    "--small",
    "--small --caller 100 --special 40",
    "--small --caller 0 --alt 100",
    "--small --share 40",
    "--small --dof0 40 --alt 60",
    "--small --bad 40",
    "--small --far 30",
    "--rows 40 --cols 16 --caller 100 --alt 100",
    "--rows 60 --cols 20 --share 5 --special 30",
    "--rows 120 --cols 30",
];

/// How many cases a batch has.
const BATCH: u64 = 250;

/// A list of the original's.
#[derive(Clone, Debug)]
enum List {
    Numbers(Vec<u64>),
    Floats(Vec<f64>),
    /// The original panicked there.
    Panic,
}

/// One case of the original: its lists by name.
#[derive(Default)]
struct Case {
    lists: HashMap<String, List>,
}

impl Case {
    fn numbers(&self, name: &str) -> Vec<u64> {
        match self.lists.get(name) {
            Some(List::Numbers(list)) => list.clone(),
            _ => Vec::new(),
        }
    }

    fn small(&self, name: &str) -> Vec<u32> {
        self.numbers(name).iter().map(|n| *n as u32).collect()
    }

    fn number(&self, name: &str) -> u64 {
        self.numbers(name).first().copied().unwrap_or(0)
    }

    fn floats(&self, name: &str) -> Vec<f64> {
        match self.lists.get(name) {
            Some(List::Floats(list)) => list.clone(),
            _ => Vec::new(),
        }
    }

    fn panicked(&self, name: &str) -> bool {
        matches!(self.lists.get(name), Some(List::Panic))
    }

    fn has(&self, name: &str) -> bool {
        self.lists.contains_key(name)
    }
}

/// One line `NAME TYPE COUNT ITEM ..`.
fn parse(line: &str) -> Option<(String, List)> {
    let mut words = line.split(' ');
    let (name, kind) = (words.next()?, words.next()?);
    let count: usize = words.next()?.parse().ok()?;
    let list = match kind {
        "u" => List::Numbers(words.map(|w| w.parse().ok()).collect::<Option<_>>()?),
        "f" => List::Floats(words.map(float).collect::<Option<_>>()?),
        "p" => List::Panic,
        _ => return None,
    };
    let length = match &list {
        List::Numbers(list) => list.len(),
        List::Floats(list) => list.len(),
        List::Panic => 0,
    };
    (length == count).then(|| (name.to_string(), list))
}

fn float(word: &str) -> Option<f64> {
    match word {
        "nan" => Some(f64::NAN),
        _ => u64::from_str_radix(word, 16).ok().map(f64::from_bits),
    }
}

/// Runs so many cases of the original's program at `oracle`.
///
/// # Errors
///
/// The program cannot be run, fails, or writes other than the cases that were asked for.
pub fn accepted(oracle: &str, model: &Model, seed: u64, count: u64) -> io::Result<Tally> {
    let mut tally = Tally::default();
    let mut r = Random(seed);
    let mut batch = 0;
    while tally.cases < count {
        let options = OPTIONS[batch % OPTIONS.len()];
        let number = (r.bits() >> 32).to_string();
        let size = BATCH.min(count - tally.cases);
        let mut child = Command::new(oracle)
            .args(["gen", "--seed", &number, "--count", &size.to_string()])
            .args(options.split(' '))
            .stdout(Stdio::piped())
            .spawn()?;
        let output = BufReader::new(child.stdout.take().expect("the output is piped"));
        let read = read_cases(output, model, &mut r, &mut tally, count)?;
        if !child.wait()?.success() || read != size {
            return Err(io::Error::other(format!(
                "{oracle} gen --seed {number} --count {size} {options} gave {read} cases"
            )));
        }
        batch += 1;
    }
    Ok(tally)
}

/// Reads cases with the original's answers, runs each and compares. Gives how many there were; `count` is for the progress line.
///
/// # Errors
///
/// The input cannot be read, or a line of it does not parse.
pub fn read_cases(input: impl BufRead, model: &Model, r: &mut Random, tally: &mut Tally, count: u64) -> io::Result<u64> {
    let mut case = Case::default();
    let mut read = 0;
    for line in input.lines() {
        let line = line?;
        match line.split(' ').next() {
            Some("case") => case = Case::default(),
            Some("end") => {
                let run = Run {
                    case: &case,
                    model,
                    tally,
                    r,
                };
                run.all();
                tally.cases += 1;
                read += 1;
                tally.progress("accepted", count);
            }
            Some("check" | "#" | "") | None => (),
            Some(_) => {
                let wrong = || io::Error::other(format!("the original wrote a line that does not parse: {line}"));
                let (name, list) = parse(&line).ok_or_else(wrong)?;
                case.lists.insert(name, list);
            }
        }
    }
    Ok(read)
}

/// One case of the original, on its way through the calls.
struct Run<'a> {
    case: &'a Case,
    model: &'a Model,
    tally: &'a mut Tally,
    r: &'a mut Random,
}

impl Run<'_> {
    /// Every call that the case has an answer for.
    fn all(mut self) {
        let columns = OwnColumns {
            nrows: self.case.number("in.rows"),
            ptrs: self.case.small("in.ptr"),
            rows: self.case.small("in.row"),
            values: self.case.floats("in.val"),
        };
        self.columns(&columns);
        self.terms();
        if self.case.number("out.partition") != 0 {
            return self.refused_partition(&columns);
        }
        let sides = OwnSides {
            kept: self.case.small("out.kept"),
            eliminated: self.case.small("out.elim"),
        };
        self.lookups(&sides);
        let past = |list: &[u32]| list.chunks_exact(2).any(|pair| u64::from(pair[0]) >= self.case.number("in.cols"));
        if past(&sides.kept) || past(&sides.eliminated) {
            return self.tally.leave_out(
                "a block of dof 0 starts past the columns (accepted there, 7 here): all calls but those on columns and lookups",
            );
        }
        self.blocks(&columns, &sides);
        self.plan(&columns, &sides);
        self.products(&columns, &sides);
        self.over_spans(&columns, &sides, "out.", "out.");
        if self.case.has("in.alt.kstart") {
            self.over_spans(&columns, &sides, "in.alt.", "out.alt.");
        }
    }

    /// Runs a call in port and model; then compares buffers of the port with lists of the original, each buffer's used part.
    fn call(&mut self, call: Call, lists: &[(&str, &str)]) -> Call {
        let before = call.clone();
        let (mut after, answer) = self.tally.compare(self.model, call);
        let number = answer.map(|answer| answer.number);
        for (buffer, name) in lists {
            self.tally.original_lists += 1;
            let wanted = &self.case.lists.get(*name);
            let right = after.lent().iter().any(|(field, lent)| {
                field == buffer
                    && match (lent, wanted) {
                        (Lent::FloatBuffer(got), Some(List::Floats(wanted))) => same_floats(got, wanted),
                        (Lent::NumberBuffer(got), Some(List::Numbers(wanted))) => {
                            got.len() >= wanted.len() && got.iter().zip(wanted).all(|(a, b)| u64::from(*a) == *b)
                        }
                        _ => false,
                    }
            });
            if !right || number != Some(0) {
                self.differs(&before, name);
            }
        }
        after
    }

    fn differs(&mut self, call: &Call, name: &str) {
        let original = format!("{:?}", self.case.lists.get(name));
        self.tally.differ(call, &[(name, "not the original's")], &[("original", original)]);
    }

    /// Compares what a row of calls answered with one list of the original.
    fn collected<T>(&mut self, call: impl Fn() -> Call, name: &str, got: &[T], wanted: &[T], equal: fn(&[T], &[T]) -> bool) {
        self.tally.original_lists += 1;
        if !equal(got, wanted) {
            self.differs(&call(), name);
        }
    }

    /// A call's answer: number, values and result.
    fn answer(&mut self, call: Call) -> (u32, Vec<u64>, Option<f64>) {
        match self.tally.compare(self.model, call).1 {
            Some(answer) => (answer.number, answer.values, answer.result),
            None => (u32::MAX, Vec::new(), None),
        }
    }

    #[rustfmt::skip]
    fn columns(&mut self, columns: &OwnColumns) {
        let columns = || columns.clone();
        let count = columns().ptrs.len() - 1;
        let (rows, out) = (|| vec![9.0; columns().nrows as usize], || vec![9.0; count]);
        self.call(Call::CheckColumns { columns: columns() }, &[]);
        let pairs = self.case.numbers("in.pairs");
        let dot = |pair: &[u64]| Call::ColumnDot { columns: columns(), a: pair[0], b: pair[1] };
        let dots: Vec<f64> = pairs.chunks_exact(2).filter_map(|pair| self.answer(dot(pair)).2).collect();
        let wanted = self.case.floats("out.dot");
        self.collected(|| Call::CheckColumns { columns: columns() }, "out.dot", &dots, &wanted, same_floats);
        self.call(Call::DiagJtJ { columns: columns(), out: out().into() }, &[("out", "out.diag")]);
        self.call(Call::JtVec { columns: columns(), v: self.case.floats("in.r"), out: out().into() }, &[("out", "out.jtv")]);
        let product = Call::JtJVecProduct { columns: columns(), v: self.case.floats("in.x"), rows: rows().into(), out: out().into() };
        let lists = [("out", "out.jtj"), ("rows", "out.jtj.rows")];
        // the original's rows are not to be had where it refuses the blocks
        let had = if self.case.number("out.partition") == 0 { 2 } else { 1 };
        self.call(product, &lists[..had]);
    }

    fn damping(&self) -> Damping {
        let list = self.case.floats("in.damp");
        Damping {
            lambda: list[0],
            min: list[1],
            max: list[2],
        }
    }

    /// The terms; where the original's clamp panics, every term is refused with 12.
    fn terms(&mut self) {
        let damping = self.damping();
        let term = |value: f64| Call::DiagonalTerm { damping, value };
        let answers: Vec<_> = self.case.floats("in.h").iter().map(|value| self.answer(term(*value))).collect();
        if self.case.panicked("out.term") {
            let numbers: Vec<u32> = answers.iter().map(|answer| answer.0).collect();
            return self.collected(|| term(0.0), "out.term", &numbers, &vec![12; answers.len()], |a, b| a == b);
        }
        let terms: Vec<f64> = answers.iter().filter_map(|answer| answer.2).collect();
        let wanted = self.case.floats("out.term");
        self.collected(|| term(0.0), "out.term", &terms, &wanted, same_floats);
    }

    /// Blocks that the original refuses: the same number and column, over the same order of blocks.
    fn refused_partition(&mut self, columns: &OwnColumns) {
        let sorted = |name: &str| {
            let mut pairs: Vec<[u32; 2]> = self.case.small(name).chunks_exact(2).map(|pair| [pair[0], pair[1]]).collect();
            pairs.sort_by_key(|pair| pair[0]);
            pairs.concat()
        };
        let sides = OwnSides {
            kept: sorted("in.kept"),
            eliminated: sorted("in.elim"),
        };
        let dofs: u64 = [&sides.kept, &sides.eliminated]
            .iter()
            .flat_map(|side| side.chunks_exact(2))
            .map(|pair| u64::from(pair[1]))
            .sum();
        if dofs != self.case.number("in.cols") {
            return self
                .tally
                .leave_out("refused blocks whose dofs do not sum to the columns (the original counts columns by that sum)");
        }
        let map = vec![9; columns.ptrs.len() - 1];
        let call = Call::CheckBlocks {
            columns: columns.clone(),
            sides,
            map: map.into(),
        };
        let (number, mut got, _) = self.answer(call.clone());
        got.insert(0, number.into());
        let wanted = self.case.numbers("out.partition");
        self.collected(|| call.clone(), "out.partition", &got, &wanted, |a, b| a == b);
    }

    #[rustfmt::skip]
    fn lookups(&mut self, sides: &OwnSides) {
        let end = self.case.number("in.cols") + 2;
        let (mut slots, mut kept, mut eliminated) = (Vec::new(), Vec::new(), Vec::new());
        let slot = |column| Call::Slot { sides: sides.clone(), column };
        for column in 0..end {
            let mut answer = self.answer(slot(column)).1;
            answer.resize(3, 0);
            slots.extend(answer);
            let answer = self.answer(Call::KeptLocal { kept: sides.kept.clone(), column }).1;
            kept.push(answer.get(1).copied().unwrap_or(4_294_967_295));
            let answer = self.answer(Call::EliminatedLocal { eliminated: sides.eliminated.clone(), column }).1;
            eliminated.extend([1, 2].map(|i| answer.get(i).copied().unwrap_or(4_294_967_295)));
        }
        for (name, got) in [("out.slot", slots), ("out.klocal", kept), ("out.elocal", eliminated)] {
            let wanted = self.case.numbers(name);
            self.collected(|| slot(0), name, &got, &wanted, |a, b| a == b);
        }
        let (values, bspan) = (self.case.floats("out.gather"), self.case.numbers("out.bspan"));
        let block = |number| Call::Block { block_values: values.clone(), eliminated: sides.eliminated.clone(), number };
        let (mut got, mut wanted) = (Vec::new(), Vec::new());
        for (number, span) in bspan.chunks_exact(2).enumerate() {
            got.extend(self.answer(block(number as u64)).1);
            // an empty part is written with start 0
            wanted.extend([if span[1] == 0 { 0 } else { span[0] }, span[1] * span[1]]);
        }
        self.collected(|| block(0), "out.bspan", &got, &wanted, |a, b| a == b);
    }

    #[rustfmt::skip]
    fn blocks(&mut self, columns: &OwnColumns, sides: &OwnSides) {
        let (columns, sides, map) = (|| columns.clone(), || sides.clone(), || vec![9; columns.ptrs.len() - 1].into());
        self.call(Call::CheckBlocks { columns: columns(), sides: sides(), map: map() }, &[("map", "out.map")]);
        let gathered = self.case.floats("out.gather");
        let values = vec![9.0; gathered.len()].into();
        let gather = Call::GatherFromJacobian { columns: columns(), sides: sides(), map: map(), block_values: values };
        self.call(gather, &[("block_values", "out.gather"), ("map", "out.map")]);
        let damping = self.damping();
        let damp = Call::Damp { columns: columns(), sides: sides(), map: map(), damping, block_values: gathered.into() };
        let good_limits = damping.min <= damping.max;
        if good_limits {
            self.call(damp, &[("block_values", "out.damped")]);
        } else {
            // the original's clamp panics, but where no column is eliminated
            let number = self.answer(damp.clone()).0;
            self.collected(|| damp.clone(), "out.damped", &[number], &[12], |a, b| a == b);
            if !self.case.panicked("out.damped") {
                self.tally.leave_out("damp with bad limits where no column is eliminated (nothing happens there, 12 here, which was compared)");
            }
        }
    }

    #[rustfmt::skip]
    fn plan(&mut self, columns: &OwnColumns, sides: &OwnSides) {
        let (rows, count, entries) = (columns.nrows as usize, columns.ptrs.len() - 1, columns.rows.len());
        let chunk = self.case.number("in.L");
        let chunks = columns.nrows.div_ceil(chunk) as usize;
        let more = self.r.below(3);
        let buffer = |need: usize| vec![7; need + more].into();
        let call = Call::Plan {
            columns: columns.clone(), sides: sides.clone(), chunk,
            map: buffer(count), kept_cols: buffer(count), elim_cols: buffer(count), elim_block: buffer(count), owners: buffer(rows),
            row_lists: buffer(rows), row_starts: buffer(sides.eliminated.len() / 2 + 1),
            visible: buffer(entries), visible_starts: buffer(sides.kept.len() / 2 + 1),
            kept_starts: buffer(chunks + 1), kept_lo: buffer(entries), kept_hi: buffer(entries), kept_local: buffer(entries),
            elim_starts: buffer(chunks + 1), elim_lo: buffer(entries), elim_hi: buffer(entries), elim_local: buffer(entries),
        };
        let lists = [
            ("map", "out.map"), ("kept_cols", "out.kcols"), ("elim_cols", "out.ecols"), ("elim_block", "out.eblock"), ("owners", "out.owner"),
            ("row_starts", "out.rstart"), ("row_lists", "out.rlist"), ("visible_starts", "out.vstart"), ("visible", "out.vlist"),
            ("kept_starts", "out.kstart"), ("kept_lo", "out.klo"), ("kept_hi", "out.khi"), ("kept_local", "out.kloc"),
            ("elim_starts", "out.estart"), ("elim_lo", "out.elo"), ("elim_hi", "out.ehi"), ("elim_local", "out.eloc"),
        ];
        let wanted = self.case.numbers("out.plan");
        let (number, mut got, _) = self.answer(call.clone());
        got.insert(0, number.into());
        self.collected(|| call.clone(), "out.plan", &got, &wanted, |a, b| a == b);
        if wanted.first() == Some(&0) {
            self.call(call, &lists);
        }
    }

    #[rustfmt::skip]
    fn products(&mut self, columns: &OwnColumns, sides: &OwnSides) {
        let (count, rows) = (columns.ptrs.len() - 1, columns.nrows as usize);
        let (columns, sides, map) = (|| columns.clone(), || sides.clone(), || vec![9; count].into());
        let f = |name: &str| self.case.floats(name);
        let some = |n: usize| vec![9.0; n].into();
        let (kept, elim) = (f("in.v").len(), f("in.u").len());
        let calls: [(Call, &[(&str, &str)]); 4] = [
            (Call::ApplyEliminatedInverse {
                columns: columns(), sides: sides(), map: map(), b: f("in.rhs"), inverses: f("in.inv"), out: some(elim),
            }, &[("out", "out.inv")]),
            (Call::CouplingTimes { columns: columns(), sides: sides(), map: map(), u: f("in.u"), rows: some(rows), out: some(kept) },
                &[("out", "out.ct"), ("rows", "out.ct.rows")]),
            (Call::CouplingTransposeTimes { columns: columns(), sides: sides(), map: map(), v: f("in.v"), rows: some(rows), out: some(elim) },
                &[("out", "out.ctt"), ("rows", "out.ctt.rows")]),
            (Call::CombineUpdates { columns: columns(), sides: sides(), map: map(), kept_v: f("in.dk"), elim_v: f("in.de"), out: some(count) },
                &[("out", "out.update")]),
        ];
        for (call, lists) in calls {
            self.call(call, lists);
        }
    }

    /// The sweeps and the operator over the spans of one prefix, against the answers of another.
    fn over_spans(&mut self, columns: &OwnColumns, sides: &OwnSides, spans: &str, out: &str) {
        let (case, rows) = (self.case, columns.nrows as usize);
        let chunk = case.number("in.L");
        let map = || vec![9; columns.ptrs.len() - 1].into();
        let list = |name: &str| case.small(&format!("{spans}{name}"));
        let name = |rest: &str| format!("{out}{rest}");
        self.sweep(columns, sides, spans, Side::Kept, vec![9.0; rows], &name("ksweep"));
        self.sweep(columns, sides, spans, Side::Eliminated, case.floats("in.lent"), &name("esweep"));
        let (kept, elim) = (case.floats("in.v").len(), case.floats("in.u").len());
        for (d, which) in [(Vec::new(), "op"), (case.floats("in.d"), "opd")] {
            let operator = Call::ApplySchurOperator {
                columns: columns.clone(),
                sides: sides.clone(),
                map: map(),
                chunk,
                v: case.floats("in.v"),
                inverses: case.floats("in.inv"),
                d,
                kept_starts: list("kstart"),
                kept_lo: list("klo"),
                kept_hi: list("khi"),
                kept_local: list("kloc"),
                elim_starts: list("estart"),
                elim_lo: list("elo"),
                elim_hi: list("ehi"),
                elim_local: list("eloc"),
                rows: vec![9.0; rows].into(),
                t: vec![9.0; elim].into(),
                u: vec![9.0; elim].into(),
                out: vec![9.0; kept].into(),
            };
            let names = ["rows", "t", "u", "out"].map(|rest| name(&format!("{which}.{rest}")));
            let lists = [("rows", &*names[0]), ("t", &*names[1]), ("u", &*names[2]), ("out", &*names[3])];
            self.call(operator, &lists);
        }
    }

    /// One side's sweep along a random work order and, where there are few spans, the same order step by step.
    fn sweep(&mut self, columns: &OwnColumns, sides: &OwnSides, spans: &str, side: Side, lent: Vec<f64>, wanted: &str) {
        let (case, chunk) = (self.case, self.case.number("in.L"));
        let (letter, v) = match side {
            Side::Kept => ("k", case.floats("in.v")),
            Side::Eliminated => ("e", case.floats("in.u")),
        };
        let list = |name: &str| case.small(&format!("{spans}{letter}{name}"));
        let (starts, lo, hi, local) = (list("start"), list("lo"), list("hi"), list("loc"));
        let mut order: Vec<u32> = Vec::new();
        for (c, pair) in starts.windows(2).enumerate() {
            order.extend(vec![c as u32; pair[1].saturating_sub(pair[0]) as usize]);
        }
        self.r.shuffle(&mut order);
        let (columns, sides) = (|| columns.clone(), || sides.clone());
        let map = || vec![9; columns().ptrs.len() - 1].into();
        let progress = vec![9; starts.len().saturating_sub(1)];
        let call = Call::Sweep {
            side,
            columns: columns(),
            sides: sides(),
            map: map(),
            chunk,
            v: v.clone(),
            starts: starts.clone(),
            lo: lo.clone(),
            hi: hi.clone(),
            local: local.clone(),
            rows: lent.clone().into(),
            progress: progress.clone().into(),
            order: order.clone(),
        };
        self.call(call, &[("rows", wanted)]);
        if order.is_empty() || order.len() > 24 || !self.r.chance(25) {
            return;
        }
        let start = if side == Side::Kept { vec![0.0; lent.len()] } else { lent };
        let mut step = Call::Step {
            side,
            columns: columns(),
            sides: sides(),
            map: map(),
            chunk,
            v,
            starts,
            lo,
            hi,
            local,
            rows: start.into(),
            progress: vec![0; progress.len()].into(),
            chunk_number: 0,
        };
        for (place, c) in order.iter().enumerate() {
            if let Call::Step { chunk_number, .. } = &mut step {
                *chunk_number = (*c).into();
            }
            let lists = [("rows", wanted)];
            let last = place + 1 == order.len();
            step = self.call(step, if last { &lists } else { &[] });
        }
    }
}
