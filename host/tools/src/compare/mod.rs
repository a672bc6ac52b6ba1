//! The comparison: the port beside the model on every call, and beside the original on problems that it accepts. Floats are compared by
//! their bits, every NaN as one NaN. Every buffer lies between guards, and nothing that is lent to be read may change.

pub mod accepted;
pub mod draw;
pub mod random;

use crate::answer::{run, Answer};
use crate::buffer::Guarded;
use crate::case::{Call, Lent};
use crate::model::Model;
use random::{Random, Size};
use std::collections::BTreeMap;
use std::fmt::Write;
use std::time::Instant;

/// How many differences are printed.
const SHOWN: usize = 5;

/// What was compared and what came of it.
#[derive(Debug)]
pub struct Tally {
    /// Cases: random calls, or problems of the original.
    pub cases: u64,
    /// Calls of the port.
    pub calls: u64,
    /// Lists, numbers and answers that were compared with the model.
    pub lists: u64,
    /// Lists that were compared with the original.
    pub original_lists: u64,
    /// Calls or lists that differ.
    pub differences: u64,
    /// How often each answer number came from the port.
    pub numbers: [u64; 15],
    /// The same, call by call.
    pub calls_numbers: BTreeMap<&'static str, [u64; 15]>,
    /// What was left out, and how often.
    pub left_out: BTreeMap<&'static str, u64>,
    /// The first differences, as case files.
    pub shown: Vec<String>,
    started: Instant,
    told: u64,
}

impl Default for Tally {
    fn default() -> Tally {
        Tally {
            cases: 0,
            calls: 0,
            lists: 0,
            original_lists: 0,
            differences: 0,
            numbers: [0; 15],
            calls_numbers: BTreeMap::new(),
            left_out: BTreeMap::new(),
            shown: Vec::new(),
            started: Instant::now(),
            told: 0,
        }
    }
}

/// The same number, or NaN both.
fn same(a: f64, b: f64) -> bool {
    a.to_bits() == b.to_bits() || (a.is_nan() && b.is_nan())
}

/// The same length and the same numbers.
fn same_floats(a: &[f64], b: &[f64]) -> bool {
    a.len() == b.len() && a.iter().zip(b).all(|(a, b)| same(*a, *b))
}

/// Number, values, result and part are the same.
fn same_answer(a: &Answer, b: &Answer) -> bool {
    let result = match (a.result, b.result) {
        (Some(a), Some(b)) => same(a, b),
        (a, b) => a.is_none() && b.is_none(),
    };
    let part = match (&a.part, &b.part) {
        (Some(a), Some(b)) => same_floats(a, b),
        (a, b) => a.is_none() && b.is_none(),
    };
    a.number == b.number && a.values == b.values && result && part
}

/// What is wrong with one thing that was lent, after the call: `port` beside `model`, which changes nothing but buffers.
fn wrong(port: &Lent, model: &Lent) -> Option<&'static str> {
    let bits = |a: &[f64], b: &[f64]| a.len() == b.len() && a.iter().zip(b).all(|(a, b)| a.same_bits(*b));
    let (whole, right) = match (port, model) {
        (Lent::Number(a), Lent::Number(b)) => (true, a == b),
        (Lent::Float(a), Lent::Float(b)) => (true, a.same_bits(**b)),
        (Lent::Numbers(a), Lent::Numbers(b)) => (true, a == b),
        (Lent::Floats(a), Lent::Floats(b)) => (true, bits(a, b)),
        (Lent::NumberBuffer(a), Lent::NumberBuffer(b)) => (a.guards_hold(), ***a == ***b),
        (Lent::FloatBuffer(a), Lent::FloatBuffer(b)) => (a.guards_hold(), same_floats(a, b)),
        _ => (true, false),
    };
    match (whole, right) {
        (false, _) => Some("a guard was touched"),
        (_, false) => Some("it differs"),
        _ => None,
    }
}

impl Tally {
    /// Runs a call in the port and in the model and compares all that they say and leave. Gives the call as the port left it, and its answer.
    pub fn compare(&mut self, model: &Model, call: Call) -> (Call, Option<Answer>) {
        let (mut port, mut plain) = (call.clone(), call.clone());
        let got = run(&mut port);
        let wanted = model.answer(&mut plain);
        self.calls += 1;
        let mut faults = Vec::new();
        match &got {
            Ok(answer) => {
                self.numbers[answer.number as usize] += 1;
                self.calls_numbers.entry(call.name()).or_default()[answer.number as usize] += 1;
                if !same_answer(answer, &wanted) {
                    faults.push(("answer", "it differs"));
                }
            }
            Err(_) => faults.push(("answer", "document 01 does not have it")),
        }
        let (a, b) = (port.lent(), plain.lent());
        self.lists += 1 + a.len() as u64;
        faults.extend(
            a.iter()
                .zip(&b)
                .filter_map(|((name, a), (_, b))| wrong(a, b).map(|what| (*name, what))),
        );
        if !faults.is_empty() {
            let port_text = got.as_ref().map_or_else(|error| error.to_string(), |answer| answer.text(&port));
            self.differ(&call, &faults, &[("port", port_text), ("model", wanted.text(&plain))]);
        }
        (port, got.ok())
    }

    /// Counts a difference, and keeps the call for printing if it is one of the first.
    fn differ(&mut self, call: &Call, faults: &[(&str, &str)], texts: &[(&str, String)]) {
        self.differences += 1;
        if self.shown.len() >= SHOWN {
            return;
        }
        let mut text = String::new();
        for (name, what) in faults {
            let _ = writeln!(text, "# {name}: {what}");
        }
        let mut case = Vec::new();
        call.write(&mut case).expect("memory takes what is written");
        text.push_str(&String::from_utf8_lossy(&case));
        for (who, answer) in texts {
            for line in answer.lines() {
                let _ = writeln!(text, "# {who}: {line}");
            }
        }
        self.shown.push(text);
    }

    /// Counts something that is left out.
    fn leave_out(&mut self, why: &'static str) {
        *self.left_out.entry(why).or_default() += 1;
    }

    /// A line on standard error every five seconds.
    pub fn progress(&mut self, part: &str, count: u64) {
        let seconds = self.started.elapsed().as_secs();
        if seconds >= self.told + 5 {
            self.told = seconds;
            eprintln!(
                "{part}: {} of {count} cases, {} differences, {seconds} s",
                self.cases, self.differences
            );
        }
    }

    /// The figures of one part, as lines.
    #[must_use]
    pub fn report(&self, part: &str) -> String {
        let mut text = String::new();
        let _ = writeln!(
            text,
            "{part}: {} cases, {} calls of the port, {} differences",
            self.cases, self.calls, self.differences
        );
        let _ = writeln!(text, "  compared with the model: {} lists, numbers and answers", self.lists);
        if self.original_lists > 0 {
            let _ = writeln!(text, "  compared with the original: {} lists", self.original_lists);
        }
        let line = |name: &str, counts: &[u64; 15]| format!("  {name:25}{}\n", counts.map(|count| format!(" {count:>7}")).concat());
        text += &line("answers by number", &std::array::from_fn(|number| number as u64));
        text += &line("all", &self.numbers);
        for (name, counts) in &self.calls_numbers {
            text += &line(name, counts);
        }
        for (why, count) in &self.left_out {
            let _ = writeln!(text, "  left out, {count} times: {why}");
        }
        text
    }
}

/// What kind of damaged cases to draw.
#[derive(Clone, Copy, Debug, PartialEq, Eq)]
pub enum Kind {
    /// Rows to 40, columns 1 to 12, none to three things damaged.
    Damaged,
    /// Rows to 6, columns 0 to 4, none to twenty things damaged.
    Fuzz,
}

/// The damaged case of this number.
#[must_use]
pub fn damaged_case(kind: Kind, seed: u64, number: u64) -> Call {
    let mut r = Random(Random(seed).bits() ^ number.wrapping_mul(0x2545_f491_4f6c_dd1d));
    let (size, damages): (Size, &[usize]) = match kind {
        Kind::Damaged => (
            Size {
                rows: 40,
                least_columns: 1,
                columns: 12,
            },
            &[0, 0, 1, 1, 1, 1, 2, 3],
        ),
        Kind::Fuzz => (
            Size {
                rows: 6,
                least_columns: 0,
                columns: 4,
            },
            &[0, 1, 1, 1, 2, 2, 3, 6, 20],
        ),
    };
    // one in 2,000 of the larger ones stands at a limit
    if kind == Kind::Damaged && number % 2_000 == 1_999 {
        return draw::limit_call(&mut r);
    }
    let mut call = draw::good_call(&mut r, size);
    for _ in 0..r.one(damages) {
        draw::damage(&mut r, &mut call);
    }
    call
}

/// Compares port and model on so many damaged cases.
#[must_use]
pub fn damaged(kind: Kind, model: &Model, seed: u64, count: u64) -> Tally {
    let mut tally = Tally::default();
    for number in 0..count {
        tally.compare(model, damaged_case(kind, seed, number));
        tally.cases += 1;
        tally.progress(if kind == Kind::Fuzz { "fuzz" } else { "damaged" }, count);
    }
    tally
}
