//! Compares the port with the original and with a plain model, at random and at scale.
//!
//!     compare [SEED] [COUNT]          COUNT problems of the original (ORACLE names its program) and COUNT damaged calls
//!     compare damaged [SEED] [COUNT]  the damaged calls alone
//!     compare fuzz [SEED] [COUNT]     COUNT calls, smaller and wilder
//!
//! A fresh seed comes from the clock. The exit status is 1 if anything differs, 2 if it could not run.

use pivotfern_tools::compare::accepted::accepted;
use pivotfern_tools::compare::{damaged, Kind, Tally};
use pivotfern_tools::model::Model;
use std::process::ExitCode;
use std::time::{SystemTime, UNIX_EPOCH};

fn main() -> ExitCode {
    let mut words: Vec<String> = std::env::args().skip(1).collect();
    let part = match words.first().map(String::as_str) {
        Some("damaged" | "fuzz") => words.remove(0),
        _ => "all".to_string(),
    };
    let mut numbers = Vec::new();
    for word in &words {
        match word.parse::<u64>() {
            Ok(number) => numbers.push(number),
            Err(_) => return failed(&format!("'{word}' is no number; usage: compare [damaged|fuzz] [SEED] [COUNT]")),
        }
    }
    let clock = SystemTime::now()
        .duration_since(UNIX_EPOCH)
        .map_or(0, |time| time.as_millis() as u64);
    let seed = numbers.first().copied().unwrap_or(clock);
    let usual = if part == "fuzz" { 1_000_000 } else { 100_000 };
    let count = numbers.get(1).copied().unwrap_or(usual);
    println!("seed {seed}, count {count}");
    let model = Model::default();
    let mut differences = 0;
    if part == "all" {
        let Ok(oracle) = std::env::var("ORACLE") else {
            return failed(
                "ORACLE should name the program of the original (oracle/README.md); `compare damaged` and `compare fuzz` do without",
            );
        };
        match accepted(&oracle, &model, seed, count) {
            Ok(tally) => differences += told("accepted", &tally),
            Err(error) => return failed(&format!("{oracle}: {error}")),
        }
    }
    let kind = if part == "fuzz" { Kind::Fuzz } else { Kind::Damaged };
    let name = if part == "fuzz" { "fuzz" } else { "damaged" };
    differences += told(name, &damaged(kind, &model, seed, count));
    println!("differences: {differences}");
    ExitCode::from(u8::from(differences > 0))
}

/// Prints one part's figures and its first differences.
fn told(part: &str, tally: &Tally) -> u64 {
    print!("{}", tally.report(part));
    for case in &tally.shown {
        print!("\n{case}\n");
    }
    tally.differences
}

fn failed(message: &str) -> ExitCode {
    eprintln!("compare: {message}");
    ExitCode::from(2)
}
