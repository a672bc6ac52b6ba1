//! Reads a case file (docs/CASES.md) on standard input and answers each of its calls on standard output.

use std::io::{self, BufWriter};
use std::process::ExitCode;

fn main() -> ExitCode {
    let mut out = BufWriter::new(io::stdout().lock());
    ExitCode::from(pivotfern_tools::answer::tool(io::stdin().lock(), &mut out, &mut io::stderr()))
}
