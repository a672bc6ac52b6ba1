//! Case files: calls written down with everything that was lent (docs/CASES.md). A call is read into a value that owns its lists, so it can
//! be run, kept beside another program's run of a copy, and written down again.

use crate::buffer::Buffer;
use pivotfern::{Columns, Damping, Side, Sides};
use std::fmt;
use std::io::{self, BufRead, Write};

/// Why a case file could not be read on.
#[derive(Debug)]
pub enum CaseError {
    /// The file breaks the form.
    File {
        /// The line, from 1.
        line: u64,
        /// What is wrong there.
        what: String,
    },
    /// The file could not be read.
    Io(io::Error),
}

impl fmt::Display for CaseError {
    fn fmt(&self, f: &mut fmt::Formatter) -> fmt::Result {
        match self {
            CaseError::File { line, what } => write!(f, "line {line}: {what}"),
            CaseError::Io(error) => write!(f, "cannot read: {error}"),
        }
    }
}

impl std::error::Error for CaseError {}

impl From<io::Error> for CaseError {
    fn from(error: io::Error) -> CaseError {
        CaseError::Io(error)
    }
}

/// The lines of a case file that count: comments and blank lines are passed over.
pub struct Lines<R> {
    input: R,
    number: u64,
}

impl<R: BufRead> Lines<R> {
    /// The lines of an input.
    pub fn new(input: R) -> Lines<R> {
        Lines { input, number: 0 }
    }

    /// The next line that counts, or `None` at the end.
    fn next(&mut self) -> Result<Option<String>, CaseError> {
        loop {
            let mut bytes = Vec::new();
            self.number += 1;
            if self.input.read_until(b'\n', &mut bytes)? == 0 {
                return Ok(None);
            }
            if bytes.starts_with(b"#") {
                continue;
            }
            let line = String::from_utf8(bytes).map_err(|_| self.error("not text"))?;
            let line = line.trim_ascii_end();
            if !line.is_empty() {
                return Ok(Some(line.to_string()));
            }
        }
    }

    fn error(&self, what: impl Into<String>) -> CaseError {
        CaseError::File {
            line: self.number,
            what: what.into(),
        }
    }

    /// The items of the list `name` of type `kind`, which must stand on the next line.
    fn list<T>(&mut self, kind: &str, name: &str, parse: fn(&str) -> Option<T>) -> Result<Vec<T>, CaseError> {
        let line = self
            .next()?
            .ok_or_else(|| self.error(format!("the file ends where '{kind} {name}' should stand")))?;
        let mut words = line.split(' ');
        let head = (words.next(), words.next());
        if head != (Some(kind), Some(name)) {
            return Err(self.error(format!("'{kind} {name}' should stand here")));
        }
        let count = words.next().unwrap_or("");
        let count = parse_u64(count).ok_or_else(|| self.error(format!("{name}: '{count}' is no count")))?;
        let mut items = Vec::new();
        for word in words {
            items.push(parse(word).ok_or_else(|| self.error(format!("{name}: '{word}' is no item of this list")))?);
        }
        if items.len() as u64 != count {
            return Err(self.error(format!("{name}: {} items where {count} are announced", items.len())));
        }
        Ok(items)
    }

    /// As `list`, with exactly N items.
    fn items<T, const N: usize>(&mut self, kind: &str, name: &str, parse: fn(&str) -> Option<T>) -> Result<[T; N], CaseError> {
        let items = self.list(kind, name, parse)?;
        items.try_into().map_err(|_| self.error(format!("{name}: it has {N} here")))
    }
}

fn parse_u64(word: &str) -> Option<u64> {
    let digits = word.bytes().all(|b| b.is_ascii_digit());
    digits.then(|| word.parse().ok()).flatten()
}

fn parse_u32(word: &str) -> Option<u32> {
    parse_u64(word)?.try_into().ok()
}

/// 16 lowercase hex digits of the bits, or `nan`.
fn parse_f64(word: &str) -> Option<f64> {
    if word == "nan" {
        return Some(f64::NAN);
    }
    let digits = word.bytes().all(|b| matches!(b, b'0'..=b'9' | b'a'..=b'f'));
    let bits = (word.len() == 16 && digits).then(|| u64::from_str_radix(word, 16).ok());
    bits.flatten().map(f64::from_bits)
}

fn write_numbers<T: fmt::Display>(out: &mut dyn Write, name: &str, items: &[T]) -> io::Result<()> {
    write!(out, "u {name} {}", items.len())?;
    for item in items {
        write!(out, " {item}")?;
    }
    writeln!(out)
}

/// Writes a list of floats as a line of a case file.
pub(crate) fn write_floats(out: &mut dyn Write, name: &str, items: &[f64]) -> io::Result<()> {
    write!(out, "f {name} {}", items.len())?;
    for item in items {
        if item.is_nan() {
            write!(out, " nan")?;
        } else {
            write!(out, " {:016x}", item.to_bits())?;
        }
    }
    writeln!(out)
}

/// Something that a call takes: one line of a case, or the lines of its columns or sides.
trait Argument: Sized {
    fn read<R: BufRead>(lines: &mut Lines<R>, name: &str) -> Result<Self, CaseError>;
    fn write(&self, out: &mut dyn Write, name: &str) -> io::Result<()>;
    /// Shows each of its lists, by its name in the file. A side is not shown, since it has no other values.
    fn look<'a>(&'a mut self, name: &'static str, each: &mut dyn FnMut(&'static str, Lent<'a>));
}

/// One thing that is lent to a call, to look at or to change.
#[allow(missing_docs)]
#[derive(Debug)]
pub enum Lent<'a> {
    Number(&'a mut u64),
    Float(&'a mut f64),
    Numbers(&'a mut Vec<u32>),
    Floats(&'a mut Vec<f64>),
    /// A list that the call may change.
    NumberBuffer(&'a mut Buffer<u32>),
    /// The same, of floats.
    FloatBuffer(&'a mut Buffer<f64>),
}

impl Argument for u64 {
    fn read<R: BufRead>(lines: &mut Lines<R>, name: &str) -> Result<u64, CaseError> {
        lines.items("u", name, parse_u64).map(|[n]| n)
    }
    fn write(&self, out: &mut dyn Write, name: &str) -> io::Result<()> {
        write_numbers(out, name, &[*self])
    }
    fn look<'a>(&'a mut self, name: &'static str, each: &mut dyn FnMut(&'static str, Lent<'a>)) {
        each(name, Lent::Number(self));
    }
}

impl Argument for f64 {
    fn read<R: BufRead>(lines: &mut Lines<R>, name: &str) -> Result<f64, CaseError> {
        lines.items("f", name, parse_f64).map(|[x]| x)
    }
    fn write(&self, out: &mut dyn Write, name: &str) -> io::Result<()> {
        write_floats(out, name, &[*self])
    }
    fn look<'a>(&'a mut self, name: &'static str, each: &mut dyn FnMut(&'static str, Lent<'a>)) {
        each(name, Lent::Float(self));
    }
}

impl Argument for Vec<u32> {
    fn read<R: BufRead>(lines: &mut Lines<R>, name: &str) -> Result<Vec<u32>, CaseError> {
        lines.list("u", name, parse_u32)
    }
    fn write(&self, out: &mut dyn Write, name: &str) -> io::Result<()> {
        write_numbers(out, name, self)
    }
    fn look<'a>(&'a mut self, name: &'static str, each: &mut dyn FnMut(&'static str, Lent<'a>)) {
        each(name, Lent::Numbers(self));
    }
}

impl Argument for Vec<f64> {
    fn read<R: BufRead>(lines: &mut Lines<R>, name: &str) -> Result<Vec<f64>, CaseError> {
        lines.list("f", name, parse_f64)
    }
    fn write(&self, out: &mut dyn Write, name: &str) -> io::Result<()> {
        write_floats(out, name, self)
    }
    fn look<'a>(&'a mut self, name: &'static str, each: &mut dyn FnMut(&'static str, Lent<'a>)) {
        each(name, Lent::Floats(self));
    }
}

impl Argument for Buffer<u32> {
    fn read<R: BufRead>(lines: &mut Lines<R>, name: &str) -> Result<Buffer<u32>, CaseError> {
        Vec::read(lines, name).map(Buffer::from)
    }
    fn write(&self, out: &mut dyn Write, name: &str) -> io::Result<()> {
        write_numbers(out, name, self)
    }
    fn look<'a>(&'a mut self, name: &'static str, each: &mut dyn FnMut(&'static str, Lent<'a>)) {
        each(name, Lent::NumberBuffer(self));
    }
}

impl Argument for Buffer<f64> {
    fn read<R: BufRead>(lines: &mut Lines<R>, name: &str) -> Result<Buffer<f64>, CaseError> {
        Vec::read(lines, name).map(Buffer::from)
    }
    fn write(&self, out: &mut dyn Write, name: &str) -> io::Result<()> {
        write_floats(out, name, self)
    }
    fn look<'a>(&'a mut self, name: &'static str, each: &mut dyn FnMut(&'static str, Lent<'a>)) {
        each(name, Lent::FloatBuffer(self));
    }
}

impl Argument for Side {
    fn read<R: BufRead>(lines: &mut Lines<R>, name: &str) -> Result<Side, CaseError> {
        let number = u64::read(lines, name)?;
        Side::from_number(number).ok_or_else(|| lines.error(format!("{name}: {number} is no side")))
    }
    fn write(&self, out: &mut dyn Write, name: &str) -> io::Result<()> {
        write_numbers(out, name, &[self.number()])
    }
    fn look<'a>(&'a mut self, _: &'static str, _: &mut dyn FnMut(&'static str, Lent<'a>)) {}
}

impl Argument for Damping {
    fn read<R: BufRead>(lines: &mut Lines<R>, name: &str) -> Result<Damping, CaseError> {
        let [lambda, min, max] = lines.items("f", name, parse_f64)?;
        Ok(Damping { lambda, min, max })
    }
    fn write(&self, out: &mut dyn Write, name: &str) -> io::Result<()> {
        write_floats(out, name, &[self.lambda, self.min, self.max])
    }
    fn look<'a>(&'a mut self, _: &'static str, each: &mut dyn FnMut(&'static str, Lent<'a>)) {
        each("lambda", Lent::Float(&mut self.lambda));
        each("min", Lent::Float(&mut self.min));
        each("max", Lent::Float(&mut self.max));
    }
}

/// Columns that a call owns.
#[derive(Clone, Debug, Default)]
pub struct OwnColumns {
    /// How many rows there are.
    pub nrows: u64,
    /// Where each column begins, and the end.
    pub ptrs: Vec<u32>,
    /// Each entry's row.
    pub rows: Vec<u32>,
    /// Each entry's value.
    pub values: Vec<f64>,
}

impl OwnColumns {
    /// The same, lent.
    #[must_use]
    pub fn lend(&self) -> Columns<'_> {
        Columns {
            nrows: self.nrows as usize,
            ptrs: &self.ptrs,
            rows: &self.rows,
            values: &self.values,
        }
    }
}

impl Argument for OwnColumns {
    fn read<R: BufRead>(lines: &mut Lines<R>, _: &str) -> Result<OwnColumns, CaseError> {
        Ok(OwnColumns {
            nrows: Argument::read(lines, "row_count")?,
            ptrs: Argument::read(lines, "ptrs")?,
            rows: Argument::read(lines, "row_numbers")?,
            values: Argument::read(lines, "values")?,
        })
    }
    fn write(&self, out: &mut dyn Write, _: &str) -> io::Result<()> {
        self.nrows.write(out, "row_count")?;
        self.ptrs.write(out, "ptrs")?;
        self.rows.write(out, "row_numbers")?;
        self.values.write(out, "values")
    }
    fn look<'a>(&'a mut self, _: &'static str, each: &mut dyn FnMut(&'static str, Lent<'a>)) {
        self.nrows.look("row_count", each);
        self.ptrs.look("ptrs", each);
        self.rows.look("row_numbers", each);
        self.values.look("values", each);
    }
}

/// Sides that a call owns.
#[derive(Clone, Debug, Default)]
pub struct OwnSides {
    /// The kept blocks.
    pub kept: Vec<u32>,
    /// The eliminated blocks.
    pub eliminated: Vec<u32>,
}

impl OwnSides {
    /// The same, lent.
    #[must_use]
    pub fn lend(&self) -> Sides<'_> {
        Sides {
            kept: &self.kept,
            eliminated: &self.eliminated,
        }
    }
}

impl Argument for OwnSides {
    fn read<R: BufRead>(lines: &mut Lines<R>, _: &str) -> Result<OwnSides, CaseError> {
        Ok(OwnSides {
            kept: Argument::read(lines, "kept")?,
            eliminated: Argument::read(lines, "eliminated")?,
        })
    }
    fn write(&self, out: &mut dyn Write, _: &str) -> io::Result<()> {
        self.kept.write(out, "kept")?;
        self.eliminated.write(out, "eliminated")
    }
    fn look<'a>(&'a mut self, _: &'static str, each: &mut dyn FnMut(&'static str, Lent<'a>)) {
        self.kept.look("kept", each);
        self.eliminated.look("eliminated", each);
    }
}

// The table of calls, once: it gives the enum, the reader and both writers. A field has its list's name in the file, and `= after` marks the
// buffers that the call may change, which an answer repeats.
macro_rules! calls {
    (@buffer $out:ident $field:ident after) => {
        $field.write($out, stringify!($field))?;
    };
    (@buffer $out:ident $field:ident) => {
        let _ = $field;
    };
    ($($(#[$doc:meta])* $variant:ident $name:literal { $($field:ident: $kind:ty $(= $after:ident)?),* })*) => {
        /// A call with everything that is lent to it. The fields are the arguments of docs/CASES.md, by name and in order.
        #[allow(missing_docs)]
        #[derive(Clone, Debug)]
        pub enum Call {
            $($(#[$doc])* $variant { $($field: $kind),* },)*
        }

        impl Call {
            /// The names of all calls.
            pub const NAMES: &'static [&'static str] = &[$($name),*];

            /// The call's name in a case file.
            pub fn name(&self) -> &'static str {
                match self {
                    $(Call::$variant { .. } => $name,)*
                }
            }

            fn read_arguments<R: BufRead>(name: &str, lines: &mut Lines<R>) -> Result<Call, CaseError> {
                match name {
                    $($name => Ok(Call::$variant { $($field: Argument::read(lines, stringify!($field))?),* }),)*
                    _ => Err(lines.error(format!("no call is named '{name}'"))),
                }
            }

            fn write_arguments(&self, out: &mut dyn Write) -> io::Result<()> {
                match self {
                    $(Call::$variant { $($field),* } => { $($field.write(out, stringify!($field))?;)* })*
                }
                Ok(())
            }

            /// Everything that is lent, by its name in the file.
            pub fn lent(&mut self) -> Vec<(&'static str, Lent<'_>)> {
                let mut all = Vec::new();
                match self {
                    $(Call::$variant { $($field),* } => {
                        $($field.look(stringify!($field), &mut |name, lent| all.push((name, lent)));)*
                    })*
                }
                all
            }

            /// Writes the buffers that the call may change, as they are now.
            ///
            /// # Errors
            ///
            /// What `out` says where it cannot be written to.
            pub fn write_buffers(&self, out: &mut dyn Write) -> io::Result<()> {
                match self {
                    $(Call::$variant { $($field),* } => {
                        $(calls! { @buffer out $field $($after)? })*
                    })*
                }
                Ok(())
            }
        }
    };
}

calls! {
    /// The check of the columns.
    CheckColumns "check_columns" { columns: OwnColumns }
    /// The dot of two columns.
    ColumnDot "column_dot" { columns: OwnColumns, a: u64, b: u64 }
    /// `Jᵀ·v`.
    JtVec "jt_vec" { columns: OwnColumns, v: Vec<f64>, out: Buffer<f64> = after }
    /// The diagonal of `JᵀJ`.
    DiagJtJ "diag_jt_j" { columns: OwnColumns, out: Buffer<f64> = after }
    /// `Jᵀ(J·v)`.
    JtJVecProduct "jt_j_vec_product" { columns: OwnColumns, v: Vec<f64>, rows: Buffer<f64> = after, out: Buffer<f64> = after }
    /// The check of columns and blocks.
    CheckBlocks "check_blocks" { columns: OwnColumns, sides: OwnSides, map: Buffer<u32> = after }
    /// Where a column stands.
    Slot "slot" { sides: OwnSides, column: u64 }
    /// Where it stands among the kept.
    KeptLocal "kept_local" { kept: Vec<u32>, column: u64 }
    /// Where it stands among the eliminated.
    EliminatedLocal "eliminated_local" { eliminated: Vec<u32>, column: u64 }
    /// One block's part of the values.
    Block "block" { block_values: Vec<f64>, eliminated: Vec<u32>, number: u64 }
    /// The diagonal blocks of `EᵀE`.
    GatherFromJacobian "gather_from_jacobian" {
        columns: OwnColumns, sides: OwnSides, map: Buffer<u32> = after, block_values: Buffer<f64> = after
    }
    /// Damping added to every block.
    Damp "damp" {
        columns: OwnColumns, sides: OwnSides, map: Buffer<u32> = after, damping: Damping, block_values: Buffer<f64> = after
    }
    /// What damping adds to one value.
    DiagonalTerm "diagonal_term" { damping: Damping, value: f64 }
    /// The structure plan.
    Plan "plan" {
        columns: OwnColumns, sides: OwnSides, chunk: u64, map: Buffer<u32> = after,
        kept_cols: Buffer<u32> = after, elim_cols: Buffer<u32> = after, elim_block: Buffer<u32> = after,
        owners: Buffer<u32> = after, row_lists: Buffer<u32> = after, row_starts: Buffer<u32> = after,
        visible: Buffer<u32> = after, visible_starts: Buffer<u32> = after,
        kept_starts: Buffer<u32> = after, kept_lo: Buffer<u32> = after, kept_hi: Buffer<u32> = after, kept_local: Buffer<u32> = after,
        elim_starts: Buffer<u32> = after, elim_lo: Buffer<u32> = after, elim_hi: Buffer<u32> = after, elim_local: Buffer<u32> = after
    }
    /// The block inverses times a vector.
    ApplyEliminatedInverse "apply_eliminated_inverse" {
        columns: OwnColumns, sides: OwnSides, map: Buffer<u32> = after, b: Vec<f64>, inverses: Vec<f64>, out: Buffer<f64> = after
    }
    /// From the eliminated columns to the kept ones.
    CouplingTimes "coupling_times" {
        columns: OwnColumns, sides: OwnSides, map: Buffer<u32> = after, u: Vec<f64>, rows: Buffer<f64> = after, out: Buffer<f64> = after
    }
    /// From the kept columns to the eliminated ones.
    CouplingTransposeTimes "coupling_transpose_times" {
        columns: OwnColumns, sides: OwnSides, map: Buffer<u32> = after, v: Vec<f64>, rows: Buffer<f64> = after, out: Buffer<f64> = after
    }
    /// Both sides' updates put back at their columns.
    CombineUpdates "combine_updates" {
        columns: OwnColumns, sides: OwnSides, map: Buffer<u32> = after, kept_v: Vec<f64>, elim_v: Vec<f64>, out: Buffer<f64> = after
    }
    /// One side's sweep along a work order.
    Sweep "sweep" {
        side: Side, columns: OwnColumns, sides: OwnSides, map: Buffer<u32> = after, chunk: u64, v: Vec<f64>,
        starts: Vec<u32>, lo: Vec<u32>, hi: Vec<u32>, local: Vec<u32>,
        rows: Buffer<f64> = after, progress: Buffer<u32> = after, order: Vec<u32>
    }
    /// One step of a sweep.
    Step "step" {
        side: Side, columns: OwnColumns, sides: OwnSides, map: Buffer<u32> = after, chunk: u64, v: Vec<f64>,
        starts: Vec<u32>, lo: Vec<u32>, hi: Vec<u32>, local: Vec<u32>,
        rows: Buffer<f64> = after, progress: Buffer<u32> = after, chunk_number: u64
    }
    /// The reduced operator.
    ApplySchurOperator "apply_schur_operator" {
        columns: OwnColumns, sides: OwnSides, map: Buffer<u32> = after, chunk: u64, v: Vec<f64>, inverses: Vec<f64>, d: Vec<f64>,
        kept_starts: Vec<u32>, kept_lo: Vec<u32>, kept_hi: Vec<u32>, kept_local: Vec<u32>,
        elim_starts: Vec<u32>, elim_lo: Vec<u32>, elim_hi: Vec<u32>, elim_local: Vec<u32>,
        rows: Buffer<f64> = after, t: Buffer<f64> = after, u: Buffer<f64> = after, out: Buffer<f64> = after
    }
}

impl Call {
    /// The next call of a file, or `None` at its end.
    ///
    /// # Errors
    ///
    /// What breaks the form, with its line; or why the file cannot be read.
    pub fn read<R: BufRead>(lines: &mut Lines<R>) -> Result<Option<Call>, CaseError> {
        let Some(line) = lines.next()? else {
            return Ok(None);
        };
        let Some(name) = line.strip_prefix("call ") else {
            return Err(lines.error("'call NAME' should stand here"));
        };
        let call = Call::read_arguments(name, lines)?;
        match lines.next()?.as_deref() {
            Some("end") => Ok(Some(call)),
            Some(_) => Err(lines.error("'end' should stand here")),
            None => Err(lines.error("the file ends where 'end' should stand")),
        }
    }

    /// Writes the call down as a case.
    ///
    /// # Errors
    ///
    /// What `out` says where it cannot be written to.
    pub fn write(&self, out: &mut dyn Write) -> io::Result<()> {
        writeln!(out, "call {}", self.name())?;
        self.write_arguments(out)?;
        writeln!(out, "end")
    }
}
