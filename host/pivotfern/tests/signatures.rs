//! The declarations of src/ffi.rs and of ../c/pivotfern.h are those of the Rattle sources. The linker knows names only, so an export whose
//! parameters changed would link and be called wrongly. This reads the texts and compares name, parameters (a slice as pointer and length) and
//! result; and the header's answers with the numbers of the source's refusals. Each export repeats a function of the library that it passes its call on
//! to: that its parameters and clauses are that function's, word for word, is looked at too.

use std::collections::BTreeMap;
use std::fs;
use std::path::{Path, PathBuf};

/// Functions by name: their parameters and their result, each as the text of a declaration.
type Signatures = BTreeMap<String, Vec<String>>;

fn read(path: &Path) -> String {
    fs::read_to_string(path).unwrap_or_else(|e| panic!("{}: {e}", path.display()))
}

/// The text without its comments.
fn without_comments(text: &str) -> String {
    text.lines()
        .map(|line| line.split("//").next().unwrap_or(""))
        .collect::<Vec<_>>()
        .join("\n")
}

/// Every function that begins with `opening`: its name, its parameters and what stands between their end and `closing`.
fn functions<'a>(text: &'a str, opening: &str, closing: &[&str]) -> Vec<(&'a str, Vec<&'a str>, &'a str)> {
    let mut found = Vec::new();
    for part in text.split(opening).skip(1) {
        let (name, rest) = part.split_once('(').expect("a function has parameters");
        let (parameters, rest) = rest.split_once(')').expect("parameters end");
        let end = closing.iter().filter_map(|c| rest.find(c)).min().expect("a signature ends");
        let parameters = parameters.split(',').map(str::trim).filter(|p| !p.is_empty());
        found.push((name.trim(), parameters.collect(), rest[..end].trim()));
    }
    found
}

/// A parameter of an export, as Rust declares it.
fn declared(parameter: &str) -> Vec<String> {
    let (name, kind) = parameter.split_once(':').expect("a parameter has a type");
    let (name, kind) = (name.trim(), kind.trim());
    let slice = |kind: &str| kind.strip_prefix('[')?.strip_suffix(']').map(str::to_string);
    if let Some(kind) = kind.strip_prefix("&mut ") {
        match slice(kind) {
            Some(item) => vec![format!("{name}: *mut {item}"), format!("{name}_len: usize")],
            None => vec![format!("{name}: *mut {kind}")],
        }
    } else if let Some(kind) = kind.strip_prefix('&') {
        let item = slice(kind).unwrap_or_else(|| panic!("no rule for {parameter}"));
        vec![format!("{name}: *const {item}"), format!("{name}_len: usize")]
    } else {
        vec![format!("{name}: {kind}")]
    }
}

fn exports(source: &str) -> Signatures {
    let text = without_comments(source);
    let found = functions(&text, "pub extern \"C\" fn ", &["requires", "ensures", "{"]);
    let lines = found.into_iter().map(|(name, parameters, result)| {
        let mut line: Vec<String> = parameters.into_iter().flat_map(declared).collect();
        line.push(result.to_string());
        (name.to_string(), line)
    });
    lines.collect()
}

fn declarations(source: &str) -> Signatures {
    let text = without_comments(source);
    let found = functions(&text, "pub fn ", &[";"]);
    let lines = found.into_iter().map(|(name, parameters, result)| {
        let mut line: Vec<String> = parameters.into_iter().map(str::to_string).collect();
        line.push(result.to_string());
        (name.to_string(), line)
    });
    lines.collect()
}

/// The header without comments and directives.
fn plain_c(header: &str) -> String {
    let mut parts = header.split("/*");
    let mut text = parts.next().unwrap_or("").to_string();
    for part in parts {
        text.push_str(part.split_once("*/").expect("a comment ends").1);
    }
    let lines = text.lines().filter(|line| !line.trim_start().starts_with('#'));
    lines.collect::<Vec<_>>().join("\n")
}

/// A type of C as Rust names it. One that has no such name is told as it stands, and agrees with nothing.
fn c_type(name: &str) -> String {
    let known = [("size_t", "usize"), ("uint32_t", "u32"), ("uint64_t", "u64"), ("double", "f64")];
    let found = known.iter().find(|(c, _)| *c == name);
    found.map_or(format!("C's {name}"), |(_, rust)| rust.to_string())
}

/// A parameter of a prototype, as Rust declares it.
fn c_parameter(parameter: &str) -> String {
    if let Some((item, name)) = parameter.split_once('*') {
        let (item, name) = (item.trim(), name.trim());
        match item.strip_prefix("const ") {
            Some(item) => format!("{name}: *const {}", c_type(item.trim())),
            None => format!("{name}: *mut {}", c_type(item)),
        }
    } else {
        let (kind, name) = parameter.rsplit_once(' ').unwrap_or(("", parameter));
        format!("{name}: {}", c_type(kind.trim()))
    }
}

/// The prototypes of a header: all that ends in `;` and has parameters.
fn prototypes(header: &str) -> Signatures {
    let text = plain_c(header);
    let ended = text.split(';').filter_map(|part| part.trim().split_once('('));
    let lines = ended.map(|(head, rest)| {
        let (result, name) = head.trim().rsplit_once(char::is_whitespace).expect("a prototype has a result");
        let parameters = rest.strip_suffix(')').expect("parameters end").split(',');
        let mut line: Vec<String> = parameters.map(|parameter| c_parameter(parameter.trim())).collect();
        line.push(format!("-> {}", c_type(result.trim())));
        (name.to_string(), line)
    });
    lines.collect()
}

/// The refusals of the source, by number: what stands between `Refusal::` and `=> NUMBER,`.
fn refusals(source: &str) -> BTreeMap<u32, String> {
    let text = without_comments(source);
    let arms = text.split("Refusal::").skip(1).filter_map(|part| {
        let (case, rest) = part.split_once("=>")?;
        let number = rest.split(',').next()?.trim().parse().ok()?;
        let name = case.split(|c: char| !c.is_alphanumeric()).next()?;
        Some((number, name.to_string()))
    });
    arms.collect()
}

/// The answers of a header, by number, with their names written as the source's: `PIVOTFERN_TOO_BIG` as `TooBig`.
fn answers(header: &str) -> BTreeMap<u32, String> {
    let text = plain_c(header);
    let (_, rest) = text.split_once("enum pivotfern_answer {").expect("the answers are there");
    let (list, _) = rest.split_once('}').expect("the answers end");
    let named = list.split(',').map(|item| {
        let (name, number) = item.split_once('=').expect("an answer has a number");
        let words = name.trim().strip_prefix("PIVOTFERN_").expect("names have a prefix").split('_');
        let name = words.map(|word| format!("{}{}", &word[..1], word[1..].to_lowercase()));
        (number.trim().parse().expect("a number"), name.collect())
    });
    named.collect()
}

fn package() -> PathBuf {
    PathBuf::from(env!("CARGO_MANIFEST_DIR"))
}

fn source(name: &str) -> PathBuf {
    package().join("../../crates").join(name).join("src")
}

/// What a reader finds in the sources of a crate.
fn of_crate<T>(name: &str, found: impl Fn(&str) -> BTreeMap<String, T>) -> BTreeMap<String, T> {
    let mut all = BTreeMap::new();
    let folder = source(name);
    let files = fs::read_dir(&folder).unwrap_or_else(|e| panic!("{}: {e}", folder.display()));
    for file in files {
        let path = file.expect("a folder can be read").path();
        if path.extension().is_some_and(|e| e == "rt") {
            all.extend(found(&read(&path)));
        }
    }
    all
}

fn exports_of(name: &str) -> Signatures {
    of_crate(name, exports)
}

/// Every function that begins with `opening`: all that stands before its body, word by word, however its parameters stand on lines.
fn contracts(source: &str, opening: &str) -> BTreeMap<String, String> {
    let text = without_comments(source);
    let parts = text.split(opening).skip(1).map(|part| {
        let (name, _) = part.split_once('(').expect("a function has parameters");
        let (head, _) = part.split_once("\n{\n").expect("a body stands on lines of its own");
        let words = head.split_whitespace().collect::<Vec<_>>().join(" ");
        (name.trim().to_string(), words.replace("( ", "(").replace(", )", ")"))
    });
    parts.collect()
}

fn exported_contracts(source: &str) -> BTreeMap<String, String> {
    contracts(source, "#[unsafe(no_mangle)]\npub extern \"C\" fn ")
}

/// Of the functions of a library, those that are named as exports are.
fn library_contracts(source: &str) -> BTreeMap<String, String> {
    let mut all = contracts(source, "\npub fn ");
    all.retain(|name, _| name.starts_with("pivotfern_"));
    all
}

/// Names are compared first, then one by one, so that a failure shows the function.
fn assert_same<T: PartialEq + std::fmt::Debug>(declared: &BTreeMap<String, T>, exported: &BTreeMap<String, T>) {
    let names = |all: &BTreeMap<String, T>| all.keys().cloned().collect::<Vec<_>>();
    assert_eq!(names(declared), names(exported));
    for (name, signature) in exported {
        assert_eq!(&declared[name], signature, "{name}");
    }
}

/// What a test would not see, nobody would: so each text is damaged, and must then be read as something else.
fn assert_seen<T: PartialEq + std::fmt::Debug>(text: &str, read: impl Fn(&str) -> T, damages: &[(&str, &str)]) {
    let good = read(text);
    for (from, to) in damages {
        assert!(text.contains(from), "{from}");
        assert_ne!(read(&text.replacen(from, to, 1)), good, "{to}");
    }
}

#[test]
fn declarations_are_the_exports() {
    let mut exported = exports_of("edge_c");
    exported.extend(exports_of("edge_compare_c"));
    assert_eq!(exported.len(), 21, "plan, operator and update, and 18 for comparison");
    assert_same(&declarations(&read(&package().join("src/ffi.rs"))), &exported);
}

#[test]
fn exports_repeat_their_library() {
    for (library, count) in [("edge", 3), ("edge_compare", 18)] {
        let exported = of_crate(&format!("{library}_c"), exported_contracts);
        assert_eq!(exported.len(), count, "{library}");
        assert!(exported.values().all(|head| head.contains(" ensures { ")));
        assert_same(&of_crate(library, library_contracts), &exported);
    }
    let damages = [
        ("elims.now map.old", "kept.now map.old"),
        ("map: &mut [u32],", "map: &[u32],"),
        ("#[unsafe(no_mangle)]\n", ""),
    ];
    let exports = read(&source("edge_c").join("exports.rt"));
    assert_seen(&exports, exported_contracts, &damages);
}

#[test]
fn damage_is_seen() {
    let damages = [
        (
            "kept_lo: *mut u32, kept_lo_len: usize,\n        kept_hi: *mut u32, kept_hi_len: usize,",
            "kept_hi: *mut u32, kept_hi_len: usize,\n        kept_lo: *mut u32, kept_lo_len: usize,",
        ),
        ("a: usize, b: usize,", "b: usize, a: usize,"),
        ("lambda: f64, min: f64, max: f64,", "lambda: f64, max: f64, min: f64,"),
        ("out: *mut f64, out_len: usize,", "out: *mut f64,"),
        ("v: *const f64, v_len: usize,", "v: *const f32, v_len: usize,"),
        ("map: *mut u32, map_len: usize,", "map: *const u32, map_len: usize,"),
        (") -> u32;", ") -> u64;"),
        ("pub fn pivotfern_slot(", "pub fn pivotfern_slots("),
    ];
    assert_seen(&read(&package().join("src/ffi.rs")), declarations, &damages);
}

fn header() -> String {
    read(&package().join("../c/pivotfern.h"))
}

#[test]
fn the_header_has_the_exports_of_edge() {
    let exported = exports_of("edge_c");
    assert_eq!(exported.len(), 3, "plan, operator and update");
    assert_same(&prototypes(&header()), &exported);
}

#[test]
fn damage_of_the_header_is_seen() {
    let damages = [
        (
            "uint32_t *kept_lo, size_t kept_lo_len,\n    uint32_t *kept_hi, size_t kept_hi_len,",
            "uint32_t *kept_hi, size_t kept_hi_len,\n    uint32_t *kept_lo, size_t kept_lo_len,",
        ),
        ("size_t nrows,", "uint32_t nrows,"),
        ("size_t nrows,", "int nrows,"),
        ("const uint32_t *rows, size_t rows_len,", "const uint32_t *rows,"),
        ("const double *v, size_t v_len,", "const float *v, size_t v_len,"),
        ("const double *v, size_t v_len,", "double *v, size_t v_len,"),
        ("uint32_t *map, size_t map_len,", "const uint32_t *map, size_t map_len,"),
        ("uint64_t *first, uint64_t *second);", "uint64_t *second, uint64_t *first);"),
        ("uint64_t *first, uint64_t *second);", "uint32_t *first, uint32_t *second);"),
        ("uint32_t pivotfern_update(", "uint64_t pivotfern_update("),
        ("uint32_t pivotfern_update(", "uint32_t pivotfern_updates("),
        (
            "uint32_t pivotfern_update(",
            "/* */ uint32_t pivotfern_more(size_t n); uint32_t pivotfern_update(",
        ),
    ];
    assert_seen(&header(), prototypes, &damages);
}

#[test]
fn the_header_has_the_numbers_of_the_refusals() {
    let mut told = refusals(&read(&source("columns").join("refusal.rt")));
    assert_eq!(told.keys().copied().collect::<Vec<_>>(), (1..=14).collect::<Vec<_>>());
    told.insert(0, "Done".to_string());
    assert_eq!(answers(&header()), told);
    let damages = [
        ("PIVOTFERN_NO_ROOM = 6", "PIVOTFERN_NO_ROOM = 7"),
        ("PIVOTFERN_BAD_ROW = 3", "PIVOTFERN_BAD_CHUNK = 3"),
        ("PIVOTFERN_CONNECTED = 10,", ""),
    ];
    assert_seen(&header(), answers, &damages);
}

#[test]
fn exports_are_read() {
    let source = r#"
        // pub extern "C" fn not_this(x: u32) -> u32
        #[unsafe(no_mangle)]
        pub extern "C" fn f(n: usize, list: &[u32], buffer: &mut [f64], place: &mut u64) -> u32
            ensures { result ≡ 0 }
        { 0 }
    "#;
    let expected = [
        "n: usize",
        "list: *const u32",
        "list_len: usize",
        "buffer: *mut f64",
        "buffer_len: usize",
        "place: *mut u64",
        "-> u32",
    ];
    assert_eq!(exports(source)["f"], expected);
}
