//! Case files and their answers. Each NAME.txt of the folder cases has its answers in NAME.answers and, where it is wrong, its message in
//! NAME.error. The answers were written by hand from document 01, and so was every figure below.

use pivotfern_tools::answer::{answer_cases, tool};
use pivotfern_tools::case::{Call, Lines};
use std::collections::BTreeSet;
use std::fs;
use std::path::PathBuf;

/// What the tool writes, its message and its exit status.
fn answer(input: &[u8]) -> (String, String, u8) {
    let (mut out, mut error) = (Vec::new(), Vec::new());
    let status = tool(input, &mut out, &mut error);
    (String::from_utf8(out).unwrap(), String::from_utf8(error).unwrap(), status)
}

/// The lines that are no comment and not blank.
fn plain(text: &str) -> Vec<&str> {
    text.lines().filter(|line| !line.is_empty() && !line.starts_with('#')).collect()
}

fn case_files() -> Vec<PathBuf> {
    let folder = PathBuf::from(env!("CARGO_MANIFEST_DIR")).join("tests/cases");
    let paths = fs::read_dir(folder).unwrap().map(|file| file.unwrap().path());
    let mut cases: Vec<_> = paths.filter(|path| path.extension().is_some_and(|e| e == "txt")).collect();
    cases.sort();
    cases
}

#[test]
fn files() {
    let names: Vec<_> = case_files()
        .iter()
        .map(|path| path.file_stem().unwrap().to_str().unwrap().to_string())
        .collect();
    assert_eq!(names, ["bad_count", "bad_end", "bad_name", "calls", "hall", "refusals"]);
    for path in case_files() {
        let (out, error, status) = answer(&fs::read(&path).unwrap());
        let expected = fs::read_to_string(path.with_extension("answers")).unwrap();
        for (i, (got, wanted)) in plain(&out).iter().zip(plain(&expected)).enumerate() {
            assert_eq!(*got, wanted, "{}, line {} of the answers, without comments", path.display(), i + 1);
        }
        assert_eq!(plain(&out).len(), plain(&expected).len(), "{}", path.display());
        let message = fs::read_to_string(path.with_extension("error")).unwrap_or_default();
        assert_eq!(error, message, "{}", path.display());
        assert_eq!(status, if message.is_empty() { 0 } else { 2 });
    }
}

// Every call of the table and every number of document 01 stands in some file.
#[test]
fn nothing_is_left_out() {
    let (mut calls, mut numbers) = (BTreeSet::new(), BTreeSet::new());
    for path in case_files() {
        for line in fs::read_to_string(&path).unwrap().lines() {
            calls.extend(line.strip_prefix("call ").map(str::to_string));
        }
        for line in fs::read_to_string(path.with_extension("answers")).unwrap().lines() {
            let number = line.strip_prefix("answer ").and_then(|rest| rest.split(' ').next());
            numbers.extend(number.map(|n| n.parse::<u32>().unwrap()));
        }
    }
    assert_eq!(calls, Call::NAMES.iter().map(|name| name.to_string()).collect());
    assert_eq!(numbers, (0..=14).collect());
}

// A call that is read and written down again is the same text.
#[test]
fn read_and_written() {
    for path in case_files().iter().filter(|path| !path.with_extension("error").exists()) {
        let text = fs::read_to_string(path).unwrap();
        let (mut lines, mut out) = (Lines::new(text.as_bytes()), Vec::new());
        while let Some(call) = Call::read(&mut lines).unwrap() {
            call.write(&mut out).unwrap();
        }
        assert_eq!(plain(&String::from_utf8(out).unwrap()), plain(&text));
    }
}

#[test]
fn nothing_to_answer() {
    for empty in ["", "\n", "# only a comment\n\n", "#"] {
        assert_eq!(answer(empty.as_bytes()), (String::new(), String::new(), 0));
    }
}

const LOCAL: &str = "call kept_local\nu kept 2 0 1\nu column 1 0\nend\n";

// Comments, blank lines, line ends of other systems and a missing last line end are passed over.
#[test]
fn passed_over() {
    let answered = ("answer 0 1 0\nend\n".to_string(), String::new(), 0);
    assert_eq!(answer(LOCAL.as_bytes()), answered);
    assert_eq!(answer(LOCAL.trim_end().as_bytes()), answered);
    assert_eq!(answer(LOCAL.replace('\n', "\r\n").as_bytes()), answered);
    assert_eq!(answer(LOCAL.replace('\n', "\n\n# a comment\n").as_bytes()), answered);
    assert_eq!(
        answer(b"# M\xfcnchen\ncall kept_local\nu kept 2 0 1\nu column 1 0\nend\n"),
        answered
    );
}

// Errors of the file: what is put in the place of what, and the message.
#[test]
fn file_errors() {
    let term = "call diagonal_term\nf damping 3 3ff0000000000000 0000000000000000 4000000000000000\nf value 1 3ff0000000000000\nend\n";
    let sweep = "call sweep\nu side 1 0\n";
    let table: [(&str, &str, &str, &str); 22] = [
        (LOCAL, "call kept_local", "call local_kept", "line 1: no call is named 'local_kept'"),
        (
            LOCAL,
            "call kept_local",
            "calls kept_local",
            "line 1: 'call NAME' should stand here",
        ),
        (
            LOCAL,
            "call kept_local",
            "call  kept_local",
            "line 1: no call is named ' kept_local'",
        ),
        (LOCAL, "u kept 2 0 1\n", "", "line 2: 'u kept' should stand here"),
        (LOCAL, "u kept 2 0 1", "f kept 2 0 1", "line 2: 'u kept' should stand here"),
        (LOCAL, "u kept 2 0 1", "u kept", "line 2: kept: '' is no count"),
        (LOCAL, "u kept 2 0 1", "u kept two 0 1", "line 2: kept: 'two' is no count"),
        (LOCAL, "u kept 2 0 1", "u kept 2 0  1", "line 2: kept: '' is no item of this list"),
        (
            LOCAL,
            "u kept 2 0 1",
            "u kept 2 0 1 2",
            "line 2: kept: 3 items where 2 are announced",
        ),
        (
            LOCAL,
            "u kept 2 0 1",
            "u kept 18446744073709551615 0 1",
            "line 2: kept: 2 items where 18446744073709551615 are announced",
        ),
        (
            LOCAL,
            "u kept 2 0 1",
            "u kept 2 0 4294967296",
            "line 2: kept: '4294967296' is no item of this list",
        ),
        (LOCAL, "u kept 2 0 1", "u kept 2 0 -1", "line 2: kept: '-1' is no item of this list"),
        (LOCAL, "u kept 2 0 1", "u kept 2 0 +1", "line 2: kept: '+1' is no item of this list"),
        (LOCAL, "u column 1 0", "u column 2 0 0", "line 3: column: it has 1 here"),
        (
            LOCAL,
            "u column 1 0",
            "u column 1 18446744073709551616",
            "line 3: column: '18446744073709551616' is no item of this list",
        ),
        (LOCAL, "end", "u number 1 0\nend", "line 4: 'end' should stand here"),
        (LOCAL, "end\n", "", "line 4: the file ends where 'end' should stand"),
        (
            term,
            "3ff0000000000000\nend",
            "3FF0000000000000\nend",
            "line 3: value: '3FF0000000000000' is no item of this list",
        ),
        (
            term,
            "3ff0000000000000\nend",
            "3ff000000000000\nend",
            "line 3: value: '3ff000000000000' is no item of this list",
        ),
        (
            term,
            "3ff0000000000000\nend",
            "NaN\nend",
            "line 3: value: 'NaN' is no item of this list",
        ),
        (term, "damping 3 3ff0000000000000 ", "damping 2 ", "line 2: damping: it has 3 here"),
        (sweep, "side 1 0", "side 1 2", "line 2: side: 2 is no side"),
    ];
    for (text, from, to, message) in table {
        assert!(text.contains(from), "{from}");
        let damaged = text.replacen(from, to, 1);
        assert_eq!(
            answer(damaged.as_bytes()),
            (String::new(), format!("cases: {message}\n"), 2),
            "{damaged}"
        );
        // what was answered before stays written, and lines are counted on
        let (out, error, status) = answer(format!("{LOCAL}{damaged}").as_bytes());
        assert_eq!((out.as_str(), status), ("answer 0 1 0\nend\n", 2));
        assert_ne!(error, format!("cases: {message}\n"));
    }
    let (_, error, status) = answer(b"call slot\nu kept 1 \xff\n");
    assert_eq!((error.as_str(), status), ("cases: line 2: not text\n", 2));
}

// Every single byte of a file damaged: answered or refused with a message, and never worse.
#[test]
fn damaged_bytes() {
    let path = case_files().into_iter().find(|path| path.ends_with("calls.txt")).unwrap();
    let good = fs::read(path).unwrap();
    for (place, byte) in (0..good.len()).zip(b"0919af\n #x-z\xff".iter().cycle()) {
        let mut damaged = good.clone();
        damaged[place] = *byte;
        let stopped = answer_cases(damaged.as_slice(), &mut std::io::sink());
        assert!(!matches!(stopped, Err(pivotfern_tools::answer::Stop::Answer(_))), "{stopped:?}");
    }
}
