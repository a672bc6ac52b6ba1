//! A short comparison of port and model on damaged calls, and proof that such a comparison finds something.

use pivotfern_tools::answer::{answer_cases, run};
use pivotfern_tools::case::Call;
use pivotfern_tools::compare::accepted::read_cases;
use pivotfern_tools::compare::random::Random;
use pivotfern_tools::compare::{damaged, damaged_case, Kind, Tally};
use pivotfern_tools::model::Model;
use std::collections::BTreeSet;

const SEED: u64 = 20_251;

#[test]
fn port_and_model_agree() {
    for kind in [Kind::Damaged, Kind::Fuzz] {
        let tally = damaged(kind, &Model::default(), SEED, 1_000);
        assert_eq!(tally.cases, 1_000);
        assert_eq!(tally.differences, 0, "{}", tally.shown.join("\n"));
        assert_eq!(tally.numbers.iter().sum::<u64>(), 1_000);
    }
}

// Every call and every number comes, in no more cases than these.
#[test]
fn nothing_is_left_out() {
    let (mut names, mut numbers) = (BTreeSet::new(), BTreeSet::new());
    for number in 0..3_000 {
        let mut call = damaged_case(Kind::Damaged, SEED, number);
        names.insert(call.name());
        numbers.insert(run(&mut call).unwrap().number);
    }
    assert_eq!(names, Call::NAMES.iter().copied().collect());
    assert_eq!(numbers, (0..=14).collect());
}

// A model with one fault differs: gathers that start at +0.0, and a map that is left as it was.
#[test]
fn a_fault_is_found() {
    let right = Model::default();
    let faults = [
        Model {
            gather_start: 0.0,
            ..right
        },
        Model { marks: false, ..right },
    ];
    for model in faults {
        let tally = damaged(Kind::Damaged, &model, SEED, 1_000);
        assert!(tally.differences > 0, "{model:?}");
        // what is printed is a case file
        let mut answers = Vec::new();
        assert!(!tally.shown.is_empty());
        answer_cases(tally.shown[0].as_bytes(), &mut answers).unwrap();
        assert!(answers.starts_with(b"answer "));
    }
}

// What the original answered and no export gives: its own checks of damping and its dofs. The blocks are what the port is lent.
const NOT_COMPARED: [&str; 5] = ["out.dnew", "out.identity", "out.dofs", "out.kept", "out.elim"];

/// How often the port differs from these cases of the original.
fn differences(cases: &str) -> u64 {
    let mut tally = Tally::default();
    let read = read_cases(cases.as_bytes(), &Model::default(), &mut Random(SEED), &mut tally, 0).unwrap();
    assert_eq!(read, tally.cases);
    tally.differences
}

/// The last item of a list, changed.
fn changed(line: &str) -> Option<String> {
    let (rest, last) = line.rsplit_once(' ')?;
    let mut words = line.split(' ');
    let (kind, count) = (words.nth(1)?, words.next()?);
    let item = match (kind, count) {
        (_, "0") => return None,
        ("u", _) => (last.parse::<u64>().ok()? ^ 1).to_string(),
        _ if last == "nan" => "7ff0000000000000".to_string(),
        _ => format!("{:016x}", u64::from_str_radix(last, 16).ok()? ^ 1),
    };
    Some(format!("{rest} {item}"))
}

// The original's stored answers are the port's; and with any item of any list of them changed, they are not.
#[test]
fn every_list_of_the_original_counts() {
    let text = include_str!("original/cases.txt");
    assert_eq!(differences(text), 0);
    let mut compared = BTreeSet::new();
    for case in text.split_inclusive("\nend\n") {
        let lines: Vec<&str> = case.lines().collect();
        for (i, line) in lines.iter().enumerate() {
            let name = line.split(' ').next().unwrap();
            if !name.starts_with("out.") || NOT_COMPARED.contains(&name) {
                continue;
            }
            if let Some(other) = changed(line) {
                let mut lines = lines.clone();
                lines[i] = &other;
                assert!(differences(&lines.join("\n")) > 0, "{name} is not compared: {line}");
                compared.insert(name);
            }
        }
    }
    // every answer of oracle/FORMAT.md but those
    assert_eq!(compared.len(), 57, "{compared:?}");
}
