//! The frozen cases of `crates/export_replay`, answered through the crate's functions. `oracle/README.md`
//! has the table of the functions.

mod cases;
mod leaves;
mod readers;
mod writers;

use cases::{cases, Case};
use std::fs;

/// No public function reads a feature or a payload at a given place. The iterators do, over
/// features and over payloads, and answer functions 22, 27 and 32.
const ITERATED: [u8; 2] = [21, 31];

/// Nor does one take a step at a given place, or tables.
const INNER: [u8; 7] = [33, 35, 36, 40, 41, 42, 43];

#[test]
fn every_case_has_its_answer() {
    let folder = concat!(env!("CARGO_MANIFEST_DIR"), "/../crates/export_replay");
    let stdin = fs::read(format!("{folder}/stdin")).unwrap();
    let stdout = fs::read_to_string(format!("{folder}/stdout")).unwrap();
    let cases = cases(&stdin);
    assert_eq!(cases.len(), stdout.lines().count());
    let mut compared = [0; 49];
    for (i, (case, line)) in cases.into_iter().zip(stdout.lines()).enumerate() {
        let function = case.function;
        if is_public(function) {
            let line = line.strip_prefix(&format!("{i} ")).unwrap();
            compared[usize::from(function)] += u32::from(compare(i, case, line));
        }
    }
    for function in (1..=48).filter(|function| is_public(*function)) {
        assert!(compared[usize::from(function)] > 0, "function {function} has no case");
    }
}

/// `walk` (34) is no function of the library.
fn is_public(function: u8) -> bool {
    function != 34 && !ITERATED.contains(&function) && !INNER.contains(&function)
}

/// Whether the case was compared: some can't be put into the types of the crate.
fn compare(i: usize, case: Case, line: &str) -> bool {
    let function = case.function;
    match function {
        9..=17 => assert_eq!(leaves::answer(case), line, "case {i}, function {function}"),
        6..=8 | 37..=45 => match writers::answer(case) {
            Some(answer) => assert_eq!(answer, line, "case {i}, function {function}"),
            None => return false,
        },
        _ => {
            let expected = readers::expected(function, line);
            match readers::answer(case) {
                Some(answer) => assert_eq!(answer, expected, "case {i}, function {function}"),
                None => return false,
            }
        }
    }
    true
}
