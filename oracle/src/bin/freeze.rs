//! Writes a fixed list of cases and, one line each, the answers to them: the Rust's, and document 01's
//! where the Rust cannot tell. `freeze CASES ANSWERS NAME..` with the names of two files, and of
//! functions or groups of them.

use oracle::answer::{Answer, Value};
use oracle::case::{hex, Case};
use oracle::functions::{named, Function};
use oracle::kinds::EDGES;
use oracle::rng::Rng;
use std::fs;
use std::process::ExitCode;

/// The seed of the cases beside each function's boundaries.
const SEED: u64 = 7693;
/// How many cases each other kind gives at most; fewer where the file would be too long.
const PER_KIND: usize = 6;
/// The most cases of a function among which no two slots are still the same in every case.
const MOST_CASES: usize = 1_000;
/// How many cases of each function, at least, are no refusals.
const ACCEPTED: usize = 10;
/// The longest input beside a function's boundaries, and the longest file, that `crates/export_replay` takes.
const LONGEST_INPUT: usize = 400;
const LONGEST_FILE: usize = 260_000;
/// The longest output that it has.
const MOST_ROOM: u64 = 640;
/// What each slot of a result array, and each byte of an output, holds before a call.
const SLOT: u64 = 7;
const BYTE: u8 = 0xa5;
/// The refusals of the writers of entries and frames that take more than 16,388,608 bytes.
const LONG: [u8; 2] = [3, 7];

fn main() -> ExitCode {
    let words: Vec<String> = std::env::args().skip(1).collect();
    match &words[..] {
        [cases, answers, names @ ..] if are_known(names) => {
            let rows: Vec<Function> = names.iter().flat_map(|name| named(name)).collect();
            write(cases, answers, &rows);
            ExitCode::SUCCESS
        }
        _ => {
            eprintln!("freeze CASES ANSWERS NAME..");
            ExitCode::from(2)
        }
    }
}

fn are_known(names: &[String]) -> bool {
    !names.is_empty() && names.iter().all(|name| !named(name).is_empty())
}

fn write(cases_file: &str, answers_file: &str, rows: &[Function]) {
    let mut lists = (1..=PER_KIND).rev().map(|per_kind| files(rows, per_kind));
    let fitting = lists.find(|(cases, _)| cases.len() <= LONGEST_FILE);
    let (cases, answers) = fitting.expect("cases that fit a file");
    fs::write(cases_file, &cases).expect("the cases are written");
    fs::write(answers_file, &answers).expect("the answers are written");
    let count = answers.lines().count();
    println!("{count} cases, {} bytes of cases, {} bytes of answers", cases.len(), answers.len());
}

/// A file of cases and the file of the answers to them.
fn files(rows: &[Function], per_kind: usize) -> (Vec<u8>, String) {
    let mut cases = vec![];
    let mut answers = String::new();
    let mut count = 0;
    for f in rows {
        for (case, answer) in chosen(f, per_kind) {
            let input = case.layout(f.words.len());
            cases.push(f.number);
            cases.extend_from_slice(&(input.len() as u16).to_le_bytes());
            cases.extend_from_slice(&input);
            answers += &format!("{count} {}\n", line(f, &case, &answer));
            count += 1;
        }
    }
    (cases, answers)
}

/// How a file of answers tells an answer: of a function that has no place its result; otherwise the
/// number, then the result array; of a writer the output too.
fn line(f: &Function, case: &Case, answer: &Answer) -> String {
    let number = if let Answer::Refused(number) = answer { *number } else { 0 };
    match f.number {
        9..=17 => answer.to_string(),
        _ if is_writer(f) => {
            let (end, output) = output(case, answer);
            format!("{number} {end} {}", hex(&output))
        }
        _ => {
            let slots = array(f.number, answer).unwrap_or(vec![SLOT; slots(f.number)]);
            format!("{number} {}", Value::counted(slots, []))
        }
    }
}

/// Where a writer ended, and its output.
fn output(case: &Case, answer: &Answer) -> (u64, Vec<u8>) {
    let mut output = vec![BYTE; case.place(1)];
    match answer {
        Answer::Reached(Value::Bytes(bytes), end) => {
            output[case.place(0)..*end as usize].copy_from_slice(bytes);
            (*end, output)
        }
        Answer::Refused(_) => (SLOT, output),
        other => unreachable!("{other} of a writer"),
    }
}

/// How many slots a reader's result array has.
fn slots(function: u8) -> usize {
    match function {
        19 | 30 | 47 => 1,
        1..=3 | 23 | 24 => 2,
        4 | 5 => 3,
        21 | 22 | 25 | 26 | 32 | 48 => 4,
        27 | 28 | 31 => 5,
        33 => 11,
        _ => 15,
    }
}

/// The result array of an answer that is no refusal, from the numbers of the answer.
fn array(function: u8, answer: &Answer) -> Option<Vec<u64>> {
    Some(match answer {
        Answer::Refused(_) => return None,
        Answer::Reached(value, end) if function == 33 => item(value, *end),
        Answer::Is(ending) if function == 33 => self::ending(ending),
        Answer::Reached(value, next) => numbers(function, &value.numbers(), *next),
        Answer::Is(value) => value.numbers(),
        other => unreachable!("{other} of a reader"),
    })
}

/// The numbers of a reader's array, from those of the Rust's answer and the next place.
fn numbers(function: u8, n: &[u64], next: u64) -> Vec<u64> {
    match function {
        4 | 5 => vec![next - n[0], n[0], next], // bytes, by place and length
        18 | 20 | 29 | 46 => [&n[..14], &[next]].concat(), // an entry, without its features
        27 | 28 => [&n[..4], &[next]].concat(), // a message, without its items
        30 | 47 => vec![n[0]],                  // an id's place
        31 => vec![n[0], n[2], n[3], next, n[4]], // a payload, without its id's length; the total
        32 | 48 => vec![n[0], n[2], n[3], next],
        _ => [n, &[next]].concat(),
    }
}

/// The array of a step at an item.
fn item(value: &Value, end: u64) -> Vec<u64> {
    let Value::List(values) = value else { unreachable!("{value} is no item") };
    let slots = match &values[..] {
        [Value::Word("handshake"), start, _, verdict] => {
            vec![1, start.numbers()[0], end, verdict.numbers()[0]]
        }
        [Value::Word("message"), message] => {
            let n = message.numbers();
            [&[2, n[0], end][..], &n[1..8]].concat()
        }
        _ => unreachable!("{value} is no item"),
    };
    filled(slots)
}

/// The array of a step at the end, or at a stop.
fn ending(value: &Value) -> Vec<u64> {
    filled(match value {
        Value::Word("end") => vec![],
        Value::List(values) => {
            let layers = ["handshake", "frame", "body"].map(Value::Word);
            let layer = layers.iter().position(|layer| *layer == values[1]).expect("a layer");
            let [number, start] = [2, 3].map(|i| values[i].numbers()[0]);
            vec![3, start, 1 + layer as u64, number]
        }
        other => unreachable!("{other} is no ending"),
    })
}

fn filled(mut slots: Vec<u64>) -> Vec<u64> {
    slots.resize(11, 0);
    slots
}

/// A function's boundaries and some cases of each other kind. Each refusal is among them, and of the
/// arrays no two slots are the same in every case.
fn chosen(f: &Function, per_kind: usize) -> Vec<(Case, Answer)> {
    let mut list = vec![];
    for (i, kind) in f.kinds.iter().enumerate() {
        let mut rng = Rng::new(SEED, f.number, i);
        if kind.name == EDGES {
            kind.visit(&mut rng, 1.0, &mut |case| list.extend(answered(f, case.clone())));
        } else {
            let cases = (0..per_kind).map(|_| kind.sample(&mut rng));
            list.extend(cases.filter(is_short).filter_map(|case| answered(f, case)));
        }
    }
    let accepted = list.iter().filter(|(_, answer)| is_accepted(answer)).count();
    let mut rng = Rng::new(SEED, f.number, f.kinds.len());
    for _ in accepted..ACCEPTED {
        list.push(found(f, &mut rng, is_accepted));
    }
    for number in f.told.iter().chain(f.untold) {
        let refusal = Answer::Refused(*number);
        let met = list.iter().any(|(_, answer)| *answer == refusal);
        if !met && !(is_writer(f) && LONG.contains(number)) {
            list.push(found(f, &mut rng, |answer| *answer == refusal));
        }
    }
    while !are_told_apart(f, &list) {
        assert!(list.len() < MOST_CASES, "two slots of {} are the same in every case", f.name);
        list.push(found(f, &mut rng, is_accepted));
    }
    list
}

/// A random case that has such an answer.
fn found(f: &Function, rng: &mut Rng, is_such: impl Fn(&Answer) -> bool) -> (Case, Answer) {
    loop {
        let kind = &f.kinds[rng.below(f.kinds.len() as u64) as usize];
        let case = Some(kind.sample(rng)).filter(is_short);
        let answered = case.and_then(|case| answered(f, case));
        if let Some(found) = answered.filter(|(_, answer)| is_such(answer)) {
            return found;
        }
    }
}

/// Whether any two slots of a reader's array differ in some case.
fn are_told_apart(f: &Function, list: &[(Case, Answer)]) -> bool {
    if is_writer(f) || matches!(f.number, 9..=17) {
        return true;
    }
    let arrays: Vec<_> = list.iter().filter_map(|(_, answer)| array(f.number, answer)).collect();
    let differ = |i: usize, j: usize| arrays.iter().any(|slots| slots[i] != slots[j]);
    (0..slots(f.number)).all(|j| (0..j).all(|i| differ(i, j)))
}

/// A case with the answer that it must have, if its output is short enough.
fn answered(f: &Function, case: Case) -> Option<(Case, Answer)> {
    if is_writer(f) && case.word(1) > MOST_ROOM {
        return None;
    }
    let answer = (f.expected)(&case).answer().clone();
    Some((case, answer))
}

fn is_writer(f: &Function) -> bool {
    matches!(f.number, 6..=8 | 35..=45)
}

fn is_short(case: &Case) -> bool {
    case.bytes.len() <= LONGEST_INPUT
}

fn is_accepted(answer: &Answer) -> bool {
    !matches!(answer, Answer::Refused(_))
}
