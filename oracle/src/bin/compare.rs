//! Compares our library with the Rust on every function's cases.
//! `compare [--seed N] [--scale X] [--only NAME]`, or `compare --case FUNCTION NUMBER.. HEX`.

use oracle::case::Case;
use oracle::compare::{run, Difference, Tally};
use oracle::functions::{named, table, Function};
use std::process::ExitCode;
use std::time::Instant;

const USAGE: &str = "compare [--seed N] [--scale X] [--only NAME]   (a function or a group)
compare --case FUNCTION NUMBER.. HEX   (`-` for no bytes)";

struct Options {
    seed: u64,
    scale: f64,
    only: Option<String>,
}

fn main() -> ExitCode {
    let words: Vec<String> = std::env::args().skip(1).collect();
    let outcome = match words.first() {
        Some(first) if first == "--case" => one(&words[1..]),
        _ => options(&words).map(|o| all(&o)),
    };
    match outcome {
        Some(true) => ExitCode::SUCCESS,
        Some(false) => ExitCode::FAILURE,
        None => {
            eprintln!("{USAGE}");
            ExitCode::from(2)
        }
    }
}

fn options(words: &[String]) -> Option<Options> {
    let mut options = Options { seed: 1, scale: 1.0, only: None };
    for pair in words.chunks(2) {
        let [name, value] = pair else { return None };
        match name.as_str() {
            "--seed" => options.seed = value.parse().ok()?,
            "--scale" => options.scale = value.parse().ok()?,
            "--only" => options.only = Some(value.clone()),
            _ => return None,
        }
    }
    let known = |name: &String| !named(name).is_empty();
    options.only.as_ref().is_none_or(known).then_some(options)
}

/// One case from the command line, as a report shows it: whether both sides agree.
fn one(words: &[String]) -> Option<bool> {
    let (name, rest) = words.split_first()?;
    let f = table().into_iter().find(|f| f.name == name)?;
    let case = Case::parse(rest, f.words.len())?;
    let (expected, ours) = ((f.expected)(&case), (f.ours)(&case));
    println!("{expected}; ours: {ours}");
    Some(*expected.answer() == ours)
}

/// Every function, or the only one: whether nothing differed and every refusal was met.
fn all(options: &Options) -> bool {
    println!("seed {} scale {}", options.seed, options.scale);
    println!(
        "{:<23} {:<13} {:>10} {:>14} {:>8}",
        "function", "kind", "agreed", "not comparable", "differed"
    );
    let start = Instant::now();
    let mut total = Tally::default();
    let mut met = true;
    for f in options.only.as_ref().map_or_else(table, |name| named(name)) {
        let tally = function(&f, options);
        met &= is_met(&f, &tally);
        total.add(tally);
    }
    let Tally { agreed, not_comparable, differed, .. } = total;
    let seconds = start.elapsed().as_secs();
    println!(
        "{agreed} agreed, {not_comparable} not comparable, {differed} differed, in {seconds} s"
    );
    differed == 0 && met
}

/// Runs the kinds of a function and reports each, then what its cases were.
fn function(f: &Function, options: &Options) -> Tally {
    let mut sum = Tally::default();
    for (i, kind) in f.kinds.iter().enumerate() {
        let tally = run(f, i, options.seed, options.scale);
        let Tally { agreed, not_comparable, differed, .. } = tally;
        println!(
            "{:<23} {:<13} {agreed:>10} {not_comparable:>14} {differed:>8}",
            f.name, kind.name
        );
        if let Some(Difference { case, expected, ours }) = &tally.smallest {
            println!("  differs: {} {}", f.name, case.shown(f.words.len()));
            println!("    {expected}; ours: {ours}");
        }
        sum.add(tally);
    }
    let numbers = sum.refused.iter().enumerate().filter(|(_, n)| **n > 0);
    let refused: String = numbers.map(|(i, n)| format!(", refused with {i}: {n}")).collect();
    let yes = if sum.yes > 0 { format!(" (true: {})", sum.yes) } else { String::new() };
    println!("{:<23} accepted: {}{yes}{refused}", f.name, sum.accepted);
    sum
}

/// Whether each refusal number of a function had a case.
fn is_met(f: &Function, tally: &Tally) -> bool {
    let missing: Vec<_> =
        f.told.iter().chain(f.untold).filter(|n| tally.refused[**n as usize] == 0).collect();
    for number in &missing {
        println!("{:<23} no case is refused with {number}", f.name);
    }
    missing.is_empty()
}
