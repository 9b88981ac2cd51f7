//! Compares written sessions: lists of our writes on one output, read back by the Rust.
//! `written [COUNT] [SEED]`.

use oracle::cases::lists::list;
use oracle::rng::Rng;
use oracle::written::{compare, Tally};
use std::{env, process};

/// The most differences that are printed, and the most characters of one.
const SHOWN: u64 = 10;
const LENGTH: usize = 500;

/// A run of so many lists must hold every kind of write, every refusal number and 3fff::/20.
const WHOLE: u64 = 10_000;

fn main() {
    let mut words = env::args().skip(1).map(|word| word.parse::<u64>().expect("a number"));
    let count = words.next().unwrap_or(100_000);
    let seed = words.next().unwrap_or(1);
    let mut tally = Tally::default();
    let (mut documented, mut differed) = (0, 0);
    for index in 0..count {
        let mut rng = Rng::new(seed, 0, index as usize);
        let list = list(&mut rng, index);
        tally.count(&list);
        match compare(&list, &mut rng) {
            Ok(by_document) => documented += by_document as u64,
            Err(what) => {
                differed += 1;
                if differed <= SHOWN {
                    let what: String = what.chars().take(LENGTH).collect();
                    println!("differs: seed {seed}, list {index}: {what}");
                }
            }
        }
    }
    println!(
        "{tally}\nseed {seed}: {count} lists, {documented} of them with Peers of 3fff::/20, \
         {differed} differed"
    );
    let mut missing = if count < WHOLE { vec![] } else { tally.missing() };
    if count >= WHOLE && documented == 0 {
        missing.push("3fff::/20".into());
    }
    if !missing.is_empty() {
        println!("never met: {}", missing.join(", "));
    }
    process::exit((differed > 0 || !missing.is_empty()) as i32);
}
