//! Compares the walk on whole sessions, each cut at every byte: `cuts [COUNT] [SEED]`.

use oracle::cases::sessions::short_session;
use oracle::rng::Rng;
use std::{env, process};

/// In so many sessions some Peers must have an address of 3fff::/20.
const WHOLE: u64 = 10_000;

fn main() {
    let mut words = env::args().skip(1).map(|word| word.parse::<u64>().expect("a number"));
    let count = words.next().unwrap_or(100_000);
    let seed = words.next().unwrap_or(1);
    let mut rng = Rng::new(seed, 0, 0);
    let (mut cuts, mut documented, mut differed) = (0u64, 0u64, 0u64);
    for _ in 0..count {
        let case = short_session(&mut rng);
        let (mainnet, cap) = (case.word(0) as u8, case.word(1));
        for cut in 0..=case.bytes.len() {
            let part = &case.bytes[..cut];
            let expected = oracle::rust::sessions::walk(part, mainnet, cap);
            cuts += 1;
            documented += expected.is_document() as u64;
            if oracle::ours::sessions::walk(part, mainnet, cap as usize) != *expected.answer() {
                differed += 1;
                println!("differs: mainnet {mainnet}, cap {cap}: {}", oracle::case::hex(part));
            }
        }
    }
    println!(
        "seed {seed}: {count} sessions, {cuts} cuts, {documented} of them with Peers of 3fff::/20, \
         {differed} differed"
    );
    let missing = count >= WHOLE && documented == 0;
    process::exit((differed > 0 || missing) as i32);
}
