//! Cases for the hash: lengths around each multiple of its block of 128 bytes.

use crate::case::Case;
use crate::kinds::{short, Kind};
use crate::rng::Rng;
use crate::rust::LIMIT;

const BLOCK: u64 = 128;

pub fn hash() -> Vec<Kind> {
    let lengths = [0, 1, 4, 100, 127, 128, 129, 255, 256, 257, 383, 384, 385, 640, 1024];
    let mut edges = lengths.map(|n| counted(n, 1)).to_vec();
    edges.push(Case::new(&[], b"abc"));
    vec![
        Kind::edges(edges),
        short(2),
        // Every length up to ten blocks, with zeros, ones and a count in the bytes.
        Kind::every("lengths", 3 * (10 * BLOCK + 1), |i, case| match i % 3 {
            0 => case.set(&[], &vec![0; i as usize / 3]),
            1 => case.set(&[], &vec![0xff; i as usize / 3]),
            _ => *case = counted(i / 3, 7),
        }),
        Kind::random("boundary", 1_000_000, |rng, visit| {
            let length = match rng.below(4) {
                0 => rng.below(8 * BLOCK),
                _ => (1 + rng.below(8)) * BLOCK + rng.below(5) - 2,
            };
            visit(&filled(rng, length));
        }),
        // Around each power of two from 2^16 to 2^21, and the longest body of a frame.
        Kind::every("long", 19, |i, case| {
            let length = if i == 18 { LIMIT } else { (1 << (16 + i / 3)) + i % 3 - 1 };
            *case = filled(&mut Rng::new(i, 0, 0), length);
        }),
    ]
}

fn counted(length: u64, step: u64) -> Case {
    let bytes: Vec<u8> = (0..length).map(|i| (i * step) as u8).collect();
    Case::new(&[], &bytes)
}

fn filled(rng: &mut Rng, length: u64) -> Case {
    let mut case = Case::default();
    rng.append(&mut case.bytes, length);
    case
}
