//! Cases for VLQ and zigzag: numbers around each power of two and around the limit.

use super::at_start;
use crate::case::Case;
use crate::kinds::{of_reader, Kind};
use crate::rng::Rng;
use crate::rust::LIMIT;
use p2p::transport::vlq::write_vlq;

pub fn byte() -> Vec<Kind> {
    let edges = at_start(&["-", "00", "7f", "80", "ff", "ff00"]);
    of_reader(2, 1_000_000, edges, |rng, bytes| bytes.push(rng.byte()))
}

pub fn vlq(count: u64) -> Vec<Kind> {
    of_reader(3, count, vlq_edges(), vlq_bytes)
}

/// Document 01's edges, numbers around 2^7k and the limit, and each way to end in nine to eleven
/// bytes.
fn vlq_edges() -> Vec<Case> {
    let mut edges = at_start(&[
        "-",
        "7f",
        "8001",
        "ac02",
        "8000",
        "80a4e807",
        "81a4e807",
        "ffa3e807",
        "ffffffffffffffffff01",
        "ffffffffffffffffff7f",
        "ffffffffffffffffff80",
        "ffffffffffffffffff",
        "ffffffffffffffff7f",
        "80808080808080808000",
        "80808080808080808002",
        "8080808080808080808000",
        "80a4e88700",
        "80a4e88780808080807e",
        "80a4e88780808080807f",
    ]);
    for value in (1..10).flat_map(|k| [(1u64 << (7 * k)) - 1, 1 << (7 * k), (1 << (7 * k)) + 1]) {
        let mut bytes = vec![];
        write_vlq(&mut bytes, value);
        edges.push(Case::new(&[0], &bytes));
    }
    edges
}

/// A VLQ, at times longer than it need be, at times too long.
pub fn vlq_bytes(rng: &mut Rng, bytes: &mut Vec<u8>) {
    let start = bytes.len();
    match rng.below(4) {
        0 => write_vlq(bytes, rng.number()),
        1 => write_vlq(bytes, edge_number(rng)),
        2 => {
            write_vlq(bytes, edge_number(rng));
            let length = (bytes.len() - start) + rng.below(12) as usize;
            for byte in &mut bytes[start..] {
                *byte |= 0x80;
            }
            bytes.resize(start + length, 0x80);
            bytes.push(rng.pick(&[0, 1, 2, 0x7e, 0x7f]));
        }
        _ => {
            let length = 7 + rng.below(5);
            bytes.extend((0..length).map(|_| rng.byte() | 0x80));
            bytes.push(rng.byte() & 0x7f);
        }
    }
}

/// A number within two of a power of two, of the limit or of 0.
pub fn edge_number(rng: &mut Rng) -> u64 {
    let edge = match rng.below(4) {
        0 => LIMIT,
        1 => 1 << rng.below(64),
        2 => 1 << (7 * rng.below(10)),
        _ => 0,
    };
    edge.wrapping_add(rng.below(5)).wrapping_sub(2)
}

/// Numbers of 32 or 64 bits, signed or not, each handed over as a word.
pub fn zigzag(word: fn(u64) -> u64) -> Vec<Kind> {
    let mut edges = vec![Case::new(&[word(0)], &[])];
    for power in [0, 1, 7, 31, 32, 63].map(|k| 1u64 << k) {
        for value in [power - 1, power, power + 1] {
            edges.push(Case::new(&[word(value)], &[]));
            edges.push(Case::new(&[word(value.wrapping_neg())], &[]));
        }
    }
    vec![
        Kind::edges(edges),
        Kind::every("short", 1 << 17, move |i, case| case.words[0] = word(i.wrapping_sub(1 << 16))),
        Kind::random("boundary", 1_000_000, move |rng, visit| {
            for value in [edge_number(rng), rng.number()] {
                visit(&Case::new(&[word(value)], &[]));
                visit(&Case::new(&[word(value.wrapping_neg())], &[]));
            }
        }),
    ]
}
