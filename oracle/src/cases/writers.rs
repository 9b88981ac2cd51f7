//! Cases for writers: values to write, and outputs with and without room for them. A writer's
//! first two numbers are its place and the length of its output.

use super::numbers::edge_number;
use super::text;
use crate::case::Case;
use crate::kinds::{damage, Kind};
use crate::rng::Rng;
use p2p::transport::vlq::write_vlq;

pub fn vlq() -> Vec<Kind> {
    let mut edges = vec![];
    for power in (0..10).map(|k| 1u64 << (7 * k)) {
        for value in [power - 1, power, power + 1] {
            edges.push(Case::new(&[0, 10, value], &[]));
            edges.push(Case::new(&[2, 2 + written(value), value], &[]));
        }
    }
    edges.push(Case::new(&[1, 12, u64::MAX], &[]));
    vec![
        Kind::edges(edges),
        Kind::every("outputs", 30 * 13 * 14, |i, case| {
            let power = 1u64 << (7 * (i / 546));
            case.set(&[i % 14, i / 14 % 13, power - 1 + i / 182 % 3], &[]);
        }),
        Kind::every("short", 1 << 21, |i, case| {
            let place = i % 5;
            case.set(&[place, place + written(i) + i % 3, i], &[]);
        }),
        Kind::random("boundary", 1_000_000, |rng, visit| {
            let value = if rng.below(2) == 0 { edge_number(rng) } else { rng.number() };
            let [place, room] = output(rng, written(value));
            visit(&Case::new(&[place, room, value], &[]));
        }),
    ]
}

/// How many bytes a VLQ takes.
fn written(value: u64) -> u64 {
    let mut bytes = vec![];
    write_vlq(&mut bytes, value);
    bytes.len() as u64
}

pub fn short_string() -> Vec<Kind> {
    let mut edges = vec![];
    for length in text::LENGTHS.into_iter().chain([256, 257, 300]) {
        let s = vec![b'a'; length as usize];
        for (place, room) in [(0, length + 1), (3, length + 4), (3, length + 3), (0, 400), (9, 8)] {
            edges.push(Case::new(&[place, room], &s));
        }
    }
    for s in [&b"\xc3\xa9"[..], b"\xc0\x80", b"\xed\xa0\x80", b"\xc3"] {
        edges.push(Case::new(&[1, 10], s));
        edges.push(Case::new(&[1, 1], s));
    }
    edges.push(Case::new(&[0, 400], &[0xff; 256]));
    vec![
        Kind::edges(edges),
        Kind::random("boundary", 1_000_000, |rng, visit| {
            let mut s = vec![];
            text::string(rng, &mut s);
            if rng.below(16) == 0 {
                text::text(rng, &mut s, 200);
            }
            let [place, room] = output(rng, s.len() as u64 + 1);
            visit(&Case::new(&[place, room], &s));
        }),
        Kind::random("damaged", 500_000, |rng, visit| {
            let mut s = vec![];
            let length = rng.below(24);
            text::text(rng, &mut s, length);
            let [place, room] = output(rng, length + 1);
            damage(rng, &Case::new(&[place, room], &s), 0..s.len(), visit);
        }),
    ]
}

pub fn part() -> Vec<Kind> {
    let mut edges = vec![];
    for length in [0, 1, 2, 127, 128, 255, 256, 300] {
        let s: Vec<u8> = (0..length).map(|i| i as u8).collect();
        for (place, room) in [(0, length), (3, length + 3), (3, length + 2), (0, 400), (9, 8)] {
            edges.push(Case::new(&[place, room], &s));
        }
    }
    vec![
        Kind::edges(edges),
        Kind::every("outputs", 12 * 13 * 14, |i, case| {
            case.set(&[i % 14, i / 14 % 13], &[0xee; 12][..(i / 182) as usize]);
        }),
        Kind::random("boundary", 1_000_000, |rng, visit| {
            let mut s = vec![];
            let length = if rng.below(8) == 0 { rng.below(300) } else { rng.below(16) };
            rng.append(&mut s, length);
            let [place, room] = output(rng, length);
            visit(&Case::new(&[place, room], &s));
        }),
    ]
}

/// A place and the length of an output, for a writing of some length: longer than needed, just
/// long enough, too short by one or more, or with the place outside.
pub fn output(rng: &mut Rng, length: u64) -> [u64; 2] {
    let place = rng.below(12);
    let end = place + length;
    match rng.below(8) {
        0..=2 => [place, end + 1 + rng.below(40)],
        3 | 4 => [place, end],
        5 => [place, end.saturating_sub(1)],
        6 => [place, place + rng.below(length + 1)],
        _ => [end + rng.pick(&[0, 1, 2, 1 << 32, 1 << 63]), end.saturating_sub(rng.below(2))],
    }
}
