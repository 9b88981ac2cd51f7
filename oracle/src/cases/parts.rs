//! Cases for parts: so many bytes at a place.

use crate::case::Case;
use crate::kinds::{places, Kind};
use crate::rng::Rng;
use crate::rust::LIMIT;

pub fn parts() -> Vec<Kind> {
    vec![
        Kind::edges(edges()),
        Kind::every("short", 20 * 20 * 20, |i, case| {
            case.words[0] = i % 20;
            case.words[1] = i / 20 % 20;
            case.bytes.clear();
            case.bytes.extend(0..(i / 400) as u8);
        }),
        Kind::random("boundary", 1_000_000, |rng, visit| {
            let mut case = bytes(rng);
            let length = case.bytes.len() as u64;
            case.words[0] = rng.below(length + 1);
            let rest = length - case.words[0];
            for n in [0, rest.wrapping_sub(1), rest, rest + 1, rng.below(rest + 1)] {
                case.words[1] = n;
                visit(&case);
            }
        }),
        Kind::random("places", 500_000, |rng, visit| {
            let mut case = bytes(rng);
            for place in places(rng, case.bytes.len() as u64) {
                case.words[0] = place;
                case.words[1] = declared(rng, place);
                visit(&case);
            }
        }),
    ]
}

fn edges() -> Vec<Case> {
    let s = [1, 2, 3, 4, 5, 6, 7, 8];
    let mut edges = vec![Case::new(&[0, 0], &[]), Case::new(&[0, 1], &[])];
    for (at, n) in [(0, 0), (0, 8), (0, 9), (3, 5), (3, 6), (7, 1), (8, 0), (8, 1), (9, 0)] {
        edges.push(Case::new(&[at, n], &s));
    }
    for n in [LIMIT, LIMIT + 1, u64::MAX, u64::MAX - 2] {
        edges.push(Case::new(&[3, n], &s));
    }
    edges
}

fn bytes(rng: &mut Rng) -> Case {
    let mut case = Case::default();
    let length = rng.below(300);
    rng.append(&mut case.bytes, length);
    case
}

/// A declared length: small, around the limit, or such that its sum with the place wraps.
fn declared(rng: &mut Rng, place: u64) -> u64 {
    match rng.below(16) {
        0 => LIMIT - 1 + rng.below(3),
        1 => place.wrapping_neg().wrapping_add(rng.below(4)),
        2 => u64::MAX - rng.below(4),
        _ => rng.below(300),
    }
}
