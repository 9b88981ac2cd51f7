//! Readers of entries, handshakes and frames.

use super::Function;
use crate::cases::{entries, frames};
use crate::kinds::{networks, Kind};
use crate::{ours, rust};

pub fn rows() -> Vec<Function> {
    vec![
        Function {
            number: 18,
            name: "parse",
            words: &[],
            told: &[1, 2, 3, 4],
            untold: &[],
            expected: |c| rust::entries::parse(&c.bytes),
            ours: |c| ours::entries::parse(&c.bytes),
            kinds: entries::handshakes(600_000),
        },
        Function {
            number: 19,
            name: "measure_size",
            words: &[],
            told: &[1, 2, 3, 4],
            untold: &[],
            expected: |c| rust::entries::measure_size(&c.bytes),
            ours: |c| ours::entries::measure_size(&c.bytes),
            kinds: entries::handshakes(600_000),
        },
        Function {
            number: 20,
            name: "parse_peer_entry",
            words: &["place"],
            told: &[1, 2, 3, 4],
            untold: &[12],
            expected: |c| rust::entries::parse_peer_entry(&c.bytes, c.word(0)),
            ours: |c| ours::entries::parse_peer_entry(&c.bytes, c.place(0)),
            kinds: entries::entries(600_000),
        },
        Function {
            number: 21,
            name: "read_feature",
            words: &["place"],
            told: &[1, 2, 3],
            untold: &[12],
            expected: |c| rust::entries::read_feature(&c.bytes, c.word(0)),
            ours: |c| ours::entries::read_feature(&c.bytes, c.place(0)),
            kinds: entries::features(600_000),
        },
        Function {
            number: 22,
            name: "feature_by_index",
            words: &["place", "index"],
            told: &[1, 2, 3, 4],
            untold: &[12],
            expected: |c| rust::entries::feature_by_index(&c.bytes, c.word(0), c.word(1)),
            ours: |c| ours::entries::feature_by_index(&c.bytes, c.place(0), c.place(1)),
            kinds: entries::indexed(800_000),
        },
        Function {
            number: 23,
            name: "validate_peer",
            words: &["mainnet"],
            told: &[1, 2, 3, 4],
            untold: &[],
            expected: |c| rust::entries::validate_peer(&c.bytes, c.word(0) as u8),
            ours: |c| ours::entries::validate_peer(&c.bytes, c.word(0) as u8),
            kinds: both(entries::handshakes(600_000), 0),
        },
        Function {
            number: 24,
            name: "validate_entry",
            words: &["place", "mainnet"],
            told: &[1, 2, 3, 4],
            untold: &[12],
            expected: |c| rust::entries::validate_entry(&c.bytes, c.word(0), c.word(1) as u8),
            ours: |c| ours::entries::validate_entry(&c.bytes, c.place(0), c.word(1) as u8),
            kinds: both(entries::entries(600_000), 1),
        },
        Function {
            number: 25,
            name: "rest_api_url",
            words: &["place"],
            told: &[1, 2, 3, 4],
            untold: &[12],
            expected: |c| rust::entries::rest_api_url(&c.bytes, c.word(0)),
            ours: |c| ours::entries::rest_api_url(&c.bytes, c.place(0)),
            kinds: entries::entries(600_000),
        },
        Function {
            number: 26,
            name: "decode",
            words: &["place", "mainnet"],
            told: &[5, 6, 7, 8, 9],
            untold: &[12],
            expected: |c| rust::frames::decode(&c.bytes, c.word(0), c.word(1) as u8),
            ours: |c| ours::frames::decode(&c.bytes, c.place(0), c.word(1) as u8),
            kinds: frames::frames(800_000),
        },
    ]
}

/// Kinds on both networks, the number at `slot`.
fn both(kinds: Vec<Kind>, slot: usize) -> Vec<Kind> {
    kinds.into_iter().map(|kind| networks(kind, slot)).collect()
}
