//! The session walk, and what is reached by index from a message of a session.

use super::{total, Function};
use crate::cases::{messages, sessions};
use crate::{ours, rust};

pub fn rows() -> Vec<Function> {
    vec![
        Function {
            number: 33,
            name: "step",
            words: &["place", "mainnet", "cap"],
            told: &[],
            untold: &[12],
            expected: |c| rust::sessions::step(&c.bytes, c.word(0), c.word(1) as u8, c.word(2)),
            ours: |c| ours::sessions::step(&c.bytes, c.place(0), c.word(1) as u8, c.place(2)),
            kinds: sessions::steps(400_000),
        },
        total(
            34,
            "walk",
            &["mainnet", "cap"],
            |c| rust::sessions::walk(&c.bytes, c.word(0) as u8, c.word(1)),
            |c| ours::sessions::walk(&c.bytes, c.word(0) as u8, c.place(1)),
            sessions::sessions(450_000),
        ),
        Function {
            number: 46,
            name: "entry_in_stream",
            words: &["start", "length", "cap", "index"],
            told: &[1, 2, 3, 4, 10],
            untold: &[12],
            expected: |c| {
                let [start, length, cap, index] = [0, 1, 2, 3].map(|i| c.word(i));
                rust::messages::entry_in_stream(&c.bytes, [start, length], cap, index)
            },
            ours: |c| {
                let [start, length, cap, index] = [0, 1, 2, 3].map(|i| c.place(i));
                ours::messages::entry_in_stream(&c.bytes, [start, length], cap, index)
            },
            kinds: messages::in_stream(messages::indexed_peers(200_000)),
        },
        Function {
            number: 47,
            name: "id_in_stream",
            words: &["start", "length", "index"],
            told: &[1, 2, 3, 10],
            untold: &[12],
            expected: |c| rust::messages::id_in_stream(&c.bytes, [c.word(0), c.word(1)], c.word(2)),
            ours: |c| ours::messages::id_in_stream(&c.bytes, [c.place(0), c.place(1)], c.place(2)),
            kinds: messages::in_stream(messages::indexed_ids(200_000)),
        },
        Function {
            number: 48,
            name: "payload_in_stream",
            words: &["start", "length", "index"],
            told: &[1, 2, 3, 10, 11],
            untold: &[12],
            expected: |c| {
                rust::messages::payload_in_stream(&c.bytes, [c.word(0), c.word(1)], c.word(2))
            },
            ours: |c| {
                ours::messages::payload_in_stream(&c.bytes, [c.place(0), c.place(1)], c.place(2))
            },
            kinds: messages::in_stream(messages::indexed_payloads(200_000)),
        },
    ]
}
