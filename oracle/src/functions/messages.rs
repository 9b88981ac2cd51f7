//! Readers of message bodies.

use super::Function;
use crate::cases::messages;
use crate::{ours, rust};

pub fn rows() -> Vec<Function> {
    vec![
        Function {
            number: 27,
            name: "from_frame",
            words: &["cap", "mainnet", "code"],
            told: &[1, 2, 3, 4, 10, 11],
            untold: &[],
            expected: |c| {
                let [cap, mainnet, code] = [c.word(0), c.word(1), c.word(2)];
                rust::messages::from_frame(code as u8, &c.bytes, cap, mainnet as u8)
            },
            ours: |c| {
                let [mainnet, code] = [c.word(1), c.word(2)];
                ours::messages::from_frame(code as u8, &c.bytes, c.place(0), mainnet as u8)
            },
            kinds: messages::messages(500_000),
        },
        Function {
            number: 28,
            name: "parse_peers_body",
            words: &["cap", "mainnet"],
            told: &[1, 2, 3, 4, 10],
            untold: &[],
            expected: |c| rust::messages::read_peers_body(&c.bytes, c.word(0), c.word(1) as u8),
            ours: |c| ours::messages::read_peers_body(&c.bytes, c.place(0), c.word(1) as u8),
            kinds: messages::judged_peers(500_000),
        },
        Function {
            number: 29,
            name: "entry_by_index",
            words: &["cap", "index"],
            told: &[1, 2, 3, 4, 10],
            untold: &[12],
            expected: |c| rust::messages::entry_by_index(&c.bytes, c.word(0), c.word(1)),
            ours: |c| ours::messages::entry_by_index(&c.bytes, c.place(0), c.place(1)),
            kinds: messages::indexed_peers(500_000),
        },
        Function {
            number: 30,
            name: "id_by_index",
            words: &["index"],
            told: &[1, 2, 3, 10],
            untold: &[12],
            expected: |c| rust::messages::id_by_index(&c.bytes, c.word(0)),
            ours: |c| ours::messages::id_by_index(&c.bytes, c.place(0)),
            kinds: messages::indexed_ids(1_000_000),
        },
        Function {
            number: 31,
            name: "read_payload",
            words: &["place", "total"],
            told: &[1, 2, 3, 11],
            untold: &[12],
            expected: |c| rust::messages::read_payload(&c.bytes, c.word(0), c.word(1)),
            ours: |c| ours::messages::read_payload(&c.bytes, c.place(0), c.place(1)),
            kinds: messages::placed_payloads(1_000_000),
        },
        Function {
            number: 32,
            name: "payload_by_index",
            words: &["index"],
            told: &[1, 2, 3, 10, 11],
            untold: &[12],
            expected: |c| rust::messages::payload_by_index(&c.bytes, c.word(0)),
            ours: |c| ours::messages::payload_by_index(&c.bytes, c.place(0)),
            kinds: messages::indexed_payloads(1_000_000),
        },
    ]
}
