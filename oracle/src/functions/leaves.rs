//! VLQs, strings, parts, zigzag, UTF-8, addresses and the hash.

use super::{total, Function};
use crate::answer::{Answer, Value};
use crate::cases::{addresses, hashes, numbers, parts, text};
use crate::{ours, rust};

pub fn rows() -> Vec<Function> {
    let mut rows = readers();
    rows.extend(zigzags());
    rows.extend(others());
    rows
}

fn readers() -> Vec<Function> {
    vec![
        Function {
            number: 1,
            name: "read_byte",
            words: &["place"],
            told: &[1],
            untold: &[12],
            expected: |c| rust::read_byte(&c.bytes, c.word(0)),
            ours: |c| ours::read_byte(&c.bytes, c.place(0)),
            kinds: numbers::byte(),
        },
        Function {
            number: 2,
            name: "read_vlq",
            words: &["place"],
            told: &[1, 2],
            untold: &[12],
            expected: |c| rust::read_vlq(&c.bytes, c.word(0)),
            ours: |c| ours::read_vlq(&c.bytes, c.place(0)),
            kinds: numbers::vlq(10_000_000),
        },
        Function {
            number: 3,
            name: "read_vlq_length",
            words: &["place"],
            told: &[1, 2, 3],
            untold: &[12],
            expected: |c| rust::read_vlq_length(&c.bytes, c.word(0)),
            ours: |c| ours::read_vlq_length(&c.bytes, c.place(0)),
            kinds: numbers::vlq(2_000_000),
        },
        Function {
            number: 4,
            name: "read_short_string",
            words: &["place"],
            told: &[1, 4],
            untold: &[12],
            expected: |c| rust::read_short_string(&c.bytes, c.word(0)),
            ours: |c| ours::read_short_string(&c.bytes, c.place(0)),
            kinds: text::short_string(),
        },
        Function {
            number: 5,
            name: "read_part",
            words: &["place", "count"],
            told: &[1],
            untold: &[12],
            expected: |c| rust::read_part(&c.bytes, c.word(0), c.word(1)),
            ours: |c| ours::read_part(&c.bytes, c.place(0), c.place(1)),
            kinds: parts::parts(),
        },
    ]
}

fn zigzags() -> Vec<Function> {
    vec![
        total(
            9,
            "zigzag_encode",
            &["number"],
            |c| rust::zigzag_encode(c.word(0) as i32),
            |c| ours::zigzag_encode(c.word(0) as i32),
            numbers::zigzag(|n| n as i32 as i64 as u64),
        ),
        total(
            10,
            "zigzag_decode",
            &["number"],
            |c| rust::zigzag_decode(c.word(0) as u32),
            |c| ours::zigzag_decode(c.word(0) as u32),
            numbers::zigzag(|n| n as u32 as u64),
        ),
        total(
            11,
            "zigzag_encode_i64",
            &["number"],
            |c| rust::zigzag_encode_i64(c.word(0) as i64),
            |c| ours::zigzag_encode_i64(c.word(0) as i64),
            numbers::zigzag(|n| n),
        ),
        total(
            12,
            "zigzag_decode_i64",
            &["number"],
            |c| rust::zigzag_decode_i64(c.word(0)),
            |c| ours::zigzag_decode_i64(c.word(0)),
            numbers::zigzag(|n| n),
        ),
    ]
}

fn others() -> Vec<Function> {
    vec![
        total(
            13,
            "is_utf8",
            &[],
            |c| rust::is_utf8(&c.bytes),
            |c| ours::is_utf8(&c.bytes),
            text::utf8(),
        ),
        total(
            14,
            "is_bogus_v4",
            &["address", "port", "mainnet"],
            |c| rust::is_bogus_v4(c.word(0) as u32, c.word(1) as u16, c.word(2) as u8),
            |c| ours::is_bogus_v4(c.word(0) as u32, c.word(1) as u16, c.word(2) as u8),
            addresses::v4(),
        ),
        total(
            15,
            "is_bogus_v6",
            &["high", "low", "port", "mainnet"],
            |c| rust::is_bogus_v6(c.word(0), c.word(1), c.word(2) as u16, c.word(3) as u8),
            |c| ours::is_bogus_v6(c.word(0), c.word(1), c.word(2) as u16, c.word(3) as u8),
            addresses::v6(),
        ),
        total(
            16,
            "blake2b256",
            &[],
            |c| rust::blake2b256(&c.bytes),
            |c| Answer::Is(Value::Bytes(ours::blake2b256(&c.bytes).to_vec())),
            hashes::hash(),
        ),
        total(
            17,
            "frame_check",
            &[],
            |c| rust::frame_check(&c.bytes),
            |c| Answer::Is(Value::Bytes(ours::frame_check(&c.bytes).to_vec())),
            hashes::hash(),
        ),
    ]
}
