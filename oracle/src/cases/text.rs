//! Cases for UTF-8 and short strings: characters around each boundary of RFC 3629's classes.

use super::at_start;
use crate::case::Case;
use crate::kinds::{of_bytes, of_reader, Kind};
use crate::rng::Rng;

/// The first and the last character of each class.
const CHARACTERS: [u32; 18] = [
    0, 0x7f, 0x80, 0x7ff, 0x800, 0xfff, 0x1000, 0xcfff, 0xd000, 0xd7ff, 0xe000, 0xffff, 0x10000,
    0x3ffff, 0x40000, 0xfffff, 0x100000, 0x10ffff,
];

/// The bytes on both sides of each boundary of the lead byte, and of a follower.
const LEADS: [u8; 20] = [
    0x00, 0x7f, 0x80, 0xbf, 0xc0, 0xc1, 0xc2, 0xdf, 0xe0, 0xe1, 0xec, 0xed, 0xee, 0xef, 0xf0, 0xf1,
    0xf3, 0xf4, 0xf5, 0xff,
];
const FOLLOWERS: [u8; 10] = [0x00, 0x7f, 0x80, 0x8f, 0x90, 0x9f, 0xa0, 0xbf, 0xc0, 0xff];

pub const LENGTHS: [u64; 8] = [0, 1, 2, 3, 127, 128, 254, 255];

pub fn utf8() -> Vec<Kind> {
    let edges = at_start(&[
        "-", "00", "7f", "80", "c3a9", "c080", "eda080", "e0a080", "e09fbf", "ed9fbf", "ee8080",
        "f0908080", "f08fbfbf", "f48fbfbf", "f4908080", "f5808080", "c2", "e0a0", "f09080",
        "61c3a962", "efbbbf61", "c328",
    ]);
    let mut kinds = of_bytes(3, 1_000_000, edges, |rng, bytes| {
        let length = rng.below(64);
        text(rng, bytes, length);
        if rng.below(3) == 0 {
            sequence(rng, bytes);
        }
    });
    kinds.push(sequences());
    kinds.push(code_points());
    kinds
}

/// Every lead byte at a boundary with every choice of none to three followers at boundaries.
fn sequences() -> Kind {
    let total = LEADS.len() as u64 * 1111;
    Kind::every("sequences", total, |i, case| {
        case.bytes.clear();
        case.bytes.push(LEADS[i as usize / 1111]);
        let (mut rest, mut count) = (i % 1111, 0);
        while rest >= 10u64.pow(count) {
            rest -= 10u64.pow(count);
            count += 1;
        }
        for k in 0..count {
            case.bytes.push(FOLLOWERS[(rest / 10u64.pow(k) % 10) as usize]);
        }
    })
}

/// Every number that one, two, three or four bytes can hold in UTF-8's way: also what is no
/// character, and what is written longer than it need be.
fn code_points() -> Kind {
    const FORMS: [(u32, u8); 4] = [(7, 0x00), (11, 0xc0), (16, 0xe0), (21, 0xf0)];
    let total = FORMS.iter().map(|(bits, _)| 1u64 << bits).sum();
    Kind::every("code points", total, |mut i, case| {
        let mut length = 0;
        while i >= 1 << FORMS[length].0 {
            i -= 1 << FORMS[length].0;
            length += 1;
        }
        case.bytes.clear();
        case.bytes.push(FORMS[length].1 | (i >> (6 * length)) as u8);
        for k in (0..length).rev() {
            case.bytes.push(0x80 | (i >> (6 * k)) as u8 & 0x3f);
        }
    })
}

/// Appends UTF-8 of exactly so many bytes.
pub fn text(rng: &mut Rng, bytes: &mut Vec<u8>, length: u64) {
    let end = bytes.len() + length as usize;
    while bytes.len() < end {
        let c = character(rng);
        if bytes.len() + c.len_utf8() <= end {
            bytes.extend_from_slice(c.encode_utf8(&mut [0; 4]).as_bytes());
        }
    }
}

fn character(rng: &mut Rng) -> char {
    let n = match rng.below(4) {
        0 => rng.below(0x80) as u32,
        1 => rng.below(0x110000) as u32,
        _ => rng.pick(&CHARACTERS),
    };
    char::from_u32(n).unwrap_or('a')
}

/// Appends a lead byte and followers, which may or may not be UTF-8.
fn sequence(rng: &mut Rng, bytes: &mut Vec<u8>) {
    bytes.push(rng.pick(&LEADS));
    for _ in 0..rng.below(4) {
        bytes.push(rng.pick(&FOLLOWERS));
    }
}

pub fn short_string() -> Vec<Kind> {
    let mut edges = at_start(&[
        "-", "00", "0141", "02c3a9", "02c080", "03eda080", "03eda0", "02c3", "01c3", "0141ff", "ff",
    ]);
    for length in LENGTHS {
        let mut bytes = vec![length as u8];
        bytes.resize(length as usize + 1, b'a');
        edges.push(Case::new(&[0], &bytes));
        bytes.push(0xff);
        edges.push(Case::new(&[0], &bytes));
        bytes.truncate(length as usize);
        edges.push(Case::new(&[0], &bytes));
    }
    of_reader(3, 1_000_000, edges, short_string_bytes)
}

/// A short string, at times with other bytes in it than UTF-8, at times with another length.
pub fn short_string_bytes(rng: &mut Rng, bytes: &mut Vec<u8>) {
    let start = bytes.len();
    bytes.push(0);
    string(rng, bytes);
    let length = bytes.len() - start - 1;
    bytes[start] = match rng.below(8) {
        0 => (length as u8).wrapping_add(1),
        1 => (length as u8).wrapping_sub(1),
        _ => length as u8,
    };
}

/// A string of at most 255 bytes, at times not UTF-8.
pub fn string(rng: &mut Rng, bytes: &mut Vec<u8>) {
    let end = match rng.below(8) {
        0 => rng.pick(&LENGTHS),
        _ => rng.below(16),
    };
    if end >= 4 && rng.below(4) == 0 {
        let before = bytes.len();
        text(rng, bytes, end - 4);
        sequence(rng, bytes);
        let rest = end - (bytes.len() - before) as u64;
        text(rng, bytes, rest);
    } else {
        text(rng, bytes, end);
    }
}
