//! Random entries and handshakes, field by field: each field of every shape, right or, at times, wrong.

use super::numbers::{edge_number, vlq_bytes};
use super::{addresses, text};
use crate::rng::Rng;
use crate::rust::LIMIT;
use p2p::transport::vlq::{write_vlq, zigzag_encode_i64};
use p2p::types::Network;

/// How often a field of an entry is wrong: once in so many, or never where it is 0.
#[derive(Clone, Copy)]
pub struct Wrong(pub u64);

impl Wrong {
    pub fn now(self, rng: &mut Rng) -> bool {
        self.0 > 0 && rng.below(self.0) == 0
    }
}

pub const NEVER: Wrong = Wrong(0);

/// Both sides of 4.0.100 in each part of a version.
const VERSIONS: [[u8; 3]; 8] = [
    [4, 0, 100],
    [4, 0, 99],
    [4, 0, 101],
    [4, 1, 0],
    [3, 255, 255],
    [5, 0, 0],
    [6, 0, 1],
    [0, 0, 0],
];

pub fn handshake(rng: &mut Rng, bytes: &mut Vec<u8>, wrong: Wrong) {
    number(rng, bytes, wrong);
    entry(rng, bytes, wrong);
}

pub fn entry(rng: &mut Rng, bytes: &mut Vec<u8>, wrong: Wrong) {
    string(rng, bytes, wrong);
    version(rng, bytes);
    string(rng, bytes, wrong);
    address(rng, bytes, wrong);
    feature_list(rng, bytes, wrong);
}

/// A VLQ of ten bytes at most, at times longer than it need be; a wrong one may be longer.
fn number(rng: &mut Rng, bytes: &mut Vec<u8>, wrong: Wrong) {
    if wrong.now(rng) {
        return vlq_bytes(rng, bytes);
    }
    let value = if rng.below(4) == 0 { edge_number(rng) } else { rng.number() };
    if rng.below(4) == 0 {
        padded(rng, bytes, value);
    } else {
        write_vlq(bytes, value);
    }
}

/// A VLQ with groups of zeros after it, ten bytes at most.
pub fn padded(rng: &mut Rng, bytes: &mut Vec<u8>, value: u64) {
    let start = bytes.len();
    write_vlq(bytes, value);
    let longest = 10 - (bytes.len() - start) as u64;
    let more = rng.below(longest + 1);
    for _ in 0..more {
        *bytes.last_mut().expect("a VLQ") |= 0x80;
        bytes.push(0);
    }
}

/// A short string; a wrong one has another length or is not UTF-8.
pub fn string(rng: &mut Rng, bytes: &mut Vec<u8>, wrong: Wrong) {
    if wrong.now(rng) {
        return text::short_string_bytes(rng, bytes);
    }
    let length = if rng.below(10) == 0 { rng.pick(&text::LENGTHS) } else { rng.below(14) };
    bytes.push(length as u8);
    text::text(rng, bytes, length);
}

pub fn version(rng: &mut Rng, bytes: &mut Vec<u8>) {
    if rng.below(4) == 0 {
        rng.append(bytes, 3);
    } else {
        bytes.extend(rng.pick(&VERSIONS));
    }
}

/// A flag, and an address of each kind; a wrong one lacks a byte or has one more.
pub fn address(rng: &mut Rng, bytes: &mut Vec<u8>, wrong: Wrong) {
    let flag = rng.pick(&[0, 0, 1, 1, 1, 1, 2, 255]);
    bytes.push(flag);
    if flag == 0 {
        return;
    }
    let length = match rng.below(8) {
        0..=2 => 8,
        3..=5 => 20,
        6 => rng.below(26) as u8,
        _ => rng.byte(),
    };
    bytes.push(length);
    let start = bytes.len();
    match length {
        8 => bytes.extend(addresses::near_v4(rng).to_be_bytes()),
        20 => bytes.extend(addresses::near_v6(rng).to_be_bytes()),
        _ => rng.append(bytes, length.saturating_sub(4).into()),
    }
    if wrong.now(rng) {
        let shorter = bytes.len().saturating_sub(1).max(start);
        bytes.resize(rng.pick(&[shorter, bytes.len() + 1]), 0);
    }
    match rng.below(4) {
        0 => number(rng, bytes, wrong),
        _ => write_vlq(bytes, rng.below(65536)),
    }
}

/// A count and features; a wrong count is one too many or too few.
pub fn feature_list(rng: &mut Rng, bytes: &mut Vec<u8>, wrong: Wrong) {
    let (count, longest) = match rng.below(128) {
        0 => (rng.below(256), 6),
        1 => (rng.pick(&[127, 128, 254, 255]), 2),
        _ => (rng.below(5), 40),
    };
    let declared =
        if wrong.now(rng) { rng.pick(&[count + 1, count.wrapping_sub(1)]) } else { count };
    bytes.push(declared as u8);
    for _ in 0..count {
        let wrong = if count < 5 { wrong } else { Wrong(wrong.0 * count) };
        feature(rng, bytes, longest, wrong);
    }
}

/// An id, a length and a body; a wrong length is another than the body's.
pub fn feature(rng: &mut Rng, bytes: &mut Vec<u8>, longest: u64, wrong: Wrong) {
    let (id, body) = feature_body(rng, longest);
    bytes.push(id);
    let length = body.len() as u64;
    match rng.below(8) {
        _ if wrong.now(rng) => write_vlq(bytes, wrong_length(rng, length)),
        0 => padded(rng, bytes, length),
        _ => write_vlq(bytes, length),
    }
    bytes.extend(body);
}

/// The id and the body of a feature.
pub fn feature_body(rng: &mut Rng, longest: u64) -> (u8, Vec<u8>) {
    let other = rng.byte();
    let id = rng.pick(&[3, 3, 3, 4, 4, 4, 16, other]);
    let mut body = vec![];
    match id {
        3 => session(rng, &mut body),
        4 => url(rng, &mut body, longest),
        16 => mode(rng, &mut body),
        _ => {
            let length = match rng.below(16) {
                0 if longest > 6 => 126 + rng.below(4),
                _ => rng.below(longest),
            };
            rng.append(&mut body, length);
        }
    }
    (id, body)
}

fn wrong_length(rng: &mut Rng, length: u64) -> u64 {
    match rng.below(4) {
        0 => length + 1,
        1 => length.saturating_sub(1),
        2 => rng.pick(&[LIMIT - 1, LIMIT, LIMIT + 1]),
        _ => edge_number(rng),
    }
}

/// The body of a feature 3: a magic and a session id, at times short, at times another magic.
fn session(rng: &mut Rng, body: &mut Vec<u8>) {
    match rng.below(8) {
        0..=3 => body.extend(Network::Mainnet.magic()),
        4 | 5 => body.extend(Network::Testnet.magic()),
        6 => {
            body.extend(Network::Mainnet.magic());
            body[rng.below(4) as usize] ^= 1 << rng.below(8);
        }
        _ => rng.append(body, 4),
    }
    write_vlq(body, zigzag_encode_i64(rng.number() as i64));
    if rng.below(4) == 0 {
        body.truncate(rng.below(6) as usize);
    }
}

/// The body of a feature 4: a length byte and text, at times with another length or other bytes.
fn url(rng: &mut Rng, body: &mut Vec<u8>, longest: u64) {
    match rng.below(8) {
        0 => (),
        1 | 2 => text::short_string_bytes(rng, body),
        3 => {
            let length = rng.below(longest);
            rng.append(body, length);
        }
        _ => {
            let length = rng.below(longest.min(256));
            body.push(length as u8);
            text::text(rng, body, length);
            let after = rng.below(6).saturating_sub(3);
            rng.append(body, after);
        }
    }
}

/// The body of a feature 16.
fn mode(rng: &mut Rng, body: &mut Vec<u8>) {
    body.extend([rng.below(2) as u8, rng.below(2) as u8, 0]);
    write_vlq(body, zigzag_encode_i64(rng.number() as i32 as i64));
}
