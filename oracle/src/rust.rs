//! The ported Rust's answers, with document 01's numbers and the places reached.
//! Where the Rust cannot say what document 01 or 02 asks, the document's answer stands in its place
//! and is marked as such.

pub mod builds;
pub mod entries;
pub mod frames;
pub mod items;
pub mod messages;
pub mod sessions;
pub mod tables;
pub mod writers;

use crate::answer::{Answer, Expected, Value};
use crate::hashes;
use p2p::protocol::address_sanity::is_bogus_address;
use p2p::transport::frame::{encode, Frame};
use p2p::transport::vlq;
use p2p::types::Network;
use std::io::{self, Cursor, ErrorKind, Read};
use std::net::{IpAddr, Ipv4Addr, Ipv6Addr, SocketAddr};
use std::ops::RangeInclusive;
use std::string::FromUtf8Error;

/// The limit on lengths and counts, in vlq.rs and in document 01.
pub const LIMIT: u64 = 16_388_608;

/// 3fff::/20, the documentation space of RFC 9637, which the Rust does not know (document 02, §5).
const RFC_9637: RangeInclusive<Ipv6Addr> = Ipv6Addr::new(0x3fff, 0, 0, 0, 0, 0, 0, 0)
    ..=Ipv6Addr::new(0x3fff, 0xfff, 0xffff, 0xffff, 0xffff, 0xffff, 0xffff, 0xffff);

/// How the text of a refusal by the Rust begins, and document 01's number for it.
const TEXTS: [(&str, u8); 11] = [
    ("VLQ overflow", 2),
    ("VLQ length too large", 3),
    ("Frame too short", 5),
    ("Bad magic", 6),
    ("Body too large", 7),
    ("Frame truncated", 8),
    ("Checksum mismatch", 9),
    ("INV/Request count", 10),
    ("ModifierResponse count", 10),
    ("Peers count", 10),
    ("ModifierResponse declared payload", 11),
];

/// Document 01's number for a refusal by the Rust.
fn number(e: &io::Error) -> u8 {
    if e.kind() == ErrorKind::UnexpectedEof {
        return 1;
    }
    if e.get_ref().is_some_and(|inner| inner.is::<FromUtf8Error>()) {
        return 4;
    }
    numbered(&TEXTS, &e.to_string())
}

/// The number of the text that begins so.
fn numbered(texts: &[(&str, u8)], text: &str) -> u8 {
    let found = texts.iter().find(|(start, _)| text.starts_with(start));
    found.unwrap_or_else(|| panic!("no number for the Rust's refusal: {text}")).1
}

fn refused(n: u8) -> Expected {
    Expected::Document(Answer::Refused(n))
}

/// A reader of the Rust at a place. The Rust has no word for a place past the length.
fn read<R>(s: &[u8], at: u64, reader: R) -> Expected
where
    R: FnOnce(&mut Cursor<&[u8]>) -> io::Result<Value>,
{
    if at > s.len() as u64 {
        return refused(12);
    }
    let mut cursor = cursor(s, at);
    let value = reader(&mut cursor);
    Expected::Rust(answer(value.map(|value| (value, cursor.position()))))
}

/// A value and the next place, by the Rust.
type Reading = io::Result<(Value, u64)>;

fn answer(reading: Reading) -> Answer {
    match reading {
        Ok((value, next)) => Answer::Reached(value, next),
        Err(e) => Answer::Refused(number(&e)),
    }
}

fn cursor(s: &[u8], at: u64) -> Cursor<&[u8]> {
    let mut cursor = Cursor::new(s);
    cursor.set_position(at);
    cursor
}

fn byte(cursor: &mut Cursor<&[u8]>) -> io::Result<u8> {
    let mut byte = [0u8; 1];
    cursor.read_exact(&mut byte)?;
    Ok(byte[0])
}

pub fn read_byte(s: &[u8], at: u64) -> Expected {
    read(s, at, |cursor| byte(cursor).map(|b| Value::Unsigned(b.into())))
}

pub fn read_vlq(s: &[u8], at: u64) -> Expected {
    read(s, at, |cursor| vlq::read_vlq(cursor).map(Value::Unsigned))
}

pub fn read_vlq_length(s: &[u8], at: u64) -> Expected {
    read(s, at, |cursor| vlq::read_vlq_length(cursor).map(|n| Value::Unsigned(n as u64)))
}

pub fn read_short_string(s: &[u8], at: u64) -> Expected {
    read(s, at, |cursor| vlq::read_short_string(cursor).map(|t| Value::Bytes(t.into_bytes())))
}

/// The Rust reads n bytes into room that it makes first, so it is asked up to the limit only.
pub fn read_part(s: &[u8], at: u64, n: u64) -> Expected {
    if n > LIMIT {
        return refused(if at > s.len() as u64 { 12 } else { 1 });
    }
    read(s, at, |cursor| {
        let mut part = vec![0u8; n as usize];
        cursor.read_exact(&mut part)?;
        Ok(Value::Bytes(part))
    })
}

/// A writer of the Rust after `at` bytes. It refuses nothing, so 12 and 14 are document 01's.
fn write(room: u64, at: u64, writer: impl FnOnce(&mut Vec<u8>)) -> Expected {
    if at > room {
        return refused(12);
    }
    let mut out = vec![0; at as usize];
    writer(&mut out);
    let end = out.len() as u64;
    if end > room {
        return refused(14);
    }
    Expected::Rust(Answer::Reached(Value::Bytes(out.split_off(at as usize)), end))
}

pub fn write_vlq(room: u64, at: u64, value: u64) -> Expected {
    write(room, at, |out| vlq::write_vlq(out, value))
}

/// The Rust takes UTF-8 of at most 255 bytes; 13 and 4 are document 01's.
pub fn write_short_string(room: u64, at: u64, s: &[u8]) -> Expected {
    if at > room {
        return refused(12);
    }
    if s.len() > 255 {
        return refused(13);
    }
    match std::str::from_utf8(s) {
        Ok(text) => write(room, at, |out| vlq::write_short_string(out, text)),
        Err(_) => refused(4),
    }
}

pub fn write_part(room: u64, at: u64, s: &[u8]) -> Expected {
    write(room, at, |out| out.extend_from_slice(s))
}

fn is(value: Value) -> Expected {
    Expected::Rust(Answer::Is(value))
}

pub fn zigzag_encode(n: i32) -> Expected {
    is(Value::Unsigned(vlq::zigzag_encode(n).into()))
}

pub fn zigzag_decode(n: u32) -> Expected {
    is(Value::Signed(vlq::zigzag_decode(n).into()))
}

pub fn zigzag_encode_i64(n: i64) -> Expected {
    is(Value::Unsigned(vlq::zigzag_encode_i64(n)))
}

pub fn zigzag_decode_i64(n: u64) -> Expected {
    is(Value::Signed(vlq::zigzag_decode_i64(n)))
}

pub fn is_utf8(s: &[u8]) -> Expected {
    is(Value::Truth(std::str::from_utf8(s).is_ok()))
}

/// The address is its bytes as a big-endian number.
pub fn is_bogus_v4(address: u32, port: u16, mainnet: u8) -> Expected {
    is_bogus(Ipv4Addr::from(address).into(), port, mainnet)
}

/// The address is its bytes as two big-endian numbers.
pub fn is_bogus_v6(high: u64, low: u64, port: u16, mainnet: u8) -> Expected {
    is_bogus(Ipv6Addr::from((high as u128) << 64 | low as u128).into(), port, mainnet)
}

fn is_bogus(ip: IpAddr, port: u16, mainnet: u8) -> Expected {
    judged(SocketAddr::new(ip, port), mainnet).map(|bogus| Answer::Is(Value::Truth(bogus)))
}

/// Whether an address is bogus: by the Rust, which is asked on neither network about the range of
/// RFC 9637; there document 02 says it, bogus on mainnet alone.
fn judged(address: SocketAddr, mainnet: u8) -> Expected<bool> {
    match address.ip() {
        IpAddr::V6(ip) if RFC_9637.contains(&ip) => Expected::Document(mainnet != 0),
        _ => Expected::Rust(is_bogus_address(address, network(mainnet))),
    }
}

/// Any `mainnet` but 0 is mainnet.
fn network(mainnet: u8) -> Network {
    if mainnet == 0 {
        Network::Testnet
    } else {
        Network::Mainnet
    }
}

/// The six files hold no hash; four implementations must agree on it.
pub fn blake2b256(s: &[u8]) -> Expected {
    let hash = hashes::blake2b_simd(s);
    assert_eq!(hash, hashes::blake2_rfc(s), "blake2-rfc differs from blake2b_simd");
    assert_eq!(hash, hashes::libb2(s), "libb2 differs from blake2b_simd");
    assert_eq!(hash, hashes::libsodium(s), "libsodium differs from blake2b_simd");
    is(Value::Bytes(hash.to_vec()))
}

/// The check that the Rust writes into a frame; into an empty one it writes none.
pub fn frame_check(s: &[u8]) -> Expected {
    if s.is_empty() {
        return Expected::Document(Answer::Is(Value::Bytes(hashes::blake2b_simd(s)[..4].to_vec())));
    }
    let frame = encode(&Network::Mainnet.magic(), &Frame { code: 0, body: s.to_vec() });
    is(Value::Bytes(frame[9..13].to_vec()))
}

#[cfg(test)]
mod tests {
    use super::*;
    use crate::cases::addresses::near_v6;
    use crate::rng::Rng;

    /// Who judges an address on mainnet and on testnet, and how.
    fn judges(text: &str) -> [Expected<bool>; 2] {
        let address = SocketAddr::new(text.parse().expect("an address"), 9030);
        [1, 0].map(|mainnet| judged(address, mainnet))
    }

    #[test]
    fn the_rust_is_not_asked_about_the_range_of_rfc_9637() {
        for inside in ["3fff::", "3fff:fff::", "3fff:fff:ffff:ffff:ffff:ffff:ffff:ffff"] {
            assert_eq!(judges(inside), [true, false].map(Expected::Document), "{inside}");
        }
        for outside in ["3ffe:ffff:ffff:ffff:ffff:ffff:ffff:ffff", "3fff:1000::", "4000::"] {
            assert_eq!(judges(outside), [false, false].map(Expected::Rust), "{outside}");
        }
        assert_eq!(judges("2001:db8::"), [true, false].map(Expected::Rust));
    }

    #[test]
    fn the_rust_is_asked_about_every_other_address() {
        let mut rng = Rng::new(1, 0, 0);
        let mut inside = 0;
        for _ in 0..100_000 {
            let address = near_v6(&mut rng);
            let judge = judged(SocketAddr::new(Ipv6Addr::from(address).into(), 0), 1);
            assert_eq!(judge.is_document(), address >> 108 == 0x3fff0, "{address:x}");
            inside += judge.is_document() as u32;
        }
        assert!((5_000..20_000).contains(&inside), "{inside}");
        let v4 = |n: u32| judged(SocketAddr::new(Ipv4Addr::from(n << 16).into(), 0), 1);
        assert!((0..1 << 16).all(|n| !v4(n).is_document()));
    }
}
