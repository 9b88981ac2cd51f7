//! Rows of hashes and of readers.

use crate::rows::{Row, Side, HALF, ONE_READING};
use crate::values::{self, ENTRIES, MAINNET};
use oracle::hashes::{self, OpenSsl};
use oracle::ours;
use oracle::ours::entries::{entry_at, parsed};
use oracle::ours::messages::{opened, payload_at};
use oracle::ours::sessions::stepped;
use p2p::protocol::address_sanity::is_bogus_address;
use p2p::protocol::messages::{build_peers_body, parse_peers_body, ProtocolMessage};
use p2p::transport::frame::{decode, encode, Frame};
use p2p::transport::handshake::{measure_size, parse, validate_peer, PeerSpec};
use p2p::types::Network;
use std::fmt::Debug;
use std::hint::black_box;
use std::rc::Rc;

pub fn rows() -> Vec<Row> {
    vec![
        hash("hash of 16 MiB", [1.12, 1.0, 1.0, 1.0], 16 << 20, 1),
        hash("hash of 100 bytes", [1.0; 4], 100, 20_000),
        handshake(20_000),
        first_step(20_000),
        peers(400),
        inv(2_000),
        response(1),
        frame("decode of 100 bytes", 100, 20_000),
        frame("decode of 64 KiB", 64 << 10, 50),
        steps("session of 64 KiB", 64 << 10, 50),
        steps("session of 1 MiB", MIB, 4),
        steps("session of 4 MiB", 4 * MIB, 1),
        steps("session of 16 MiB", 16 * MIB, 1),
        steps("session of 64 MiB", 64 * MIB, 1),
    ]
}

const MIB: usize = 1 << 20;

/// Beside libb2, blake2-rfc, libsodium and OpenSSL, with a bound of each.
fn hash(name: &'static str, bounds: [f64; 4], length: usize, calls: usize) -> Row {
    let data: Rc<[u8]> = (0..length).map(|i| (i * 31) as u8).collect();
    let [libb2, rfc, sodium, openssl] = bounds.map(Some);
    let mut context = OpenSsl::blake2b512();
    let sides = vec![
        Side::new("ours", None, hashing(&data, calls, ours::blake2b256)),
        Side::new("libb2", libb2, hashing(&data, calls, hashes::libb2)),
        Side::new("blake2-rfc", rfc, hashing(&data, calls, hashes::blake2_rfc)),
        Side::new("libsodium", sodium, hashing(&data, calls, hashes::libsodium)),
        Side::new("OpenSSL", openssl, hashing(&data, calls, move |s| context.hash(s))),
    ];
    Row::new(name, sides)
}

fn hashing<T, F: FnMut(&[u8]) -> T>(
    data: &Rc<[u8]>,
    calls: usize,
    mut hash: F,
) -> impl FnMut() + use<T, F> {
    let data = data.clone();
    move || {
        for _ in 0..calls {
            black_box(hash(black_box(&data)));
        }
    }
}

/// Both sides' readings of the same value, so many times.
fn both<T: ?Sized + 'static>(
    calls: usize,
    value: impl Into<Rc<T>>,
    ours: fn(&T),
    rust: fn(&T),
) -> [impl FnMut() + Clone; 2] {
    let value = value.into();
    [ours, rust].map(|read| {
        let value = value.clone();
        move || (0..calls).for_each(|_| read(black_box(&value)))
    })
}

/// A reading that is there and that nothing may leave out.
fn keep<T, E: Debug>(reading: Result<T, E>) {
    black_box(reading.expect("a reading"));
}

fn handshake(calls: usize) -> Row {
    let bytes = (values::handshake().rust)();
    let [ours, rust] = both::<[u8]>(calls, bytes, |s| keep(parsed(s)), |s| keep(parse(s)));
    Row::plain("parse of a handshake", HALF, ours, rust)
}

/// The step at place 0, with the verdict.
fn first_step(calls: usize) -> Row {
    let bytes = (values::handshake().rust)();
    let ours = |s: &[u8]| {
        let [kind, _, end, verdict, ..] = stepped(s, 0, MAINNET, ENTRIES).expect("a step");
        assert_eq!(black_box([kind, end, verdict]), [1, s.len() as u64, 0]);
    };
    let rust = |s: &[u8]| assert_eq!(first_end(s), s.len());
    let [ours, rust] = both::<[u8]>(calls, bytes, ours, rust);
    Row::plain("first step of a session", ONE_READING, ours, rust)
}

/// The first step put together from the Rust's functions: where the handshake ends.
fn first_end(s: &[u8]) -> usize {
    let spec = parse(s).expect("a handshake");
    black_box(validate_peer(&spec, &Network::Mainnet).is_ok());
    measure_size(s).expect("a handshake")
}

/// A body of Peers, of which our side reads entry after entry.
fn peers(calls: usize) -> Row {
    let body = build_peers_body(&values::peer_list());
    let ours = |s: &[u8]| {
        let mut at = 1;
        for _ in 0..s[0] {
            let [.., next] = entry_at(s, at).expect("an entry");
            at = black_box(next) as usize;
        }
    };
    let [ours, rust] = both(calls, body, ours, |s| keep(parse_peers_body(s, ENTRIES)));
    Row::plain("Peers of 64 entries", HALF, ours, rust)
}

/// An Inv, of which our side reads a byte of each id.
fn inv(calls: usize) -> Row {
    let ours = |frame: &Frame| {
        let [_, count, _, first, _] = message(frame);
        let ids = part(&frame.body, first, 32 * count);
        black_box(ids.chunks_exact(32).fold(0, |sum: u8, id| sum.wrapping_add(id[0])));
    };
    let [ours, rust] = both(calls, frame_of(values::inv()), ours, |frame| keep(typed(frame)));
    Row::plain("from_frame of Inv of 400 ids", HALF, ours, rust)
}

/// A ModifierResponse, of which our side reads payload after payload.
fn response(calls: usize) -> Row {
    let ours = |frame: &Frame| {
        let [_, count, _, first, _] = message(frame);
        let (mut at, mut total) = (first, 0);
        for _ in 0..count {
            let [id, place, length, next, sum] =
                payload_at(&frame.body, at as usize, total as usize).expect("a payload");
            black_box([part(&frame.body, id, 32), part(&frame.body, place, length)]);
            (at, total) = (next, sum);
        }
    };
    let frame = frame_of(values::response(400));
    let [ours, rust] = both(calls, frame, ours, |frame| keep(typed(frame)));
    Row::plain("from_frame of Response of 8 MB", HALF, ours, rust)
}

fn typed(frame: &Frame) -> std::io::Result<ProtocolMessage> {
    ProtocolMessage::from_frame(frame)
}

/// Our numbers of a message.
fn message(frame: &Frame) -> [u64; 5] {
    opened(frame.code, &frame.body, ENTRIES, MAINNET).expect("a message")
}

fn part(s: &[u8], at: u64, length: u64) -> &[u8] {
    &s[at as usize..][..length as usize]
}

fn frame_of(message: values::Writing) -> Frame {
    decode(&Network::Mainnet.magic(), &(message.rust)()).expect("a frame")
}

fn frame(name: &'static str, length: usize, calls: usize) -> Row {
    let body = (0..length).map(|i| (i * 31) as u8).collect();
    let bytes = encode(&Network::Mainnet.magic(), &Frame { code: 65, body });
    let ours = |s: &[u8]| keep(ours::frames::decoded(s, 0, MAINNET));
    let rust = |s: &[u8]| keep(decode(&Network::Mainnet.magic(), s));
    let [ours, rust] = both(calls, bytes, ours, rust);
    Row::hashing(name, ours, rust)
}

/// The walk over a session of at least so many bytes, by its steps alone.
fn steps(name: &'static str, length: usize, calls: usize) -> Row {
    let bytes = values::session(length).bytes;
    let mib = (calls * bytes.len()) as f64 / MIB as f64;
    let row = session(name, bytes, calls, |s| ours::sessions::items(s, MAINNET, ENTRIES));
    Row { mib: (length >= MIB).then_some(mib), ..row }
}

/// A session, of which each side tells how many items there are.
pub fn session(name: &'static str, bytes: Vec<u8>, calls: usize, ours: fn(&[u8]) -> u64) -> Row {
    assert_eq!(ours(&bytes), items(&bytes));
    let bytes: Rc<[u8]> = bytes.into();
    let [ours, rust] = [ours, items].map(|items| {
        let bytes = bytes.clone();
        move || (0..calls).for_each(|_| assert!(items(black_box(&bytes)) > 1))
    });
    Row::hashing(name, ours, rust)
}

/// The walk put together from the Rust's functions: how many items there are.
fn items(s: &[u8]) -> u64 {
    let mut at = first_end(s);
    let mut count = 1;
    while at < s.len() {
        let frame = decode(&Network::Mainnet.magic(), &s[at..]).expect("a frame");
        at += if frame.body.is_empty() { 9 } else { 13 + frame.body.len() };
        if let ProtocolMessage::Peers { body } = typed(&frame).expect("a message") {
            let specs = parse_peers_body(&body, ENTRIES).expect("entries");
            black_box(specs.iter().filter(|spec| is_bogus(spec)).count());
        }
        count += 1;
    }
    count
}

fn is_bogus(spec: &PeerSpec) -> bool {
    spec.address.is_some_and(|address| is_bogus_address(address, Network::Mainnet))
}
