//! Cases for entries and handshakes: every shape of each field, right and wrong ones.

use super::at_start;
use super::fields::{
    address, entry, feature, feature_list, handshake, string, version, Wrong, NEVER,
};
use super::numbers::{edge_number, vlq_bytes};
use crate::case::{unhex, Case};
use crate::kinds::{of_bytes, of_reader, with, Kind};
use crate::rng::Rng;
use crate::rust::LIMIT;
use p2p::transport::handshake::parse_peer_entry;
use p2p::transport::vlq::write_vlq;
use std::io::Cursor;

/// An entry before its address: an agent `a`, version 4.0.100, a name `b`.
const HEAD: &[u8] = &[1, b'a', 4, 0, 100, 1, b'b'];

/// A timestamp.
const TIMESTAMP: &[u8] = &[0xac, 0x02];

const NO_TIMESTAMP: &[u8] = &[];

pub fn handshakes(count: u64) -> Vec<Kind> {
    let mut kinds = of_bytes(2, count, edges(TIMESTAMP), near_handshake);
    kinds.extend(shapes(TIMESTAMP));
    kinds.extend([hostile(count, TIMESTAMP), long(&[TIMESTAMP, HEAD, &[0, 1]].concat())]);
    kinds
}

pub fn entries(count: u64) -> Vec<Kind> {
    let mut kinds = of_reader(2, count, edges(NO_TIMESTAMP), near_entry);
    kinds.extend(shapes(NO_TIMESTAMP));
    kinds.extend([hostile(count, NO_TIMESTAMP), long(&[HEAD, &[0, 1]].concat())]);
    kinds
}

pub fn features(count: u64) -> Vec<Kind> {
    let edges = at_start(&[
        "-",
        "03",
        "0300",
        "030401000204",
        "0480",
        "0480a4e807",
        "0481a4e807",
        "048000",
        "10808000",
        "05808080808080808080",
        "0580808080808080808000",
        "0580808080808080808080",
        "ff01",
        "ff0100",
    ]);
    let mut kinds = of_reader(2, count, edges, near_feature);
    kinds.push(Kind::random("hostile", count / 8, |rng, visit| {
        let mut bytes = vec![rng.byte()];
        write_vlq(&mut bytes, edge_number(rng));
        let after = rng.below(300);
        rng.append(&mut bytes, after);
        visit(&Case::new(&[0], &bytes));
    }));
    kinds.push(long(&[]));
    kinds
}

/// Entries, each with some indices, the second number of a case.
pub fn indexed(count: u64) -> Vec<Kind> {
    entries(count).into_iter().map(|kind| with(kind, 1, indices)).collect()
}

/// Indices within and past the features that an entry has.
fn indices(case: &Case) -> [u64; 4] {
    let mut cursor = Cursor::new(&case.bytes[..]);
    cursor.set_position(case.word(0));
    let count = parse_peer_entry(&mut cursor).map_or(0, |spec| spec.features.len()) as u64;
    let sum = case.bytes.iter().map(|b| *b as u64).sum::<u64>();
    let far = [count + 1, 255, 256, 1 << 32, 1 << 63, u64::MAX][sum as usize % 6];
    [sum % (count + 1), count.saturating_sub(1), count, far]
}

// ---- fixed lists

fn after(before: &[u8], parts: &[&[u8]]) -> Case {
    Case::new(&[0], &[before, &parts.concat()].concat())
}

/// Document 01's edges, and each field cut short.
fn edges(before: &[u8]) -> Vec<Case> {
    let texts = [
        "-",
        "02 6162 060001 00 00 00",
        "00 000000 00 00 00",
        "00 000000 00 01 03 00 00",
        "00 000000 00 01 00 00 00",
        "00 040064 00 01 08 7f000001 808004 00",
        "00 040064 00 01 08 7f000001 c646 00",
        "00 040064 00 01 14 20010db8000000000000000000000001 c646 00",
        "00 040064 00 02 08 01020304 00 00",
        "00 040064 00 01 07 010203 00 00",
        "00 040064 00 01 13 0102030405060708090a0b0c0d0e0f 00 00",
        "00 040064 00 01 15 0102030405060708090a0b0c0d0e0f1011 00 00",
        "00 040064 00 01 08 01020304 8080808080808080808000 00",
        "00 040064 00 01 08 01020304 ffffffffffffffffff7f 00",
        "02 c0 80 040064 00 00 00",
        "00 040064 02 c0 80 00 00",
        "02 c3 a9 040064 03 eda080 00 00",
        "00 040063 00 00 00",
        "00 040064 00 00 01 03 04 01000204",
        "00 040064 00 00 01 03 04 02030203",
        "00 040064 00 00 01 03 03 010002",
        "00 040064 00 00 02 03 03 010002 03 04 02030203",
        "00 040064 00 00 02 03 04 01000204 03 04 02030203",
        "00 040063 00 00 01 03 04 05050505",
        "00 040064 00 00 01 04 03 026162",
        "00 040064 00 00 01 04 03 036162",
        "00 040064 00 00 01 04 01 00",
        "00 040064 00 00 01 04 00",
        "00 040064 00 00 02 04 00 04 03 026162",
        "00 040064 00 00 01 04 03 02c080",
        "00 040064 00 00 01 04 83 00 026162",
        "00 040064 00 00 01 05 80a4e807",
        "00 040064 00 00 01 05 81a4e807",
        "00 040064 00 00 01 05 80808080808080808080",
        "00 040064 00 00 02 05 00",
        "00 040064 00 00 02 05 00 05",
    ];
    let bytes = |text: &str| unhex(&text.replace(' ', "")).expect("hex");
    let mut edges: Vec<Case> = texts.map(|text| after(before, &[&bytes(text)])).to_vec();
    let long = [&[255][..], &[b'a'; 255]].concat();
    edges.push(after(before, &[&long, &[4, 0, 100], &long, &[0, 0]]));
    edges.push(after(before, &[&long, &[4, 0, 100], &long[..255]]));
    if !before.is_empty() {
        for time in ["-", "80", "8080808080808080808000", "ffffffffffffffffff7f"] {
            edges.push(after(&bytes(time), &[HEAD, &[0, 0]]));
        }
    }
    edges
}

/// Lists in which one field takes every shape.
fn shapes(before: &'static [u8]) -> [Kind; 4] {
    [addressed(before), counted(before), paired(before), versions(before)]
}

/// Ports of one to eleven bytes, at both sides of 2^16, and written longer than need be.
const PORTS: [&[u8]; 12] = [
    &[0],
    &[0x7f],
    &[0x80, 0x01],
    &[0xc6, 0x46],
    &[0xff, 0xff, 0x03],
    &[0x80, 0x80, 0x04],
    &[0x81, 0x80, 0x04],
    &[0x80, 0x00],
    &[0xff, 0xff, 0xff, 0xff, 0x7f],
    &[0xff, 0xff, 0xff, 0xff, 0xff, 0xff, 0xff, 0xff, 0xff, 0x7f],
    &[0x80, 0x80, 0x80, 0x80, 0x80, 0x80, 0x80, 0x80, 0x80, 0x80, 0x00],
    &[0x80, 0x80],
];

/// Each length byte of an address, with each flag of a few, with each port.
fn addressed(before: &'static [u8]) -> Kind {
    const FLAGS: [u8; 4] = [1, 0, 2, 255];
    Kind::every("addresses", 256 * 4 * 12, move |i, case| {
        let [length, flag, port] = [i / 48, i / 12 % 4, i % 12];
        let bytes: Vec<u8> = (4..length).map(|k| (k * 37 + i) as u8).collect();
        let address = [FLAGS[flag as usize], length as u8];
        let port = PORTS[port as usize];
        *case = after(before, &[HEAD, &address, &bytes, port, &[1, 5, 1, 9]]);
    })
}

/// Each count of features, with that many, with one fewer and one more, in bodies of 0 to 2 bytes.
fn counted(before: &'static [u8]) -> Kind {
    Kind::every("counts", 256 * 3, move |i, case| {
        let (count, present) = (i / 3, (i / 3 + i % 3).saturating_sub(1));
        let mut features = vec![];
        for k in 0..present {
            features.extend_from_slice(&[(k * 7) as u8, (k % 3) as u8]);
            features.extend((0..k % 3).map(|b| (b + k) as u8));
        }
        *case = after(before, &[HEAD, &[0, count as u8], &features]);
    })
}

/// Bodies of the features 3 and 4: whole, short, empty, with another magic or length, not UTF-8.
const BODIES: [(u8, &[u8]); 28] = [
    (3, &[]),
    (3, &[1]),
    (3, &[1, 0]),
    (3, &[1, 0, 2]),
    (3, &[2, 3, 2]),
    (3, &[9, 9, 9]),
    (3, &[1, 0, 2, 4]),
    (3, &[2, 3, 2, 3]),
    (3, &[1, 0, 2, 5]),
    (3, &[0, 0, 2, 4]),
    (3, &[1, 0, 2, 4, 0x80]),
    (3, &[2, 3, 2, 3, 0xac, 0x02]),
    (3, &[9, 1, 0, 2, 4]),
    (4, &[]),
    (4, &[0]),
    (4, &[0, b'u']),
    (4, &[1]),
    (4, &[1, b'u']),
    (4, &[1, b'u', b'v']),
    (4, &[2, b'u']),
    (4, &[255, b'u']),
    (4, &[1, 0xc3]),
    (4, &[2, 0xc3, 0xa9]),
    (4, &[1, 0xc3, 0xa9]),
    (4, &[3, 0xed, 0xa0, 0x80]),
    (4, &[4, 0xf0, 0x90, 0x80, 0x80]),
    (5, &[1, b'u']),
    (16, &[0, 1, 0, 1]),
];

/// Three features of these in each order, one of them being of every shape again.
fn paired(before: &'static [u8]) -> Kind {
    let n = BODIES.len() as u64;
    Kind::every("features", n * n * 4, move |i, case| {
        let [first, second, third] = [i / 4 / n, i / 4 % n, i * 11 % n];
        let chosen: &[u64] = match i % 4 {
            0 => &[first],
            1 => &[first, second],
            2 => &[first, third, second],
            _ => &[third, first, second],
        };
        let mut features = vec![0, chosen.len() as u8];
        for (id, body) in chosen.iter().map(|k| BODIES[*k as usize]) {
            features.extend_from_slice(&[id, body.len() as u8]);
            features.extend_from_slice(body);
        }
        *case = after(before, &[HEAD, &features]);
    })
}

/// Versions around 4.0.100, with the magic of either network or none.
fn versions(before: &'static [u8]) -> Kind {
    const FEATURES: [&[u8]; 3] = [&[0], &[1, 3, 4, 1, 0, 2, 4], &[1, 3, 4, 2, 3, 2, 3]];
    Kind::every("versions", 7 * 4 * 256 * 3, move |i, case| {
        let version = [(i / 3 / 1024) as u8, (i / 3 / 256 % 4) as u8, (i / 3) as u8];
        *case = after(before, &[&[0], &version, &[0, 0], FEATURES[i as usize % 3]]);
    })
}

/// A feature after these bytes, its length around each power of 128 and the limit: whole, a byte
/// short, and with a byte after it.
fn long(before: &[u8]) -> Kind {
    const LENGTHS: [u64; 4] = [1 << 7, 1 << 14, 1 << 21, LIMIT];
    let before = before.to_vec();
    Kind::every("long", 4 * 3 * 3, move |i, case| {
        let length = LENGTHS[i as usize / 9] + i / 3 % 3 - 1;
        case.set(&[0], &before);
        case.bytes.push(4);
        write_vlq(&mut case.bytes, length);
        let present = (length + i % 3) as usize - 1;
        case.bytes.resize(case.bytes.len() + present, b'a');
    })
}

/// Entries whose lengths and counts say more than is there, and more than is allowed.
fn hostile(count: u64, before: &'static [u8]) -> Kind {
    Kind::random("hostile", count / 8, move |rng, visit| {
        let mut bytes = before.to_vec();
        if rng.below(4) == 0 && !before.is_empty() {
            bytes.clear();
            vlq_bytes(rng, &mut bytes);
        }
        for part in 0..5 {
            let start = bytes.len();
            match part {
                0 | 2 => string(rng, &mut bytes, NEVER),
                1 => version(rng, &mut bytes),
                3 => address(rng, &mut bytes, NEVER),
                _ => feature_list(rng, &mut bytes, NEVER),
            }
            if rng.below(4) == 0 {
                swell(rng, &mut bytes, start);
                let after = rng.below(300);
                rng.append(&mut bytes, after);
                break;
            }
        }
        visit(&Case::new(&[0], &bytes));
    })
}

/// Puts a large number where one of the bytes from `start` on stands.
fn swell(rng: &mut Rng, bytes: &mut Vec<u8>, start: usize) {
    let at = start + rng.below((bytes.len() - start) as u64) as usize;
    bytes.truncate(at);
    match rng.below(4) {
        0 => bytes.push(255),
        1 => write_vlq(bytes, LIMIT - 1 + rng.below(3)),
        2 => write_vlq(bytes, edge_number(rng)),
        _ => vlq_bytes(rng, bytes),
    }
}

// ---- random ones

const AT_TIMES: Wrong = Wrong(40);

/// Half of them with bytes after.
fn near_handshake(rng: &mut Rng, bytes: &mut Vec<u8>) {
    handshake(rng, bytes, AT_TIMES);
    let after = rng.below(18).saturating_sub(9);
    rng.append(bytes, after);
}

fn near_entry(rng: &mut Rng, bytes: &mut Vec<u8>) {
    entry(rng, bytes, AT_TIMES);
}

fn near_feature(rng: &mut Rng, bytes: &mut Vec<u8>) {
    feature(rng, bytes, 300, AT_TIMES);
}

#[cfg(test)]
mod tests {
    use super::*;
    use crate::answer::{Answer, Value};
    use crate::rust::entries as rust;

    /// How many of 4,000 entries the Rust answers so.
    fn count(is: impl Fn(&[u8]) -> bool) -> usize {
        let mut rng = Rng::new(1, 0, 0);
        let mut met = 0;
        for _ in 0..4000 {
            let mut bytes = vec![];
            near_entry(&mut rng, &mut bytes);
            met += is(&bytes) as usize;
        }
        met
    }

    fn reads(bytes: &[u8], number: u64) -> bool {
        let verdict = rust::validate_entry(bytes, 0, 1);
        matches!(verdict.answer(), Answer::Reached(Value::Unsigned(n), _) if *n == number)
    }

    /// The number at an index of an entry's reading.
    fn field(bytes: &[u8], index: usize) -> Option<u64> {
        match rust::parse_peer_entry(bytes, 0).answer() {
            Answer::Reached(Value::List(values), _) => match values[index] {
                Value::Unsigned(n) => Some(n),
                _ => None,
            },
            _ => None,
        }
    }

    #[test]
    fn each_verdict_is_met() {
        for verdict in 0..3 {
            assert!(count(|bytes| reads(bytes, verdict)) > 400, "verdict {verdict}");
        }
    }

    #[test]
    fn each_kind_of_address_is_met() {
        for kind in [0, 4, 6] {
            assert!(count(|bytes| field(bytes, 8) == Some(kind)) > 400, "address {kind}");
        }
    }

    #[test]
    fn urls_and_their_absence_are_met() {
        let found = |bytes: &[u8], found: u64| match rust::rest_api_url(bytes, 0).answer() {
            Answer::Reached(Value::List(values), _) => values[0] == Value::Unsigned(found),
            _ => false,
        };
        for yes in 0..2 {
            assert!(count(|bytes| found(bytes, yes)) > 400, "found {yes}");
        }
    }

    #[test]
    fn entries_that_are_never_wrong_are_read_whole() {
        let mut rng = Rng::new(2, 0, 0);
        for _ in 0..4000 {
            let mut bytes = vec![];
            entry(&mut rng, &mut bytes, NEVER);
            let expected = rust::parse_peer_entry(&bytes, 0);
            let end = bytes.len() as u64;
            assert!(matches!(expected.answer(), Answer::Reached(_, next) if *next == end));
        }
    }
}
