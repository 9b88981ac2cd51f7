//! Cases for message bodies: counts around each cap, items right and wrong, declared lengths around
//! the body's own. The first number of a case is the cap of Peers, or an index or place.

use super::fields::{entry, padded, Wrong, NEVER};
use super::numbers::{edge_number, vlq_bytes};
use crate::case::{unhex, Case};
use crate::kinds::{brief, changed, damage, networks, places, short, with, Kind, Visit};
use crate::rng::Rng;
use crate::rust::messages::{starts, MOST};
use crate::rust::LIMIT;
use p2p::protocol::messages::{parse_peers_body, ProtocolMessage};
use p2p::transport::frame::Frame;
use p2p::transport::vlq::write_vlq;

/// Makes a case: a body, and numbers that belong to it.
type Make = fn(&mut Rng) -> Case;

const AT_TIMES: Wrong = Wrong(60);

/// The largest cap of random cases: the Rust makes room for any count within it.
const LARGEST_CAP: u64 = 1_000_000;

/// An entry that says nothing but its version.
const LEAST: [u8; 7] = [0, 4, 0, 100, 0, 0, 0];

/// The code of each kind of message, Unknown last.
const CODES: [u64; 7] = [1, 2, 22, 33, 55, 65, 3];

/// Messages: cap, network and code before the body.
pub fn messages(count: u64) -> Vec<Kind> {
    let mut kinds = vec![Kind::edges(edges(&CODES)), coded(with(short(2), 0, |_| [64]))];
    kinds.extend(of_bodies(count, |rng| any_message(rng, AT_TIMES)));
    kinds.extend([codes(), with(peer_counts(), 2, |_| [2]), with(id_counts(), 2, |_| [22, 55])]);
    kinds.extend([payload_counts(), totals()].map(|kind| with(kind, 2, |_| [33])));
    kinds.into_iter().map(|kind| networks(kind, 1)).collect()
}

fn coded(kind: Kind) -> Kind {
    with(kind, 2, |_| CODES)
}

/// Bodies of Peers: the cap and one more number before them.
fn of_peers(count: u64) -> Vec<Kind> {
    let mut kinds = vec![Kind::edges(edges(&[2])), with(short(2), 0, |_| [0, 1, 64])];
    kinds.extend(of_bodies(count, |rng| peers(rng, AT_TIMES)));
    kinds.push(peer_counts());
    kinds
}

/// Bodies of Peers on both networks.
pub fn judged_peers(count: u64) -> Vec<Kind> {
    of_peers(count).into_iter().map(|kind| networks(kind, 1)).collect()
}

/// Bodies of Peers with indices.
pub fn indexed_peers(count: u64) -> Vec<Kind> {
    let indices = |case: &Case| {
        let specs = parse_peers_body(&case.bytes, case.place(0));
        near(case, specs.map_or(0, |specs| specs.len()))
    };
    of_peers(count).into_iter().map(|kind| with(kind, 1, indices)).collect()
}

/// Bodies of ids with indices.
pub fn indexed_ids(count: u64) -> Vec<Kind> {
    let lists = [Kind::edges(edges(&[22, 55])), short(2), id_counts()];
    let kinds = lists.into_iter().chain(of_bodies(count, |rng| ids(rng, AT_TIMES)));
    kinds.map(|kind| with(kind, 0, |case| near(case, items(55, case)))).collect()
}

/// Bodies of payloads with indices.
pub fn indexed_payloads(count: u64) -> Vec<Kind> {
    let lists = [Kind::edges(edges(&[33])), short(2), payload_counts(), totals()];
    let kinds = lists.into_iter().chain(of_bodies(count, |rng| payloads(rng, AT_TIMES)));
    kinds.map(|kind| with(kind, 0, |case| near(case, items(33, case)))).collect()
}

/// Each body between other bytes, with its place and length before its numbers; and bodies that are
/// not inside.
pub fn in_stream(kinds: Vec<Kind>) -> Vec<Kind> {
    let mut surrounded: Vec<Kind> = kinds.into_iter().map(|kind| changed(kind, surround)).collect();
    surrounded.push(Kind::random("outside", 20_000, |rng, visit| {
        let mut case = Case::default();
        let length = rng.below(40);
        rng.append(&mut case.bytes, length);
        for start in places(rng, length) {
            for n in places(rng, length) {
                case.words[..2].copy_from_slice(&[start, n]);
                visit(&case);
            }
        }
    }));
    surrounded
}

/// Up to 8 bytes before a body and after it.
fn surround(case: &mut Case) {
    let length = case.bytes.len();
    let sum: usize = case.bytes.iter().map(|b| *b as usize).sum();
    let (before, after) = (1 + (length + sum) % 8, sum % 9);
    let bytes = [&vec![0x5a; before], &case.bytes[..], &vec![0xa5; after]].concat();
    case.bytes = bytes;
    case.words.rotate_right(2);
    case.words[..2].copy_from_slice(&[before as u64, length as u64]);
}

/// How many items a message has, if the Rust reads it.
fn items(code: u8, case: &Case) -> usize {
    match ProtocolMessage::from_frame(&Frame { code, body: case.bytes.clone() }) {
        Ok(ProtocolMessage::Inv { ids, .. }) => ids.len(),
        Ok(ProtocolMessage::ModifierResponse { modifiers, .. }) => modifiers.len(),
        _ => 0,
    }
}

/// Indices within so many items and past them.
fn near(case: &Case, count: usize) -> [u64; 3] {
    let sum = case.bytes.iter().map(|b| *b as usize).sum::<usize>();
    let past = [count, count + 1, 400, 1 << 32, 1 << 63, usize::MAX][sum % 6];
    [sum % (count + 1), count.saturating_sub(1), past].map(|index| index as u64)
}

/// Payloads at their places with the lengths before them, at other places and with other lengths.
pub fn placed_payloads(count: u64) -> Vec<Kind> {
    vec![
        with(Kind::edges(edges(&[33])), 0, |_| [2, 0]),
        with(short(2), 0, |_| [0, 2]),
        Kind::random("boundary", count, |rng, visit| {
            let case = payloads(rng, AT_TIMES);
            placed(rng, &case, visit);
        }),
        Kind::random("damaged", count, |rng, visit| {
            let case = brief(rng, |rng| payloads(rng, AT_TIMES), |case| case);
            let mut damaged = vec![];
            damage(rng, &case, 0..case.bytes.len(), &mut |case| damaged.push(case.clone()));
            for case in damaged {
                placed(rng, &case, visit);
            }
        }),
        Kind::random("places", count / 4, |rng, visit| {
            let mut case = payloads(rng, AT_TIMES);
            let length = case.bytes.len() as u64;
            for place in places(rng, length) {
                let total = rng.pick(&[0, 1, length - 1, length, length + 1, 1 << 63, u64::MAX]);
                case.words[..2].copy_from_slice(&[place, total]);
                visit(&case);
            }
        }),
        with(totals(), 0, |_| [2, 35]),
    ]
}

/// A body with each place that a reading gets to, and one of these with another total.
fn placed(rng: &mut Rng, case: &Case, visit: Visit) {
    let mut copy = case.clone();
    let starts = starts(&case.bytes);
    for start in &starts {
        copy.words[..2].copy_from_slice(start);
        visit(&copy);
    }
    let rest = (case.bytes.len() as u64).saturating_sub(copy.words[1]);
    copy.words[1] = copy.words[1].wrapping_add(rng.pick(&[1, rest, rest / 2, 1 << 63]));
    visit(&copy);
}

/// The kinds that random bodies give.
fn of_bodies(count: u64, make: Make) -> [Kind; 3] {
    [
        Kind::random("boundary", count, move |rng, visit| visit(&make(rng))),
        Kind::random("damaged", count, move |rng, visit| {
            let case = brief(rng, make, |case| case);
            damage(rng, &case, 0..case.bytes.len(), visit);
        }),
        Kind::random("random", count / 4, move |rng, visit| {
            let mut case = make(rng);
            case.bytes.clear();
            let length = rng.below(80);
            rng.append(&mut case.bytes, length);
            visit(&case);
        }),
    ]
}

// ---- fixed lists

/// Document 01's edges, of some codes.
fn edges(codes: &[u64]) -> Vec<Case> {
    const ID: &str = "abababababababababababababababababababababababababababababababab";
    const LONG: &str = "8080808080808080808000";
    let texts = [
        (55, "0200"),
        (55, "029103"),
        (55, "029003"),
        (55, "0201 ID"),
        (55, "0201 ID 00"),
        (55, "0202 ID"),
        (55, "02 LONG"),
        (22, "028100 ID ff"),
        (22, "0281a4e807"),
        (22, "0280a4e807"),
        (22, "02"),
        (33, "0001 ID 24"),
        (33, "0001 ID 23"),
        (33, "0001 ID 00"),
        (33, "0001 ID 01 99"),
        (33, "0001 ID 81a4e807"),
        (33, "0001 ID 80a4e807"),
        (33, "0001 ID LONG"),
        (33, "0001 abab"),
        (33, "0002 ID 01 99 ID 8001"),
        (33, "0002 ID 01 99 ID 02 9999"),
        (33, "009103"),
        (33, "00 LONG"),
        (2, "00"),
        (2, "01 00040064000000"),
        (2, "02 00040064000000"),
        (2, "01 00040064 00 01080a000001c646 00"),
        (2, "02 00040064 00 01087f000001c646 00 00040064 00 010801020304c646 00"),
        (2, "01 01c3040064000000"),
        (2, "01 00040064 00 010801020304 LONG 00"),
        (2, "01 00040064 00 00 01 05 81a4e807"),
        (2, "41"),
        (2, "40"),
        (2, "LONG"),
        (2, "81a4e807"),
        (1, "-"),
        (1, "ff"),
        (65, "-"),
        (65, "ffffff"),
        (3, "-"),
        (3, "ffffff"),
    ];
    let bytes = |text: &str| {
        let text = text.replace("ID", ID).replace("LONG", LONG).replace(' ', "");
        unhex(&text).expect("hex")
    };
    let chosen = texts.iter().filter(|(code, _)| codes.contains(code));
    chosen.map(|(code, text)| Case::new(&[64, 0, *code], &bytes(text))).collect()
}

/// Each code with a few bodies.
fn codes() -> Kind {
    const BODIES: [&[u8]; 8] =
        [&[], &[0], &[7, 0], &[0, 0], &[1], &[2, 1], &[255, 1, 9], &[0x80, 0x80]];
    Kind::every("codes", 256 * 8, |i, case| case.set(&[64, 0, i / 8], BODIES[i as usize % 8]))
}

/// Counts around 400 and the limit, and small ones.
const COUNTS: [u64; 16] = [
    0,
    1,
    2,
    127,
    128,
    399,
    MOST,
    MOST + 1,
    402,
    65536,
    LIMIT - 1,
    LIMIT,
    LIMIT + 1,
    1 << 32,
    1 << 63,
    u64::MAX,
];

/// Each of these counts with as many items, one fewer, one more and none; of too large ones, 402.
fn listed(name: &'static str, item: fn(u64, &mut Vec<u8>)) -> Kind {
    Kind::every(name, 16 * 4, move |i, case| {
        let count = COUNTS[i as usize / 4];
        let present = match i % 4 {
            3 => 0,
            more => (count.min(401) + more).saturating_sub(1),
        };
        case.set(&[0], &[7]);
        write_vlq(&mut case.bytes, count);
        (0..present).for_each(|k| item(k, &mut case.bytes));
    })
}

fn id_counts() -> Kind {
    listed("counts", |k, bytes| bytes.extend([k as u8; 32]))
}

fn payload_counts() -> Kind {
    listed("counts", |k, bytes| {
        bytes.extend([k as u8; 32]);
        bytes.push((k % 3) as u8);
        bytes.extend((0..k % 3).map(|b| b as u8));
    })
}

/// Counts of entries with caps around them, and as many entries, one fewer and one more.
fn peer_counts() -> Kind {
    Kind::every("counts", 80 * 6 * 3, |i, case| {
        let (count, present) = (i / 18, (i / 18 + i % 3).saturating_sub(1));
        let cap = [count, count.saturating_sub(1), count + 1, 0, 64, u64::MAX][i as usize / 3 % 6];
        case.set(&[cap], &[]);
        write_vlq(&mut case.bytes, count);
        case.bytes.extend(LEAST.repeat(present as usize));
    })
}

/// Up to two payloads and one more, whose declared length is around what is there, or around the
/// body's length less the lengths before it.
fn totals() -> Kind {
    const BEFORE: [u64; 4] = [0, 1, 5, 200];
    const PRESENT: [u64; 6] = [0, 1, 2, 3, 100, 300];
    Kind::every("totals", 3 * 4 * 6 * 16, |i, case| {
        let [more, declared] = [i / 384, i % 16];
        let [before, present] = [BEFORE[i as usize / 96 % 4], PRESENT[i as usize / 16 % 6]];
        case.set(&[0], &[7, 1 + more as u8]);
        for _ in 0..more {
            payload(&mut case.bytes, before, before);
        }
        let size = case.bytes.len() as u64 + 33 + present;
        let length = match declared {
            0..5 => (present + declared).saturating_sub(2),
            _ => (size - more * before + declared).saturating_sub(10),
        };
        payload(&mut case.bytes, length, present);
    })
}

fn payload(bytes: &mut Vec<u8>, declared: u64, present: u64) {
    bytes.extend([0xcd; 32]);
    write_vlq(bytes, declared);
    bytes.resize(bytes.len() + present as usize, 0x61);
}

// ---- random ones

/// A message of any kind, with its code as the third number.
pub fn any_message(rng: &mut Rng, wrong: Wrong) -> Case {
    let (mut case, code) = match rng.below(8) {
        0..=2 => (peers(rng, wrong), 2),
        3 | 4 => (ids(rng, wrong), rng.pick(&[22, 55])),
        5 | 6 => (payloads(rng, wrong), 33),
        _ => (other(rng), rng.pick(&[1, 65, 3, 255])),
    };
    case.words[2] = if wrong.now(rng) { rng.pick(&CODES) } else { code };
    if rng.below(4) == 0 {
        let after = rng.below(6);
        rng.append(&mut case.bytes, after);
    }
    case
}

fn other(rng: &mut Rng) -> Case {
    let mut case = Case::default();
    let length = rng.below(60);
    rng.append(&mut case.bytes, length);
    case
}

/// A body of Peers, and a cap around its count.
pub fn peers(rng: &mut Rng, wrong: Wrong) -> Case {
    let mut case = Case::default();
    let count = items_of(rng);
    case.words[0] = match rng.below(4) {
        0 => (count + rng.below(3)).saturating_sub(1),
        1 => rng.below(LARGEST_CAP),
        _ => 64,
    };
    declare(rng, &mut case.bytes, count, wrong);
    for _ in 0..count {
        entry(rng, &mut case.bytes, Wrong(wrong.0 * count));
    }
    case
}

pub fn ids(rng: &mut Rng, wrong: Wrong) -> Case {
    let mut case = Case::default();
    case.bytes.push(rng.byte());
    let count = items_of(rng);
    declare(rng, &mut case.bytes, count, wrong);
    rng.append(&mut case.bytes, 32 * count);
    case
}

pub fn payloads(rng: &mut Rng, wrong: Wrong) -> Case {
    let mut case = Case::default();
    let bytes = &mut case.bytes;
    bytes.push(rng.byte());
    let count = items_of(rng);
    declare(rng, bytes, count, wrong);
    for _ in 0..count {
        rng.append(bytes, 32);
        let length = if rng.below(8) == 0 { 120 + rng.below(20) } else { rng.below(12) };
        if wrong.now(rng) {
            let size = bytes.len() as u64 + length;
            let wrong =
                rng.pick(&[length + 1, size - 1, size, size + 1, size + 40, LIMIT, LIMIT + 1]);
            write_vlq(bytes, wrong);
        } else {
            declare(rng, bytes, length, NEVER);
        }
        rng.append(bytes, length);
    }
    case
}

/// How many items a random body has.
fn items_of(rng: &mut Rng) -> u64 {
    match rng.below(64) {
        0 => rng.below(70),
        _ => rng.below(5),
    }
}

/// A count or length, at times longer than it need be; a wrong one is another.
fn declare(rng: &mut Rng, bytes: &mut Vec<u8>, count: u64, wrong: Wrong) {
    match rng.below(8) {
        _ if wrong.now(rng) => {
            let other = rng.pick(&[count + 1, count.saturating_sub(1), 399, 400, 401, LIMIT + 1]);
            match rng.below(4) {
                0 => write_vlq(bytes, edge_number(rng)),
                1 => vlq_bytes(rng, bytes),
                _ => write_vlq(bytes, other),
            }
        }
        0 => padded(rng, bytes, count),
        _ => write_vlq(bytes, count),
    }
}
