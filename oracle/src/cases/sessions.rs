//! Cases for sessions: a handshake and messages of every kind, whole, cut at each byte and damaged.

use super::fields::{handshake, Wrong, NEVER};
use super::frames::bytes_of;
use super::messages::any_message;
use crate::case::{unhex, Case};
use crate::kinds::{brief, damage, networks, places, short, with, Kind};
use crate::rng::Rng;
use p2p::types::Network;

/// Document 01's session of 20 bytes: the handshake and GetPeers.
const DOCUMENTED: &str = "ac02026162060001000000010002040100000000";

const RARELY: Wrong = Wrong(400);

/// Whole sessions: network and cap before the bytes.
pub fn sessions(count: u64) -> Vec<Kind> {
    vec![
        Kind::edges(edges()),
        networks(with(short(2), 1, |_| [64]), 0),
        Kind::random("boundary", count / 4, |rng, visit| visit(&session(rng, 21, RARELY).0)),
        Kind::random("damaged", count, |rng, visit| {
            let (case, _) = brief(rng, |rng| session(rng, 4, NEVER), |(case, _)| case);
            damage(rng, &case, 0..case.bytes.len(), visit);
        }),
        // Cut at the end of an item and around the header of the next, on both networks.
        Kind::random("cuts", count, |rng, visit| {
            let (case, ends) = session(rng, 6, NEVER);
            let [mainnet, cap] = [case.word(0) ^ rng.below(2), case.word(1)];
            let cuts = ends.iter().flat_map(|end| [end - 1, *end, end + 4, end + 8, end + 9]);
            for cut in cuts.map(|cut| cut.min(case.bytes.len())) {
                visit(&Case::new(&[mainnet, cap], &case.bytes[..cut]));
            }
        }),
    ]
}

/// Steps: place, network and cap before the bytes.
pub fn steps(count: u64) -> Vec<Kind> {
    let list = edges();
    let first = &list[0];
    let length = first.bytes.len() as u64;
    let mut edges: Vec<Case> = [12, length, length + 1, u64::MAX].map(|p| placed(first, p)).into();
    for case in &list {
        edges.push(placed(case, 0));
        edges.extend((case.bytes.len() > 10).then(|| placed(case, 11)));
    }
    vec![
        Kind::edges(edges),
        networks(with(short(2), 2, |_| [64]), 1),
        Kind::random("items", count, |rng, visit| {
            let (case, ends) = session(rng, 12, RARELY);
            for start in [0].iter().chain(&ends) {
                visit(&placed(&case, *start as u64));
            }
        }),
        Kind::random("damaged", count, |rng, visit| {
            let (case, ends) = brief(rng, |rng| session(rng, 4, NEVER), |(case, _)| case);
            let start = rng.pick(&[&[0][..], &ends].concat());
            damage(rng, &placed(&case, start as u64), start..case.bytes.len(), visit);
        }),
        Kind::random("places", count, |rng, visit| {
            let (case, ends) = session(rng, 6, NEVER);
            for place in places(rng, case.bytes.len() as u64) {
                visit(&placed(&case, place));
            }
            let near = rng.pick(&ends) as u64 + rng.below(3);
            visit(&placed(&case, near.saturating_sub(1)));
        }),
    ]
}

/// A session's case with a place before its network and cap.
fn placed(session: &Case, place: u64) -> Case {
    Case::new(&[place, session.word(0), session.word(1)], &session.bytes)
}

/// Document 01's session cut at each byte, on both networks, with other caps and bytes after it.
fn edges() -> Vec<Case> {
    let bytes = unhex(DOCUMENTED).expect("hex");
    let mut edges = vec![Case::new(&[1, 64], &[&bytes[..], &[7]].concat())];
    for cut in 0..=bytes.len() {
        edges.extend([0, 1].map(|mainnet| Case::new(&[mainnet, 64], &bytes[..cut])));
    }
    // Each kind with different numbers: of Peers three entries, two of them bogus.
    let peers = [
        &[3, 0, 4, 0, 100, 0, 1, 8, 10, 0, 0, 1, 9, 0][..],
        &[0, 4, 0, 100, 0, 1, 8, 8, 8, 8, 8, 9, 0, 0, 4, 0, 100, 0, 1, 8, 127, 0, 0, 1, 9, 0],
    ]
    .concat();
    // Both ends of 3fff::/20 and their neighbours outside.
    let (first, last) = (0x3fff << 112, 0x3fff << 112 | u128::MAX >> 20);
    let mut documentation = vec![4];
    for address in [first - 1, first, last, last + 1] {
        documentation.extend([0, 4, 0, 100, 0, 1, 20]);
        documentation.extend(address.to_be_bytes());
        documentation.extend([9, 0]);
    }
    let ids = [&[9, 2][..], &[7; 64]].concat();
    let payloads = [&[9, 2][..], &[7; 32], &[1, 5], &[8; 32], &[3, 5, 6, 7]].concat();
    let declared = [&[2, 1][..], &[7; 32], &[36]].concat();
    let bodies: [(u8, &[u8]); 23] = [
        (2, &peers),
        (2, &documentation),
        (22, &ids),
        (33, &payloads),
        (55, &ids),
        (65, &ids),
        (77, &payloads),
        (2, &[0]),
        (2, &[1, 0, 4, 0, 100, 0, 1, 8, 10, 0, 0, 1, 9, 0]),
        (2, &[2]),
        (2, &[65]),
        (22, &[2, 0]),
        (33, &[2, 0]),
        (33, &[2, 1]),
        (55, &[2]),
        (55, &[2, 0x91, 0x03]),
        (65, &[1, 2, 3]),
        (3, &[]),
        (255, &[0xff]),
        (2, &[0xff; 10]),
        (2, &[1, 2, 0xc0, 0x80]),
        (55, &[2, 0x81, 0xa4, 0xe8, 0x07]),
        (33, &declared),
    ];
    for (code, body) in bodies {
        for (mainnet, network) in [(1, Network::Mainnet), (0, Network::Testnet)] {
            let session = [&bytes[..11], &bytes_of(network, code, body), &bytes[11..]].concat();
            edges.push(Case::new(&[mainnet, 64], &session));
        }
        let session = [&bytes[..11], &bytes_of(Network::Mainnet, code, body)].concat();
        edges.push(Case::new(&[255, 0], &session));
    }
    // A length above the limit, bytes that are missing, another check.
    let frames: [&[u8]; 3] = [
        &[1, 0, 2, 4, 1, 0, 0xfa, 0x12, 1],
        &[1, 0, 2, 4, 1, 0, 0, 0, 2],
        &[1, 0, 2, 4, 1, 0, 0, 0, 1, 0, 0, 0, 0, 7],
    ];
    edges.extend(frames.map(|frame| Case::new(&[1, 64], &[&bytes[..11], frame].concat())));
    // A timestamp that doesn't end, an agent that isn't UTF-8, a feature above the limit.
    let handshakes: [&[u8]; 3] =
        [&[0xff; 10], &[0, 2, 0xc0, 0x80], &[0, 0, 4, 0, 100, 0, 0, 1, 5, 0x81, 0xa4, 0xe8, 0x07]];
    edges.extend(handshakes.map(|handshake| Case::new(&[1, 64], handshake)));
    // Each verdict: versions below 4.0.100, Sessions of mainnet and of testnet, and both at once.
    let judged: [&[u8]; 5] = [
        &[5, 0, 4, 0, 99, 0, 0, 0],
        &[5, 1, 97, 3, 255, 255, 0, 0, 0],
        &[5, 0, 4, 0, 100, 0, 0, 1, 3, 5, 1, 0, 2, 4, 9],
        &[5, 1, 97, 4, 0, 100, 0, 0, 1, 3, 5, 2, 3, 2, 3, 9],
        &[5, 0, 4, 0, 99, 0, 1, 8, 8, 8, 8, 8, 9, 1, 3, 5, 2, 3, 2, 3, 9],
    ];
    for handshake in judged {
        let session = [handshake, &bytes[11..]].concat();
        edges.extend([0, 1].map(|mainnet| Case::new(&[mainnet, 64], &session)));
    }
    edges
}

/// A session of at most three messages that is short enough to be cut at every byte.
pub fn short_session(rng: &mut Rng) -> Case {
    brief(rng, |rng| session(rng, 4, NEVER), |(case, _)| case).0
}

/// A handshake and fewer than `most` messages, and the end of each item.
fn session(rng: &mut Rng, most: u64, wrong: Wrong) -> (Case, Vec<usize>) {
    let (mainnet, network) = rng.pick(&[(0, Network::Testnet), (1, Network::Mainnet)]);
    let cap = rng.pick(&[64, 64, 64, 3, 0]);
    let mut case = Case::new(&[mainnet, cap], &[]);
    handshake(rng, &mut case.bytes, wrong);
    let mut ends = vec![case.bytes.len()];
    for _ in 0..rng.below(most) {
        let message = any_message(rng, wrong);
        let code = message.word(2) as u8;
        case.bytes.extend(bytes_of(network, code, &message.bytes));
        ends.push(case.bytes.len());
    }
    (case, ends)
}

#[cfg(test)]
mod tests {
    use super::*;
    use crate::rust::sessions::{step, walk};
    use std::collections::BTreeSet;

    /// How the cases of steps end, layer and number.
    fn stops() -> BTreeSet<String> {
        let mut stops = BTreeSet::new();
        for (i, kind) in steps(100_000).iter().enumerate() {
            kind.visit(&mut Rng::new(1, 0, i), 1.0, &mut |case| {
                let answer = step(&case.bytes, case.word(0), case.word(1) as u8, case.word(2));
                let text = answer.answer().to_string();
                if let Some((stop, _)) = text.rsplit_once(' ').filter(|_| text.starts_with("stop"))
                {
                    stops.insert(stop.to_string());
                }
            });
        }
        stops
    }

    #[test]
    fn steps_stop_with_each_number_of_each_layer() {
        let numbers: [(&str, &[u8]); 3] = [
            ("handshake", &[1, 2, 3, 4]),
            ("frame", &[5, 6, 7, 8, 9]),
            ("body", &[1, 2, 3, 4, 10, 11]),
        ];
        let all = numbers.iter().flat_map(|(layer, numbers)| {
            numbers.iter().map(move |number| format!("stop {layer} {number}"))
        });
        assert_eq!(stops(), all.collect());
    }

    /// Of 101 bytes of Peers with both ends of 3fff::/20 two entries are bogus on mainnet, none on testnet.
    #[test]
    fn only_walks_with_addresses_of_rfc_9637_are_a_documents() {
        let walked = |case: Case| (case.word(0), walk(&case.bytes, case.word(0) as u8, 64));
        let walks = edges().into_iter().map(walked);
        let documented: Vec<_> = walks.filter(|(_, walk)| walk.is_document()).collect();
        assert_eq!(documented.len(), 3);
        for (mainnet, walk) in documented {
            let counts = if mainnet == 0 { " 101 0 4 0 1 " } else { " 101 0 4 2 1 " };
            assert!(walk.answer().to_string().contains(counts), "{walk}");
        }
    }

    #[test]
    fn whole_sessions_end_cleanly() {
        let mut rng = Rng::new(1, 0, 0);
        let mut clean = 0;
        for _ in 0..500 {
            let (case, _) = session(&mut rng, 21, NEVER);
            let text = walk(&case.bytes, case.word(0) as u8, 1000).answer().to_string();
            clean += text.ends_with(" end") as u64;
        }
        assert_eq!(clean, 500);
    }
}
