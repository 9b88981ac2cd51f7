//! Cases for frames: each field right and wrong, lengths around each multiple of the hash's block.

use super::at_start;
use crate::case::Case;
use crate::kinds::{networks, of_reader, Kind};
use crate::rng::Rng;
use crate::rust::LIMIT;
use p2p::transport::frame::{encode, Frame};
use p2p::types::Network;

const NETWORKS: [Network; 2] = [Network::Testnet, Network::Mainnet];

/// The codes of the six kinds of messages, and some others.
pub const CODES: [u8; 10] = [1, 2, 22, 33, 55, 65, 0, 3, 64, 255];

/// Frames on both networks, the second number of a case.
pub fn frames(count: u64) -> Vec<Kind> {
    let mut kinds = of_reader(2, count, edges(), near_frame);
    kinds.extend([codes(), lengths(), fields(), long()]);
    kinds.into_iter().map(|kind| networks(kind, 1)).collect()
}

fn edges() -> Vec<Case> {
    let mut edges = at_start(&[
        "-",
        "01000204",
        "0100020401000000",
        "010002040100000000",
        "020302030100000000",
        "0100020301000000",
        "010002030100000000",
        "01000204ff00000000ffff",
        "010002040100fa1200",
        "010002040100fa1201",
        "0100020401ffffffff",
        "010002040101000000",
        "010002030100fa1201",
        "0100020401000000010000000000",
        "01000204010000000100000000",
        "010002040100000001000000",
    ]);
    for length in [1, 2, 127, 128, 129, 255, 256] {
        let body: Vec<u8> = (0..length).map(|i| i as u8).collect();
        let whole = bytes_of(Network::Mainnet, 65, &body);
        for cut in [0, 1, whole.len() - 10, whole.len() - 13] {
            edges.push(Case::new(&[0], &whole[..whole.len() - cut]));
        }
    }
    edges
}

pub fn bytes_of(network: Network, code: u8, body: &[u8]) -> Vec<u8> {
    encode(&network.magic(), &Frame { code, body: body.to_vec() })
}

/// Each code with bodies of a few lengths.
fn codes() -> Kind {
    Kind::every("codes", 256 * 2 * 4, |i, case| {
        let body = [7u8, 0, 1, 255, 9][..[0, 1, 2, 5][i as usize % 4]].to_vec();
        let network = NETWORKS[i as usize / 4 % 2];
        case.set(&[0], &bytes_of(network, (i / 8) as u8, &body));
    })
}

/// Each length of a body up to five blocks, and bytes after the frame.
fn lengths() -> Kind {
    Kind::every("lengths", 2 * 3 * 650, |i, case| {
        let body: Vec<u8> = (0..i / 6).map(|k| (k * 31 + i) as u8).collect();
        let mut bytes = bytes_of(NETWORKS[i as usize / 3 % 2], i as u8, &body);
        bytes.extend_from_slice(&[1, 0, 2, 4][..i as usize % 3 * 2]);
        case.set(&[0], &bytes);
    })
}

/// Frames in which one field is another, then cut or not.
fn fields() -> Kind {
    Kind::random("fields", 200_000, |rng, visit| {
        let mut case = Case::default();
        whole_frame(rng, &mut case.bytes);
        let length = (case.bytes.len() - 9) as u32;
        let declared = match rng.below(8) {
            0 => length.saturating_sub(3),
            1 => length.saturating_sub(5),
            2 => LIMIT as u32,
            3 => LIMIT as u32 + 1,
            4 => LIMIT as u32 - 1,
            5 => u32::MAX - rng.below(3) as u32,
            6 => 1 << rng.below(32),
            _ => rng.u64() as u32,
        };
        match rng.below(4) {
            0 => case.bytes[rng.below(4) as usize] ^= 1 << rng.below(8),
            1 if length > 0 => case.bytes[9 + rng.below(4) as usize] ^= 1 << rng.below(8),
            _ => case.bytes[5..9].copy_from_slice(&declared.to_be_bytes()),
        }
        visit(&case);
        case.bytes.truncate(rng.below(case.bytes.len() as u64 + 1) as usize);
        visit(&case);
    })
}

/// Around each power of two from 2^16 to 2^20, and the longest body.
fn long() -> Kind {
    Kind::every("long", 16, |i, case| {
        let length = if i == 15 { LIMIT } else { (1 << (16 + i / 3)) + i % 3 - 1 };
        let body: Vec<u8> = (0..length).map(|k| (k * 31) as u8).collect();
        case.set(&[0], &bytes_of(NETWORKS[i as usize % 2], 33, &body));
    })
}

fn near_frame(rng: &mut Rng, bytes: &mut Vec<u8>) {
    let start = bytes.len();
    whole_frame(rng, bytes);
    if rng.below(8) == 0 {
        let last = (bytes.len() - start).min(13) as u64;
        bytes[start + rng.below(last) as usize] ^= 1 << rng.below(8);
    }
}

fn whole_frame(rng: &mut Rng, bytes: &mut Vec<u8>) {
    let mut body = vec![];
    let length = match rng.below(4) {
        0 => rng.below(8),
        1 => rng.below(300),
        _ => (1 + rng.below(4)) * 128 + rng.below(5) - 2,
    };
    rng.append(&mut body, length);
    let code = if rng.below(2) == 0 { rng.pick(&CODES) } else { rng.byte() };
    bytes.extend(bytes_of(rng.pick(&NETWORKS), code, &body));
}
