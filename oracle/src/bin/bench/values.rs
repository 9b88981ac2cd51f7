//! The handshake and the messages that are read and written, for both sides.

use oracle::ours::builds::put_handshake;
use oracle::ours::writers::{put_inv, put_modifier_response, put_peers, put_sync_info, Typed};
use oracle::rust::tables::Lent;
use p2p::protocol::messages::{build_peers_body, ProtocolMessage};
use p2p::transport::frame::{encode, Frame};
use p2p::transport::handshake::{serialize_peer_entry, Feature, PeerSpec};
use p2p::transport::vlq::write_vlq;
use p2p::types::{ModifierId, Network, Version};
use std::net::SocketAddr;

pub const ENTRIES: usize = 64;
pub const MAINNET: u8 = 1;
pub const HEADERS: u8 = 101;
pub const TIMESTAMP: u64 = 1_763_200_000_000;
const IDS: usize = 400;
const PAYLOAD: usize = 20_000;

/// Into an output from a place: where it ends.
type Put = dyn Fn(&mut [u8], usize) -> usize;

/// What both sides write, from values that are there before.
pub struct Writing {
    pub ours: Box<Put>,
    pub rust: Box<dyn Fn() -> Vec<u8>>,
}

impl Writing {
    fn new(
        ours: impl Fn(&mut [u8], usize, &mut [u64; 1]) -> u8 + 'static,
        rust: impl Fn() -> Vec<u8> + 'static,
    ) -> Writing {
        let ours = move |out: &mut [u8], at: usize| {
            let mut r = [0];
            assert_eq!(ours(out, at, &mut r), 0, "refused");
            r[0] as usize
        };
        Writing { ours: Box::new(ours), rust: Box::new(rust) }
    }

    /// A whole frame.
    fn frame(
        ours: impl Fn(&mut [u8], usize, &mut [u64; 1]) -> u8 + 'static,
        frame: impl Fn() -> Frame + 'static,
    ) -> Writing {
        Writing::new(ours, move || encode(&Network::Mainnet.magic(), &frame()))
    }
}

/// The Rust's way is that of its `build`, which takes the time from the clock.
pub fn handshake() -> Writing {
    let spec = peer(1);
    let lent = lent(std::slice::from_ref(&spec));
    Writing::new(
        move |out, at, r| put_handshake(out, at, TIMESTAMP, &lent, 0, r),
        move || handshake_of(&spec),
    )
}

pub fn handshake_of(spec: &PeerSpec) -> Vec<u8> {
    let mut bytes = Vec::with_capacity(128);
    write_vlq(&mut bytes, TIMESTAMP);
    serialize_peer_entry(spec, &mut bytes);
    bytes
}

pub fn peers() -> Writing {
    let specs = peer_list();
    let lent = lent(&specs);
    Writing::frame(
        move |out, at, r| put_peers(out, at, MAINNET, ENTRIES, &lent, r),
        move || ProtocolMessage::Peers { body: build_peers_body(&specs) }.to_frame(),
    )
}

pub fn inv() -> Writing {
    let ids = ids();
    let buffer = ids.concat();
    let table: Vec<u32> = (0..IDS as u32).map(|i| 32 * i).collect();
    let message = ProtocolMessage::Inv { modifier_type: HEADERS, ids };
    Writing::frame(
        move |out, at, r| {
            let ids = Typed { kind: HEADERS, table: &table, buffer: &buffer };
            put_inv(out, at, MAINNET, ids, r)
        },
        move || message.to_frame(),
    )
}

/// So many payloads of 20,000 bytes.
pub fn response(count: usize) -> Writing {
    let (mut table, mut buffer) = (vec![], Buffer::default());
    let modifiers = modifiers(count);
    for (id, bytes) in &modifiers {
        let [place, _] = buffer.put(id);
        table.push(place);
        table.extend(buffer.put(bytes));
    }
    let message = ProtocolMessage::ModifierResponse { modifier_type: HEADERS, modifiers };
    Writing::frame(
        move |out, at, r| {
            let payloads = Typed { kind: HEADERS, table: &table, buffer: &buffer.0 };
            put_modifier_response(out, at, MAINNET, payloads, r)
        },
        move || message.to_frame(),
    )
}

pub fn sync_info() -> Writing {
    let body = vec![5; 500];
    let message = ProtocolMessage::SyncInfo { body: body.clone() };
    Writing::frame(
        move |out, at, r| put_sync_info(out, at, MAINNET, &body, r),
        move || message.to_frame(),
    )
}

/// What a session of at least so many bytes holds: a handshake, then Inv of 400 ids, Peers of 64
/// entries, a payload and a SyncInfo, again and again.
pub struct Session {
    pub kinds: [Writing; 5],
    /// Numbers of kinds, one after the other.
    pub items: Vec<usize>,
    pub bytes: Vec<u8>,
}

pub fn session(length: usize) -> Session {
    let kinds = [handshake(), inv(), peers(), response(1), sync_info()];
    let written = kinds.each_ref().map(|kind| (kind.rust)());
    let (mut items, mut bytes) = (vec![0], written[0].clone());
    for kind in (1..kinds.len()).cycle() {
        if bytes.len() >= length {
            break;
        }
        items.push(kind);
        bytes.extend_from_slice(&written[kind]);
    }
    Session { kinds, items, bytes }
}

pub fn peer_list() -> Vec<PeerSpec> {
    (0..ENTRIES).map(|i| peer(i as u8)).collect()
}

/// A peer as nodes of the network tell of one.
pub fn peer(number: u8) -> PeerSpec {
    let url = b"\x1fhttp://203.0.113.57:9053/api/v1";
    let feature = |id, body: &[u8]| Feature { id, body: body.to_vec() };
    PeerSpec {
        agent: "ergoref".into(),
        version: Version::new(6, 0, 1),
        name: "ergo-mainnet-6.0.1".into(),
        address: Some(([213, 239, 193, number], 9030).into()),
        features: vec![
            feature(16, &[0, 1, 0, 1]),
            feature(3, &[1, 0, 2, 4, 0xe9, 0xa2, 0xd3, 0x91, 0xc5, 0xb8, 0xa0, 0xf1, 0x1c]),
            feature(4, url),
        ],
    }
}

pub fn ids() -> Vec<ModifierId> {
    (0..IDS).map(id).collect()
}

/// So many ids, each with 20,000 bytes.
pub fn modifiers(count: usize) -> Vec<(ModifierId, Vec<u8>)> {
    (0..count).map(|i| (id(i), vec![i as u8; PAYLOAD])).collect()
}

fn id(number: usize) -> ModifierId {
    std::array::from_fn(|i| (31 * number + 7 * i) as u8)
}

/// Bytes one after the other, each told by place and length.
#[derive(Default)]
struct Buffer(Vec<u8>);

impl Buffer {
    fn put(&mut self, bytes: &[u8]) -> [u32; 2] {
        let at = self.0.len();
        self.0.extend_from_slice(bytes);
        [at, bytes.len()].map(|n| n as u32)
    }
}

/// The tables that mean these peers, in a buffer that stays for good.
fn lent(specs: &[PeerSpec]) -> Lent<'static> {
    let (mut entries, mut features, mut buffer) = (vec![], vec![], Buffer::default());
    for (spec, first) in specs.iter().zip((0..).step_by(3)) {
        let Some(SocketAddr::V4(address)) = spec.address else { panic!("no IPv4 address") };
        let version = [spec.version.major, spec.version.minor, spec.version.patch];
        entries.extend(buffer.put(spec.agent.as_bytes()));
        entries.extend(version.map(u32::from));
        entries.extend(buffer.put(spec.name.as_bytes()));
        let [place, length] = buffer.put(&address.ip().octets());
        entries.extend([length + 4, place, address.port().into()]);
        entries.extend([first, spec.features.len() as u32]);
        for feature in &spec.features {
            features.push(feature.id.into());
            features.extend(buffer.put(&feature.body));
        }
    }
    Lent { entries, features, buffer: buffer.0.leak() }
}
