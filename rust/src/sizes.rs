//! How many bytes a write takes.

use crate::vlq::{zigzag_encode, zigzag_encode_i64};
use crate::{EntryValue, HandshakeConfig, ProxyMode, Write};
use std::net::SocketAddr;

impl Write<'_> {
    /// How many bytes it takes, exactly; of a write that is refused whatever the room, only an estimate.
    pub fn size(&self) -> usize {
        match *self {
            Write::Vlq(value) => vlq(value),
            Write::ShortString(string) => short_string(string.len()),
            Write::Part(bytes) => bytes.len(),
            Write::Entry(value) => entry(value),
            Write::Handshake { timestamp, entry: value } => sum([vlq(timestamp), entry(value)]),
            Write::Built(config) => built(config),
            Write::GetPeers { .. } => frame(0),
            Write::Frame { body, .. }
            | Write::SyncInfo { body, .. }
            | Write::Unknown { body, .. } => frame(body.len()),
            Write::Peers { entries, .. } => frame(counted(entries.iter().map(entry))),
            Write::ModifierRequest { ids, .. } | Write::Inv { ids, .. } => {
                frame(sum([1, counted(ids.iter().map(|id| id.len()))]))
            }
            Write::ModifierResponse { payloads, .. } => {
                let sizes = payloads.iter().map(|p| sum([p.id.len(), measured(p.bytes.len())]));
                frame(sum([1, counted(sizes)]))
            }
        }
    }
}

/// The same bytes may be lent many times, so that no number holds the sum. It is then the largest.
fn sum(sizes: impl IntoIterator<Item = usize>) -> usize {
    sizes.into_iter().fold(0, usize::saturating_add)
}

/// A group for each seven bits, and one of 0.
fn vlq(value: u64) -> usize {
    (value | 1).ilog2() as usize / 7 + 1
}

fn short_string(length: usize) -> usize {
    sum([1, length])
}

/// A length and so many bytes.
fn measured(length: usize) -> usize {
    sum([vlq(length as u64), length])
}

/// A count and so many items.
fn counted(sizes: impl ExactSizeIterator<Item = usize>) -> usize {
    sum([vlq(sizes.len() as u64), sum(sizes)])
}

/// A flag; if there is an address, a length byte, the address and the port.
fn address(address: Option<SocketAddr>) -> usize {
    match address {
        None => 1,
        Some(SocketAddr::V4(address)) => 2 + 4 + vlq(address.port().into()),
        Some(SocketAddr::V6(address)) => 2 + 16 + vlq(address.port().into()),
    }
}

fn entry(value: &EntryValue) -> usize {
    let [agent, name] = value.name_lengths();
    parts(agent, name, value.address, value.features().map(|feature| feature.body.len()))
}

/// Agent, three version bytes, name, address, the count byte, and each feature's id, length and body.
fn parts(
    agent: usize,
    name: usize,
    declared: Option<SocketAddr>,
    bodies: impl IntoIterator<Item = usize>,
) -> usize {
    let features = sum(bodies.into_iter().map(|body| sum([1, measured(body)])));
    sum([short_string(agent), 3, short_string(name), address(declared), 1, features])
}

fn built(config: &HandshakeConfig) -> usize {
    let nipopow = match config.mode {
        ProxyMode::Full => 1,
        ProxyMode::Light => 2,
    };
    let mode = 2 + nipopow + vlq(zigzag_encode(config.blocks_to_keep).into());
    let session = 4 + vlq(zigzag_encode_i64(config.session_id));
    let (agent, name) = (config.agent_name.len(), config.peer_name.len());
    let entry = parts(agent, name, config.declared_address, [mode, session]);
    sum([vlq(config.timestamp), entry])
}

/// Magic, code and length; if there is a body, the check and the body.
fn frame(body: usize) -> usize {
    match body {
        0 => 9,
        _ => sum([13, body]),
    }
}
