//! The items of a session by value: what the Rust reads, and what our writers were given. The places
//! where they stand play no part.

use super::builds::Config;
use super::tables::Lent;
use crate::case::Case;
use p2p::protocol::messages::{parse_peers_body, ProtocolMessage};
use p2p::transport::handshake::{Feature, PeerSpec};
use p2p::transport::vlq::read_vlq;
use p2p::types::{ModifierId, Version};
use std::io;
use std::net::SocketAddr;

#[derive(Debug, PartialEq, Eq)]
pub enum Item {
    Handshake { timestamp: u64, entry: Entry },
    GetPeers,
    Peers { entries: Vec<Entry> },
    ModifierRequest { modifier_type: u8, ids: Vec<ModifierId> },
    ModifierResponse { modifier_type: u8, modifiers: Vec<(ModifierId, Vec<u8>)> },
    Inv { modifier_type: u8, ids: Vec<ModifierId> },
    SyncInfo { body: Vec<u8> },
    Unknown { code: u8, body: Vec<u8> },
}

/// The Rust's `PeerSpec`, which it doesn't compare.
#[derive(Debug, PartialEq, Eq)]
pub struct Entry {
    agent: String,
    version: Version,
    name: String,
    address: Option<SocketAddr>,
    features: Vec<Feature>,
}

impl From<PeerSpec> for Entry {
    fn from(spec: PeerSpec) -> Entry {
        let PeerSpec { agent, version, name, address, features } = spec;
        Entry { agent, version, name, address, features }
    }
}

impl Item {
    /// A handshake that the Rust has parsed, and the timestamp, which it drops.
    pub fn handshake(mut s: &[u8], spec: PeerSpec) -> Item {
        let timestamp = read_vlq(&mut s).expect("a timestamp");
        Item::Handshake { timestamp, entry: spec.into() }
    }

    /// A message; Peers, of which the Rust keeps the body, are read with the cap.
    pub fn message(message: ProtocolMessage, cap: u64) -> io::Result<Item> {
        Ok(match message {
            ProtocolMessage::GetPeers => Item::GetPeers,
            ProtocolMessage::Peers { body } => Item::peers(parse_peers_body(&body, cap as usize)?),
            ProtocolMessage::ModifierRequest { modifier_type, ids } => {
                Item::ModifierRequest { modifier_type, ids }
            }
            ProtocolMessage::ModifierResponse { modifier_type, modifiers } => {
                Item::ModifierResponse { modifier_type, modifiers }
            }
            ProtocolMessage::Inv { modifier_type, ids } => Item::Inv { modifier_type, ids },
            ProtocolMessage::SyncInfo { body } => Item::SyncInfo { body },
            ProtocolMessage::Unknown { code, body } => Item::Unknown { code, body },
        })
    }

    fn peers(specs: Vec<PeerSpec>) -> Item {
        Item::Peers { entries: specs.into_iter().map(Entry::from).collect() }
    }
}

// ---- what a writer was given that has accepted it

pub fn given_handshake(case: &Case) -> Item {
    let lent = Lent::of(&case.bytes);
    let entry = lent.spec(&lent.rows()[case.place(2)]).into();
    Item::Handshake { timestamp: case.word(3), entry }
}

pub fn given_build(case: &Case) -> Item {
    let config = Config::of(case);
    Item::Handshake { timestamp: config.timestamp, entry: config.spec().into() }
}

pub fn given_peers(case: &Case) -> Item {
    let lent = Lent::of(&case.bytes);
    Item::peers(lent.rows().iter().map(|row| lent.spec(row)).collect())
}

/// A message that is no Peers, so that the cap plays no part.
pub fn given_message(message: ProtocolMessage) -> Item {
    Item::message(message, 0).expect("no Peers")
}
