//! Refusals, which change nothing.

mod common;

use common::{writes, Held};
use haspeljo::*;
use std::net::{Ipv6Addr, SocketAddrV6};

const NETWORK: Network = Network::Mainnet;
const CAP: usize = 64;
const VERSION: Version = Version::new(5, 0, 20);
const CONFIG: HandshakeConfig = HandshakeConfig::new("ergoref", "me", VERSION, NETWORK, 1, 1);

fn entry() -> EntryValue {
    EntryValue::new("ergoref", VERSION, "node")
}

fn held() -> Held<'static> {
    Held {
        number: 300,
        string: "ab",
        bytes: b"ab",
        network: NETWORK,
        cap: CAP,
        code: 90,
        entries: vec![entry().with_features([Feature::new(16, &[0, 1, 0, 1])])],
        config: CONFIG,
        ids: vec![[1; 32]],
        payloads: vec![Payload::new(&[1; 32], b"ab")],
    }
}

/// What a write into `room` bytes from a place is refused with, if it changes nothing.
fn refused(room: usize, at: usize, write: Write) -> Option<Error> {
    let before: Vec<u8> = (0..room).map(|i| (i * 31 + 7) as u8).collect();
    let mut out = before.clone();
    let error = write.write(&mut out, at).err()?;
    assert_eq!(out, before);
    Some(error)
}

#[test]
fn a_place_outside() {
    for write in writes(&held()) {
        for (room, at) in [(0, 1), (200, 201), (200, usize::MAX)] {
            assert_eq!(refused(room, at, write), Some(Error::Outside));
        }
    }
}

#[test]
fn no_room() {
    for write in writes(&held()) {
        for at in [0, 1, 50] {
            for room in 0..write.size() {
                assert_eq!(refused(at + room, at, write), Some(Error::NoRoom));
            }
            assert_eq!(refused(at + write.size(), at, write), None);
        }
    }
}

#[test]
fn long_strings() {
    let long = "a".repeat(256);
    let entries = [entry(), EntryValue::new(&long, VERSION, "")];
    let name = EntryValue::new("", VERSION, &long);
    let agent_name = HandshakeConfig::new(&long, "", VERSION, NETWORK, 1, 1);
    let peer_name = HandshakeConfig::new("", &long, VERSION, NETWORK, 1, 1);
    for write in [
        Write::ShortString(&long),
        Write::Entry(&entries[1]),
        Write::Handshake { timestamp: 1, entry: &name },
        Write::Peers { network: NETWORK, cap: CAP, entries: &entries },
        Write::Built(&agent_name),
        Write::Built(&peer_name),
    ] {
        assert_eq!(refused(1000, 0, write), Some(Error::LongString));
        assert_eq!(refused(1000, 1001, write), Some(Error::Outside));
        assert_eq!(refused(0, 0, write), Some(Error::LongString));
    }
}

#[test]
fn flow_labels_and_scope_ids() {
    let bad = Some(Error::BadTable);
    for (flow, scope, expected) in [(0, 0, None), (1, 0, bad), (0, 1, bad)] {
        let address = SocketAddrV6::new(Ipv6Addr::LOCALHOST, 9030, flow, scope).into();
        let entries = [entry().with_address(address)];
        let mut config = CONFIG;
        config.declared_address = Some(address);
        for write in [
            Write::Entry(&entries[0]),
            Write::Handshake { timestamp: 1, entry: &entries[0] },
            Write::Peers { network: NETWORK, cap: CAP, entries: &entries },
            Write::Built(&config),
        ] {
            assert_eq!(refused(200, 0, write), expected);
        }
    }
}

#[test]
fn many_features_and_known_codes() {
    let entry = entry().with_features(vec![Feature::new(1, &[]); 256]);
    let write = Write::Handshake { timestamp: 1, entry: &entry };
    assert_eq!(refused(2000, 0, write), Some(Error::Unwritable));
    for code in [1, 2, 22, 33, 55, 65] {
        let write = Write::Unknown { network: NETWORK, code, body: b"ab" };
        assert_eq!(refused(2000, 0, write), Some(Error::Unwritable));
    }
}

#[test]
fn many_items_and_long_bodies() {
    let (network, modifier_type) = (NETWORK, 2);
    let ids = [[1; 32]; 401];
    let many: Vec<Payload> = ids.iter().map(|id| Payload::new(id, b"")).collect();
    let long = vec![0; 16_388_609];
    let (entries, entry) = ([entry(), entry()], entry().with_features([Feature::new(1, &long)]));
    for (error, write) in [
        (Error::ManyItems, Write::Inv { network, modifier_type, ids: &ids }),
        (Error::ManyItems, Write::ModifierRequest { network, modifier_type, ids: &ids }),
        (Error::ManyItems, Write::ModifierResponse { network, modifier_type, payloads: &many }),
        (Error::ManyItems, Write::Peers { network, cap: 1, entries: &entries }),
        (Error::LongBody, Write::Frame { network, code: 1, body: &long }),
        (Error::LongBody, Write::SyncInfo { network, body: &long }),
        (Error::OverLimit, Write::Handshake { timestamp: 1, entry: &entry }),
        (
            Error::OverLimit,
            Write::ModifierResponse {
                network,
                modifier_type,
                payloads: &[Payload::new(&ids[0], &long)],
            },
        ),
    ] {
        assert_eq!(refused(100, 0, write), Some(error));
    }
}

#[test]
fn frames() {
    let mut out = [0; 64];
    let end = encode(&mut out, 0, NETWORK, 90, b"ab").unwrap();
    let bytes = &out[..end];
    assert_eq!(decode(bytes, NETWORK, end + 1), Err(Error::Outside));
    assert_eq!(decode(&bytes[..8], NETWORK, 0), Err(Error::ShortFrame));
    assert_eq!(decode(bytes, Network::Testnet, 0), Err(Error::OtherMagic));
    assert_eq!(decode(&bytes[..end - 1], NETWORK, 0), Err(Error::ShortBody));
    for (place, value, error) in [(5, 1, Error::LongBody), (13, 0, Error::OtherCheck)] {
        let mut changed = bytes.to_vec();
        changed[place] = value;
        assert_eq!(decode(&changed, NETWORK, 0), Err(error));
    }
}

#[test]
fn bodies() {
    let response = |declared: u8| {
        let mut body = vec![2, 1];
        body.extend([9; 32]);
        body.push(declared);
        Message::from_frame(33, &body, CAP, NETWORK).unwrap_err()
    };
    assert_eq!(response(36), Error::LongPayloads);
    assert_eq!(response(35), Error::Missing);
}
