//! Debug texts: exact, and short whatever is shown.

mod common;

use common::{writes, Held};
use haspeljo::*;
use std::fmt::Debug;
use std::net::SocketAddr;

const NETWORK: Network = Network::Mainnet;
const CAP: usize = 64;
const VERSION: Version = Version::new(6, 0, 1);
/// The longest body of a feature or a frame.
const LONG: usize = 16_388_608;

fn entry(agent: &str, features: &[Feature]) -> EntryValue {
    let address: SocketAddr = "[2a01:4f8::1]:9030".parse().unwrap();
    EntryValue::new(agent, VERSION, "node").with_address(address).with_features(features)
}

fn appended(writes: &[Write]) -> Vec<u8> {
    let mut out = vec![];
    writes.iter().for_each(|write| write.append(&mut out).unwrap());
    out
}

#[track_caller]
fn assert_shown(value: impl Debug, expected: &str) {
    assert_eq!(format!("{value:?}"), expected);
}

/// What a message shows after a handshake of 11 bytes.
#[track_caller]
fn assert_message(write: Write, expected: &str) {
    let entry = EntryValue::new("ab", VERSION, "");
    let bytes = appended(&[Write::Handshake { timestamp: 300, entry: &entry }, write]);
    let item = Session::new(&bytes, NETWORK, CAP).nth(1).unwrap().unwrap();
    assert!(matches!(&item, Item::Message { start: 11, .. }));
    assert_shown(item, expected);
}

#[test]
fn features_and_payloads() {
    let hex = "07".repeat(32);
    assert_shown(Feature::new(3, &[1, 0, 2, 4]), "Feature { id: 3, body: 0x01000204 }");
    assert_shown(Feature::new(9, &[]), "Feature { id: 9, body: 0x }");
    let payload = Payload::new(&[7; 32], &[10, 255]);
    assert_shown(payload, &format!("Payload {{ id: 0x{hex}, bytes: 0x0aff }}"));
    assert_shown(Write::Part(&[7; 32]), &format!("Part(0x{hex})"));
    assert_shown(Write::Part(&[7; 33]), &format!("Part(0x{hex}.. of 33 bytes)"));
}

#[test]
fn entries() {
    let value = entry("é\n", &[Feature::new(3, &[1, 0, 2, 4])]);
    let held = "agent: \"é\\n\", version: Version { major: 6, minor: 0, patch: 1 }, name: \"node\"";
    let features = "features: [Feature { id: 3, body: 0x01000204 }]";
    let shown = format!("EntryValue {{ {held}, address: Some([2a01:4f8::1]:9030), {features} }}");
    assert_shown(&value, &shown);
    assert_shown(Write::Entry(&value), &format!("Entry({shown})"));
    let write = Write::Handshake { timestamp: 300, entry: &value };
    assert_shown(write, &format!("Handshake {{ timestamp: 300, entry: {shown} }}"));
    let out = appended(&[Write::Entry(&value)]);
    let shown = format!("Entry {{ {held}, address: Some(V6([2a01:4f8::1]:9030)), {features} }}");
    assert_shown(Entry::parse(&out, 0).unwrap(), &shown);
}

#[test]
fn handshakes() {
    let bytes = [0xac, 2, 2, b'a', b'b', 6, 0, 1, 0, 0, 0];
    let version = "version: Version { major: 6, minor: 0, patch: 1 }";
    let mut session = Session::new(&bytes, NETWORK, CAP);
    assert_shown(
        &session,
        "Session { length: 11, network: Mainnet, cap: 64, place: 0, ending: None }",
    );
    let expected = format!(
        "Handshake {{ start: 0, end: 11, handshake: Handshake {{ timestamp: 300, entry: Entry {{ \
         agent: \"ab\", {version}, name: \"\", address: None, features: [] }} }}, verdict: Valid }}"
    );
    assert_shown(session.next().unwrap().unwrap(), &expected);
    assert_eq!(session.next(), None);
    assert_shown(
        &session,
        "Session { length: 11, network: Mainnet, cap: 64, place: 11, ending: Some(Clean) }",
    );
    let config = HandshakeConfig::new("ab", "", VERSION, NETWORK, 300, -2);
    let expected = format!(
        "HandshakeConfig {{ agent_name: \"ab\", peer_name: \"\", {version}, network: Mainnet, \
         mode: Full, declared_address: None, state_type_id: 0, verifying: true, \
         blocks_to_keep: -1, timestamp: 300, session_id: -2 }}"
    );
    assert_shown(config, &expected);
    assert_shown(Write::Built(&config), &format!("Built({expected})"));
}

#[test]
fn messages() {
    let (network, modifier_type) = (NETWORK, 2);
    let hex = "07".repeat(32);
    assert_message(
        Write::GetPeers { network },
        "Message { start: 11, end: 20, code: 1, body: 0x, message: GetPeers }",
    );
    assert_message(
        Write::Peers { network, cap: CAP, entries: &[] },
        "Message { start: 11, end: 25, code: 2, body: 0x00, \
         message: Peers { bogus: 0, entries: [] } }",
    );
    for (write, code, name) in [
        (Write::ModifierRequest { network, modifier_type, ids: &[[7; 32]] }, 22, "ModifierRequest"),
        (Write::Inv { network, modifier_type, ids: &[[7; 32]] }, 55, "Inv"),
    ] {
        let body = format!("0x0201{}.. of 34 bytes", "07".repeat(30));
        let message = format!("{name} {{ modifier_type: 2, ids: [0x{hex}] }}");
        let item = format!("start: 11, end: 58, code: {code}, body: {body}, message: {message}");
        assert_message(write, &format!("Message {{ {item} }}"));
        let write_shown =
            format!("{name} {{ network: Mainnet, modifier_type: 2, ids: [0x{hex}] }}");
        assert_shown(write, &write_shown);
    }
    assert_message(
        Write::ModifierResponse { network, modifier_type, payloads: &[] },
        "Message { start: 11, end: 26, code: 33, body: 0x0200, \
         message: ModifierResponse { modifier_type: 2, payloads: [] } }",
    );
    assert_message(
        Write::SyncInfo { network, body: b"ab" },
        "Message { start: 11, end: 26, code: 65, body: 0x6162, message: SyncInfo(0x6162) }",
    );
    assert_message(
        Write::Unknown { network, code: 90, body: b"ab" },
        "Message { start: 11, end: 26, code: 90, body: 0x6162, message: Unknown(0x6162) }",
    );
}

#[test]
fn writes_of_messages() {
    let (network, code, body) = (Network::Testnet, 90, &b"ab"[..]);
    let shown = "network: Testnet, code: 90, body: 0x6162";
    assert_shown(Write::Vlq(300), "Vlq(300)");
    assert_shown(Write::ShortString("a\n"), "ShortString(\"a\\n\")");
    assert_shown(Write::Frame { network, code, body }, &format!("Frame {{ {shown} }}"));
    assert_shown(Write::Unknown { network, code, body }, &format!("Unknown {{ {shown} }}"));
    assert_shown(Write::SyncInfo { network, body }, "SyncInfo { network: Testnet, body: 0x6162 }");
    assert_shown(Write::GetPeers { network }, "GetPeers { network: Testnet }");
    assert_shown(
        Write::Peers { network, cap: 9, entries: &[] },
        "Peers { network: Testnet, cap: 9, entries: [] }",
    );
    assert_shown(
        Write::ModifierResponse { network, modifier_type: 2, payloads: &[] },
        "ModifierResponse { network: Testnet, modifier_type: 2, payloads: [] }",
    );
    let bytes = appended(&[Write::Unknown { network, code, body }]);
    let frame = decode(&bytes, network, 0).unwrap();
    assert_shown(frame, "Frame { code: 90, body: 0x6162, end: 15 }");
}

#[test]
fn lists_show_eight() {
    let (network, modifier_type, ids) = (NETWORK, 2, [[7; 32]; 9]);
    let id = format!("0x{}, ", "07".repeat(32));
    for (count, rest) in [(8, ""), (9, ".. of 9")] {
        let list = [id.repeat(8).as_str(), rest].concat();
        let list = list.trim_end_matches(", ");
        let expected = format!("Inv {{ network: Mainnet, modifier_type: 2, ids: [{list}] }}");
        assert_shown(Write::Inv { network, modifier_type, ids: &ids[..count] }, &expected);
    }
}

#[test]
fn strings_show_255_bytes() {
    let (whole, long, mid) = ("a".repeat(255), "a".repeat(256), "é".repeat(128));
    assert_shown(Write::ShortString(&whole), &format!("ShortString({whole:?})"));
    assert_shown(Write::ShortString(&long), &format!("ShortString({whole:?}.. of 256 bytes)"));
    let shown = format!("{:?}.. of 256 bytes", "é".repeat(127));
    assert_shown(Write::ShortString(&mid), &format!("ShortString({shown})"));
    let text = format!("{:?}", EntryValue::new(&mid, VERSION, &mid));
    assert!(text.starts_with(&format!("EntryValue {{ agent: {shown}, ")));
    assert!(text.contains(&format!(" name: {shown}, ")));
    let text = format!("{:?}", HandshakeConfig::new(&mid, &mid, VERSION, NETWORK, 1, 1));
    let expected = format!("HandshakeConfig {{ agent_name: {shown}, peer_name: {shown}, ");
    assert!(text.starts_with(&expected));
}

/// A session of more than 64 MiB, with all that is long.
fn long_session() -> Vec<u8> {
    let (bytes, network, modifier_type) = (vec![0xab; LONG], NETWORK, 2);
    let long = entry("ergoref", &[Feature::new(200, &bytes); 2]);
    let many = vec![entry("\u{1b}[31m\u{202e}", &[Feature::new(16, &[0, 1, 0, 1])]); 64];
    let ids = [[0xcd; 32]; 400];
    let payloads = vec![Payload::new(&ids[0], &bytes[..40_000]); 400];
    appended(&[
        Write::Handshake { timestamp: 1, entry: &long },
        Write::Peers { network, cap: CAP, entries: &many },
        Write::ModifierRequest { network, modifier_type, ids: &ids },
        Write::ModifierResponse { network, modifier_type, payloads: &payloads },
        Write::Inv { network, modifier_type, ids: &ids },
        Write::SyncInfo { network, body: &bytes },
        Write::Unknown { network, code: 90, body: &bytes },
    ])
}

#[track_caller]
fn assert_short(value: impl Debug, most: usize) {
    let text = format!("{value:?}");
    assert!(text.len() < most, "{} {text}", text.len());
    assert!(text.is_ascii() && !text.contains('\u{1b}'));
}

#[test]
fn what_is_read_is_short() {
    let bytes = long_session();
    assert!(bytes.len() > 64 << 20);
    let mut session = Session::new(&bytes, NETWORK, CAP);
    for _ in 0..7 {
        let item = session.next().unwrap().unwrap();
        assert_short(&item, 1900);
        assert_short(&session, 100);
        if item.end() < bytes.len() {
            assert_short(decode(&bytes, NETWORK, item.end()).unwrap(), 130);
        }
    }
    assert_eq!(session.ending(), Ending::Clean);
}

#[test]
fn writes_are_short() {
    let (text, bytes) = ("a".repeat(1 << 20), vec![0xab; 1 << 20]);
    let features = vec![Feature::new(200, &bytes); 30];
    let value = EntryValue::new(&text, VERSION, &text).with_features(features);
    let held = Held {
        number: u64::MAX,
        string: &text,
        bytes: &bytes,
        network: NETWORK,
        cap: CAP,
        code: 90,
        entries: vec![value; 9],
        config: HandshakeConfig::new(&text, &text, VERSION, NETWORK, u64::MAX, i64::MIN),
        ids: vec![[0xcd; 32]; 400],
        payloads: vec![Payload::new(&[0xcd; 32], &bytes); 400],
    };
    for (kind, write) in writes(&held).into_iter().enumerate() {
        // Peers shows eight entries.
        assert_short(write, if kind == 8 { 14_000 } else { 1700 });
    }
    assert_short(&held.entries[0], 1600);
    assert_short(held.config, 900);
}
