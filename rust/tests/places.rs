//! What is reached by index from a message of a session stands in the session's bytes where it is said to.

use haspeljo::{entry_in_stream, id_in_stream, payload_in_stream};
use haspeljo::{write_handshake, write_inv, write_modifier_response, write_peers};
use haspeljo::{Entries, EntryValue, Error, Feature, Item, Message, ModifierId, Network};
use haspeljo::{Payload, Payloads, Session, Version};
use std::ops::Range;

const CAP: usize = 3;

fn entry(agent: &str, name: &str) -> EntryValue {
    EntryValue::new(agent, Version::new(6, 0, 1), name)
}

/// A handshake, Peers, Inv and ModifierResponse.
fn written() -> Vec<u8> {
    let network = Network::Mainnet;
    let feature = Feature::new(9, &[1, 2, 3]);
    let peers = [entry("one", "first"), entry("two!", "second").with_features([feature])];
    let mut out = vec![0; 1024];
    let mut at = write_handshake(&mut out, 0, 1, &peers[0]).unwrap();
    at = write_peers(&mut out, at, network, CAP, &peers).unwrap();
    at = write_inv(&mut out, at, network, 2, &[[5; 32], [6; 32], [7; 32]]).unwrap();
    let payloads = [Payload::new(&[8; 32], b""), Payload::new(&[9; 32], b"modifier")];
    at = write_modifier_response(&mut out, at, network, 3, &payloads).unwrap();
    out.truncate(at);
    out
}

fn messages(bytes: &[u8]) -> Vec<(Range<usize>, Message<'_>)> {
    let mut found = vec![];
    for item in Session::new(bytes, Network::Mainnet, CAP).flatten() {
        let body = item.body_in_stream();
        if let Item::Message { body: bytes_of_body, message, .. } = item {
            let body = body.unwrap();
            assert_eq!(&bytes[body.clone()], bytes_of_body);
            found.push((body, message));
        } else {
            assert_eq!(body, None);
        }
    }
    found
}

fn entries_stand(bytes: &[u8], body: Range<usize>, entries: Entries) {
    let count = entries.len();
    for (k, entry) in entries.enumerate() {
        let places = entry_in_stream(bytes, body.clone(), CAP, k).unwrap();
        assert_eq!(places.agent.start, body.start + entry.start() + 1);
        assert_eq!(places.features.end, body.start + entry.end());
        assert_eq!(&bytes[places.agent], entry.agent().as_bytes());
        assert_eq!(&bytes[places.name], entry.name().as_bytes());
        let feature = entry.features().next().map_or(0, |f| 2 + f.body.len());
        assert_eq!(places.features.len(), feature);
    }
    assert_eq!(entry_in_stream(bytes, body.clone(), CAP, count), Err(Error::Outside));
    assert_eq!(entry_in_stream(bytes, body, 1, 0), Err(Error::ManyItems));
}

fn ids_stand(bytes: &[u8], body: Range<usize>, ids: &[ModifierId]) {
    for (k, id) in ids.iter().enumerate() {
        assert_eq!(&bytes[id_in_stream(bytes, body.clone(), k).unwrap()], id);
    }
    assert_eq!(id_in_stream(bytes, body, ids.len()), Err(Error::Outside));
}

fn payloads_stand(bytes: &[u8], body: Range<usize>, payloads: Payloads) {
    let count = payloads.len();
    for (k, payload) in payloads.enumerate() {
        let places = payload_in_stream(bytes, body.clone(), k).unwrap();
        assert_eq!((&bytes[places.id], &bytes[places.bytes]), (&payload.id[..], payload.bytes));
    }
    assert_eq!(payload_in_stream(bytes, body, count), Err(Error::Outside));
}

#[test]
fn what_is_reached_stands_there() {
    let bytes = written();
    let messages = messages(&bytes);
    assert_eq!(messages.len(), 3);
    for (body, message) in messages {
        match message {
            Message::Peers { entries, .. } => entries_stand(&bytes, body, entries),
            Message::Inv { ids, .. } => ids_stand(&bytes, body, ids),
            Message::ModifierResponse { payloads, .. } => payloads_stand(&bytes, body, payloads),
            other => panic!("{other:?}"),
        }
    }
}

#[test]
fn a_body_outside_is_12_first() {
    let bytes = written();
    let n = bytes.len();
    let backwards = Range { start: 2, end: 1 };
    for body in [n..n + 1, 0..n + 1, n + 1..n + 1, usize::MAX..usize::MAX, backwards] {
        assert_eq!(entry_in_stream(&bytes, body.clone(), CAP, 0), Err(Error::Outside));
        assert_eq!(id_in_stream(&bytes, body.clone(), 0), Err(Error::Outside));
        assert_eq!(payload_in_stream(&bytes, body, 0), Err(Error::Outside));
    }
    assert_eq!(id_in_stream(&bytes, n..n, 0), Err(Error::Missing));
}
