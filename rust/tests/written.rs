//! What is written reads back.

use haspeljo::*;
use std::net::SocketAddr;

const CAP: usize = 64;
const TIME: u64 = 1_700_000_000_000;

fn entry(address: Option<&str>, features: &[(u8, &[u8])]) -> EntryValue {
    let features: Vec<_> = features.iter().map(|(id, body)| Feature::new(*id, body)).collect();
    EntryValue::new("ergoref", Version::new(5, 0, 20), "nodé")
        .with_address(address.map(socket_addr))
        .with_features(features)
}

fn socket_addr(text: &str) -> SocketAddr {
    text.parse().unwrap()
}

/// A session of a handshake and what `write` writes after it, and where that starts.
fn written(
    network: Network,
    write: impl FnOnce(&mut [u8], usize) -> Result<usize, Error>,
) -> (Vec<u8>, usize) {
    let mut out = vec![0x5a; 4096];
    let start = write_handshake(&mut out, 0, TIME, &entry(None, &[])).unwrap();
    let end = write(&mut out, start).unwrap();
    assert!(out[end..].iter().all(|byte| *byte == 0x5a));
    out.truncate(end);
    let mut session = Session::new(&out, network, CAP);
    assert_eq!(session.by_ref().count(), 2);
    assert_eq!(session.ending(), Ending::Clean);
    (out, start)
}

/// The message after a session's handshake, with its code.
fn message(bytes: &[u8], network: Network, at: usize) -> (u8, Message<'_>) {
    match Session::new(bytes, network, CAP).nth(1) {
        Some(Ok(Item::Message { start, end, code, body, message, .. })) => {
            assert_eq!((start, end), (at, bytes.len()));
            let frame = decode(bytes, network, at).unwrap();
            assert_eq!((frame.code, frame.body, frame.end), (code, body, end));
            (code, message)
        }
        other => panic!("{other:?}"),
    }
}

const NETWORKS: [Network; 2] = [Network::Mainnet, Network::Testnet];

#[test]
fn handshakes() {
    let features: &[(u8, &[u8])] = &[(16, &[0, 1, 0, 1]), (4, b"\x0ahttp://a.b"), (200, &[])];
    for address in [None, Some("213.239.193.208:9030"), Some("[2a01:4f8::1]:65535")] {
        let value = entry(address, features);
        let mut out = [0; 200];
        let end = write_handshake(&mut out, 7, TIME, &value).unwrap();
        let bytes = &out[7..end];
        let handshake = Handshake::parse(bytes).unwrap();
        assert_eq!(handshake.timestamp, TIME);
        assert_eq!(EntryValue::from(&handshake.entry), value);
        assert_eq!(handshake.entry.end(), bytes.len());
        assert_eq!(handshake.entry.rest_api_url(), Some("http://a.b"));
        assert_eq!(Handshake::measure_size(bytes), Ok(bytes.len()));
        assert_eq!(Handshake::validate_peer(bytes, Network::Mainnet), Ok(Verdict::Valid));
    }
}

#[test]
fn entries() {
    let value = entry(Some("1.2.3.4:5"), &[(1, &[2, 3])]);
    let mut out = [0; 100];
    let end = write_entry(&mut out, 3, &value).unwrap();
    let read = Entry::parse(&out[..end], 3).unwrap();
    assert_eq!(EntryValue::from(&read), value);
    assert_eq!(read.end(), end);
}

fn config(network: Network) -> HandshakeConfig<'static> {
    HandshakeConfig::new("ergoref", "me", Version::new(6, 0, 1), network, TIME, -2)
}

#[test]
fn built_handshakes() {
    for network in NETWORKS {
        for address in [None, Some("8.8.8.8:9030"), Some("[2001:470::1]:1")] {
            let mut config = config(network);
            config.declared_address = address.map(socket_addr);
            let mut out = [0; 200];
            let end = build(&mut out, 0, &config).unwrap();
            let entry = Handshake::parse(&out[..end]).unwrap().entry;
            assert_eq!((entry.agent(), entry.name()), ("ergoref", "me"));
            assert_eq!(entry.address(), config.declared_address.map(Address::from));
            let [mode, session] = entry.features().collect::<Vec<_>>().try_into().unwrap();
            assert_eq!(mode, Feature::new(16, &[0, 1, 0, 1]));
            assert_eq!((session.id, session.body.len(), session.body[4]), (3, 5, 3));
            assert_eq!(entry.verdict(network), Verdict::Valid);
            let other = NETWORKS.into_iter().find(|other| *other != network).unwrap();
            assert_eq!(entry.verdict(other), Verdict::OtherNetwork);
        }
    }
}

#[test]
fn light_mode() {
    let mut config = config(Network::Mainnet);
    config.mode = ProxyMode::Light;
    let mut out = [0; 200];
    let end = build(&mut out, 0, &config).unwrap();
    let entry = Handshake::parse(&out[..end]).unwrap().entry;
    assert_eq!(entry.features().next(), Some(Feature::new(16, &[0, 1, 1, 2, 1])));
}

#[test]
fn get_peers() {
    for network in NETWORKS {
        let (bytes, at) = written(network, |out, at| write_get_peers(out, at, network));
        assert!(matches!(message(&bytes, network, at), (1, Message::GetPeers)));
    }
}

#[test]
fn peers() {
    let values = [
        entry(None, &[]),
        entry(Some("10.0.0.1:9030"), &[(3, &[1, 0, 2, 4, 5])]),
        entry(Some("127.0.0.1:9030"), &[(3, &[2, 3, 2, 3, 5]), (9, &[])]),
        entry(Some("[2a01:4f8::1]:9030"), &[]),
        entry(Some("[3fff:fff::1]:9030"), &[]),
        entry(Some("[3fff:1000::1]:9030"), &[]),
    ];
    for (network, expected) in [(Network::Mainnet, 3), (Network::Testnet, 1)] {
        let (bytes, at) = written(network, |out, at| write_peers(out, at, network, CAP, &values));
        let (2, Message::Peers { bogus, entries, .. }) = message(&bytes, network, at) else {
            panic!()
        };
        assert_eq!(bogus, expected);
        assert_eq!(entries.len(), values.len());
        assert_eq!(entries.clone().filter(|entry| entry.is_bogus(network)).count(), bogus);
        for (read, value) in entries.zip(&values) {
            assert_eq!(EntryValue::from(&read), *value);
        }
    }
}

#[test]
fn no_peers() {
    let network = Network::Mainnet;
    let (bytes, at) = written(network, |out, at| write_peers(out, at, network, CAP, &[]));
    let (2, Message::Peers { bogus: 0, mut entries, .. }) = message(&bytes, network, at) else {
        panic!()
    };
    assert!(entries.next().is_none());
}

#[test]
fn verdicts_on_entries() {
    let other = Feature::new(3, &[2, 3, 2, 3, 5]);
    let values = [
        entry(None, &[(3, &[1, 0, 2, 4, 5])]),
        entry(None, &[(3, other.body)]),
        EntryValue::new("ergoref", Version::new(4, 0, 99), "node").with_features([other]),
    ];
    let network = Network::Mainnet;
    let (bytes, at) = written(network, |out, at| write_peers(out, at, network, CAP, &values));
    let (_, Message::Peers { entries, .. }) = message(&bytes, network, at) else { panic!() };
    let verdicts: Vec<Verdict> = entries.map(|entry| entry.verdict(network)).collect();
    assert_eq!(verdicts, [Verdict::Valid, Verdict::OtherNetwork, Verdict::OldVersion]);
}

#[test]
fn modifier_requests_and_inv() {
    let some = [[1; 32], [2; 32], [3; 32]];
    for network in NETWORKS {
        for expected in [&some[..], &some[..1], &[]] {
            let (bytes, at) =
                written(network, |out, at| write_modifier_request(out, at, network, 102, expected));
            let (22, Message::ModifierRequest { modifier_type, ids, .. }) =
                message(&bytes, network, at)
            else {
                panic!()
            };
            assert_eq!((modifier_type, ids), (102, expected));

            let (bytes, at) = written(network, |out, at| write_inv(out, at, network, 2, expected));
            let (55, Message::Inv { modifier_type, ids, .. }) = message(&bytes, network, at) else {
                panic!()
            };
            assert_eq!((modifier_type, ids), (2, expected));
        }
    }
}

#[test]
fn modifier_responses() {
    let expected = [
        Payload::new(&[1; 32], b"abc"),
        Payload::new(&[2; 32], b""),
        Payload::new(&[3; 32], &[7; 300]),
    ];
    for network in NETWORKS {
        let (bytes, at) =
            written(network, |out, at| write_modifier_response(out, at, network, 104, &expected));
        let (33, Message::ModifierResponse { modifier_type, payloads, .. }) =
            message(&bytes, network, at)
        else {
            panic!()
        };
        assert_eq!(modifier_type, 104);
        assert_eq!(payloads.len(), 3);
        assert!(payloads.eq(expected));
    }
}

#[test]
fn sync_info_and_unknown() {
    for network in NETWORKS {
        for expected in [&b"headers"[..], b""] {
            let (bytes, at) =
                written(network, |out, at| write_sync_info(out, at, network, expected));
            let (65, Message::SyncInfo(body)) = message(&bytes, network, at) else { panic!() };
            assert_eq!(body, expected);

            let (bytes, at) =
                written(network, |out, at| write_unknown(out, at, network, 90, expected));
            let (90, Message::Unknown(body)) = message(&bytes, network, at) else { panic!() };
            assert_eq!(body, expected);

            let (bytes, at) = written(network, |out, at| encode(out, at, network, 91, expected));
            let (91, Message::Unknown(body)) = message(&bytes, network, at) else { panic!() };
            assert_eq!(body, expected);
        }
    }
}

#[test]
fn a_body_alone() {
    let mut body = vec![2, 1];
    body.extend([9; 32]);
    let Ok(Message::Inv { modifier_type: 2, ids, .. }) =
        Message::from_frame(MessageCode::INV, &body, CAP, Network::Mainnet)
    else {
        panic!()
    };
    assert_eq!(ids, [[9; 32]]);
    let refused = Message::from_frame(MessageCode::INV, &[2, 0x91, 3], CAP, Network::Mainnet);
    assert_eq!(refused.unwrap_err(), Error::ManyItems);
}
