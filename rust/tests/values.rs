//! How values compare, show themselves, and come from text and numbers.

use haspeljo::*;
use std::net::SocketAddr;

const NETWORK: Network = Network::Mainnet;
const CAP: usize = 64;

fn address() -> SocketAddr {
    "[2a01:4f8::1]:9030".parse().unwrap()
}

/// A handshake and a byte.
const STOPPED: [u8; 12] = [0xac, 2, 2, b'a', b'b', 6, 0, 1, 0, 0, 0, 1];

fn entry(agent: &str, features: &[Feature]) -> EntryValue {
    EntryValue::new(agent, Version::new(6, 0, 1), "node")
        .with_address(address())
        .with_features(features)
}

fn appended(writes: &[Write]) -> Vec<u8> {
    let mut out = vec![];
    writes.iter().for_each(|write| write.append(&mut out).unwrap());
    out
}

#[test]
fn entries_are_equal_wherever_they_stand() {
    let features = [Feature::new(1, &[2]), Feature::new(3, &[])];
    let reversed = [features[1], features[0]];
    let named = |patch, name| EntryValue::new("a", Version::new(6, 0, patch), name);
    let values = [
        (entry("a", &features), &features[..]),
        (entry("b", &features), &features),
        (named(2, "node").with_features(features).with_address(address()), &features),
        (named(1, "other").with_features(features).with_address(address()), &features),
        (named(1, "node").with_features(features).with_address(address()), &features),
        (entry("a", &features).with_address(None), &features),
        (entry("a", &features).with_features(&features[..1]), &features[..1]),
        (entry("a", &features).with_features(reversed), &reversed),
        (entry("a", &reversed).with_features(features), &features),
    ];
    let mut out = vec![0; 7];
    let mut read = vec![];
    for (value, features) in &values {
        read.push((out.len(), value, features));
        Write::Entry(value).append(&mut out).unwrap();
    }
    let mut equal = 0;
    for (at, value, features) in &read {
        for (other_at, other, other_features) in &read {
            let (one, another) = (Entry::parse(&out, *at), Entry::parse(&out, *other_at));
            assert_eq!(one == another, value == other);
            equal += usize::from(value == other);
            let (one, another) = (one.unwrap().features(), another.unwrap().features());
            assert_eq!(one == another, features == other_features);
        }
    }
    // The first, the fifth and the last say the same.
    assert_eq!(equal, 6 + 9);
}

#[test]
fn iterators_are_equal_by_what_they_still_give() {
    let id = [1; 32];
    let payloads = [b"a", b"b", b"b"].map(|bytes| Payload::new(&id, bytes));
    let write = Write::ModifierResponse { network: NETWORK, modifier_type: 2, payloads: &payloads };
    let bytes = appended(&[write]);
    let frame = decode(&bytes, NETWORK, 0).unwrap();
    let message = Message::from_frame(frame.code, frame.body, CAP, NETWORK).unwrap();
    let Message::ModifierResponse { payloads, .. } = message else { panic!() };
    let rests: Vec<Payloads> = (0..4)
        .map(|n| {
            let mut rest = payloads.clone();
            rest.by_ref().take(n).for_each(drop);
            rest
        })
        .collect();
    for (i, one) in rests.iter().enumerate() {
        for (k, other) in rests.iter().enumerate() {
            assert_eq!(one == other, i == k);
        }
    }
    let copy = bytes.clone();
    assert_eq!(decode(&copy, NETWORK, 0), Ok(frame));
}

/// What the message of a frame holds.
fn message(bytes: &[u8]) -> Message<'_> {
    let frame = decode(bytes, NETWORK, 0).unwrap();
    Message::from_frame(frame.code, frame.body, CAP, NETWORK).unwrap()
}

#[test]
fn as_many_others_are_not_equal() {
    let (network, cap, modifier_type) = (NETWORK, CAP, 2);
    let entries = [entry("a", &[]), entry("b", &[])];
    let peers = [&entries[..1], &entries[1..]]
        .map(|entries| appended(&[Write::Peers { network, cap, entries }]));
    let ids = [[1; 32], [2; 32]];
    let responses = [(0, b"a"), (1, b"a"), (0, b"b")].map(|(id, bytes)| {
        let payloads = &[Payload::new(&ids[id], bytes)];
        appended(&[Write::ModifierResponse { network, modifier_type, payloads }])
    });
    let all: Vec<&Vec<u8>> = peers.iter().chain(&responses).collect();
    for (i, one) in all.iter().enumerate() {
        for (k, other) in all.iter().enumerate() {
            assert_eq!(message(one) == message(other), i == k);
            match (message(one), message(other)) {
                (Message::Peers { entries: a, .. }, Message::Peers { entries: b, .. }) => {
                    assert_eq!((a.len(), b.len(), a == b), (1, 1, i == k));
                }
                (
                    Message::ModifierResponse { payloads: a, .. },
                    Message::ModifierResponse { payloads: b, .. },
                ) => assert_eq!((a.len(), b.len(), a == b), (1, 1, i == k)),
                _ => assert_ne!(i, k),
            }
        }
    }
}

#[test]
fn values_give_what_they_were_given() {
    let features = [Feature::new(1, &[2]), Feature::new(3, &[])];
    let value = entry("é", &features);
    assert_eq!((value.agent(), value.name()), ("é", "node"));
    assert_eq!((value.version(), value.address()), (Version::new(6, 0, 1), Some(address())));
    assert_eq!(value.features().len(), 2);
    assert!(value.features().eq(features));
    let out = appended(&[Write::Entry(&value)]);
    let read = Entry::parse(&out, 0).unwrap();
    assert_eq!((EntryValue::from(&read), EntryValue::from(read)), (value.clone(), value.clone()));
    let none = value.with_address(None).with_features([]);
    assert_eq!((none.address(), none.features().len()), (None, 0));
}

#[test]
fn versions_are_ordered() {
    let ordered = [(0, 0, 255), (0, 255, 0), (4, 0, 99), (4, 0, 100), (5, 9, 200), (6, 0, 1)];
    let versions = ordered.map(|(major, minor, patch)| Version::new(major, minor, patch));
    assert!(versions.is_sorted_by(|one, next| one < next));
    assert_eq!(Version::EIP37_MIN, versions[3]);
}

#[test]
fn small_types_are_ordered_by_their_numbers() {
    assert!(Network::Mainnet < Network::Testnet);
    assert!([Verdict::Valid, Verdict::OldVersion, Verdict::OtherNetwork].is_sorted());
    assert!([Layer::Handshake, Layer::Frame, Layer::Body].is_sorted());
    assert!(Error::ALL.is_sorted());
}

#[test]
fn texts() {
    let address: SocketAddr = "1.2.3.4:5".parse().unwrap();
    for (shown, expected) in [
        (Network::Mainnet.to_string(), "mainnet"),
        (Network::Testnet.to_string(), "testnet"),
        (Version::new(6, 0, 1).to_string(), "6.0.1"),
        (Verdict::Valid.to_string(), "valid"),
        (Verdict::OldVersion.to_string(), "version below 4.0.100"),
        (Verdict::OtherNetwork.to_string(), "other network"),
        (Layer::Handshake.to_string(), "handshake"),
        (Layer::Frame.to_string(), "frame"),
        (Layer::Body.to_string(), "body"),
        (Address::from(address).to_string(), "1.2.3.4:5"),
        (Address::from(self::address()).to_string(), "[2a01:4f8::1]:9030"),
        (Ending::Clean.to_string(), "clean"),
        (Session::new(&[], NETWORK, CAP).ending().to_string(), "stopped in the handshake at 0"),
        (Session::new(&STOPPED, NETWORK, CAP).ending().to_string(), "stopped in the frame at 11"),
        (format!("{:>10}", Network::Mainnet), "   mainnet"),
        (format!("{:>8}", Version::new(6, 0, 1)), "   6.0.1"),
        (format!("{:<8}|", Version::new(6, 0, 1)), "6.0.1   |"),
        (format!("{:>23}", Error::NotUtf8), "  a string is not UTF-8"),
        (format!("{:>25}", "x".parse::<ProxyMode>().unwrap_err()), "  a mode is full or light"),
        (format!("{:>20}", Address::from(self::address())), "  [2a01:4f8::1]:9030"),
    ] {
        assert_eq!(shown, expected);
    }
    assert_eq!(Address::from(address).socket_addr(), Some(address));
}

#[test]
fn from_text() {
    for network in [Network::Mainnet, Network::Testnet] {
        assert_eq!(network.to_string().parse(), Ok(network));
    }
    for mode in [ProxyMode::Full, ProxyMode::Light] {
        assert_eq!(mode.to_string().parse(), Ok(mode));
    }
    assert_eq!("Full".parse::<ProxyMode>().unwrap_err().to_string(), "a mode is full or light");
    for version in [Version::new(0, 0, 0), Version::new(4, 0, 100), Version::new(255, 255, 255)] {
        assert_eq!(version.to_string().parse(), Ok(version));
    }
    for text in [
        "",
        "6",
        "6.0",
        "6.0.1.0",
        "6.0.256",
        "6.0.-1",
        "+6.0.1",
        "6.0.1 ",
        "6..1",
        "a.b.c",
        "06.0.1",
        "6.00.1",
        "6.0.01",
        "000006.0.1",
        "6.0.1+",
    ] {
        let error = text.parse::<Version>().unwrap_err();
        assert_eq!(error.to_string(), "a version is three numbers up to 255, as 6.0.1");
    }
    for text in ["", "Mainnet", "main"] {
        let error = text.parse::<Network>().unwrap_err();
        assert_eq!(error.to_string(), "a network is mainnet or testnet");
    }
}

#[test]
fn addresses_from_text() {
    for text in ["1.2.3.4:5", "[2a01:4f8::1]:9030"] {
        assert_eq!(text.parse::<Address>().map(|address| address.to_string()), Ok(text.into()));
        assert_eq!(text.parse::<Address>().map(Address::socket_addr), text.parse().map(Some));
    }
    assert_eq!("1.2.3.4".parse::<Address>(), Err("1.2.3.4".parse::<SocketAddr>().unwrap_err()));
}

#[test]
fn from_numbers() {
    for number in 0..=255 {
        let error = Error::try_from(number);
        assert_eq!(error.is_ok(), (1..=16).contains(&number));
        assert_eq!(error.map(Error::number), error.map(|_| number));
        assert_eq!(error.map(u8::from), error.map(|_| number));
        let layer = Layer::try_from(number);
        assert_eq!(layer.is_ok(), (1..=3).contains(&number));
        assert_eq!(layer.map(|layer| layer as u8), layer.map(|_| number));
        let verdict = Verdict::try_from(number);
        assert_eq!(verdict.is_ok(), number <= 2);
        assert_eq!(verdict.map(Verdict::number), verdict.map(|_| number));
    }
    let mut sentences: Vec<String> = Error::ALL.iter().map(Error::to_string).collect();
    sentences.sort();
    sentences.dedup();
    assert_eq!(sentences.len(), 16);
}

/// Any thread may have them.
const fn shared<T: Send + Sync + Unpin + std::panic::UnwindSafe + 'static>() {}

const _: () = {
    shared::<(Error, Stop, Layer, Ending, ParseError, Address, Network, ProxyMode)>();
    shared::<(Verdict, Version, MessageCode, EntryPlaces, PayloadPlaces, EntryValue)>();
    shared::<(Entry<'static>, Handshake<'static>, Feature<'static>, Features<'static>)>();
    shared::<(Frame<'static>, Message<'static>, Entries<'static>)>();
    shared::<(Payload<'static>, Payloads<'static>, Item<'static>, Session<'static>)>();
    shared::<(HandshakeConfig<'static>, Write<'static>, vlq::Read<&'static str>)>();
};
