//! Document 01's session and its cuts.

use haspeljo::{Ending, EntryValue, Error, Item, Layer, Message, Network, Session};
use haspeljo::{Verdict, Version, Write};
use std::error::Error as _;

const EXAMPLE: [u8; 20] = [
    0xac, 2, 2, 0x61, 0x62, 6, 0, 1, 0, 0, 0, // handshake
    1, 0, 2, 4, 1, 0, 0, 0, 0, // GetPeers
];

fn session(bytes: &[u8]) -> Session<'_> {
    Session::new(bytes, Network::Mainnet, 64)
}

fn items(bytes: &[u8]) -> Vec<Item<'_>> {
    session(bytes).flatten().collect()
}

fn ends(bytes: &[u8]) -> Vec<usize> {
    items(bytes).iter().map(Item::end).collect()
}

fn stop(ending: Ending) -> Option<(Layer, Error, usize)> {
    match ending {
        Ending::Clean => None,
        Ending::Stopped(stop) => Some((stop.layer, stop.error, stop.start)),
    }
}

#[test]
fn the_example() {
    let items = items(&EXAMPLE);
    let [Item::Handshake { start: 0, end: 11, handshake, verdict, .. }, message] = &items[..]
    else {
        panic!("{items:?}")
    };
    assert_eq!(handshake.timestamp, 300);
    let entry = handshake.entry;
    assert_eq!((entry.agent(), entry.name(), entry.rest_api_url()), ("ab", "", None));
    assert_eq!(entry.version(), Version::new(6, 0, 1));
    assert_eq!((entry.address(), entry.features().len()), (None, 0));
    assert_eq!((entry.start(), entry.end()), (2, 11));
    assert_eq!(*verdict, Verdict::Valid);
    assert_eq!(handshake.verdict(Network::Testnet), Verdict::Valid);
    assert!(matches!(
        message,
        Item::Message { start: 11, end: 20, code: 1, body: [], message: Message::GetPeers, .. }
    ));
    let places: Vec<_> = items.iter().map(|item| (item.start(), item.end())).collect();
    assert_eq!(places, [(0, 11), (11, 20)]);
    assert_eq!(session(&EXAMPLE).ending(), Ending::Clean);
}

#[test]
fn cut_to_10_11_and_12_bytes() {
    for (k, expected, stopped) in [
        (10, &[][..], Some((Layer::Handshake, Error::Missing, 0))),
        (11, &[11], None),
        (12, &[11], Some((Layer::Frame, Error::ShortFrame, 11))),
    ] {
        assert_eq!(ends(&EXAMPLE[..k]), expected);
        assert_eq!(stop(session(&EXAMPLE[..k]).ending()), stopped);
    }
}

#[test]
fn every_cut_gives_the_items_that_end_by_it() {
    for k in 0..=EXAMPLE.len() {
        let whole = ends(&EXAMPLE);
        let by_k: Vec<usize> = whole.iter().copied().filter(|end| *end <= k).collect();
        let cut = &EXAMPLE[..k];
        assert_eq!(ends(cut), by_k);
        match session(cut).ending() {
            Ending::Clean => assert!(whole.contains(&k)),
            Ending::Stopped(stop) => assert!(stop.is_cut() && !whole.contains(&k)),
        }
    }
}

#[test]
fn the_stop_comes_last_and_once() {
    let mut some = session(&EXAMPLE[..12]);
    let ending = some.clone().ending();
    assert_eq!(some.place(), 0);
    assert!(some.next().is_some_and(|item| item.is_ok()));
    assert_eq!(some.place(), 11);
    let stop = some.next().unwrap().unwrap_err();
    assert_eq!(Ending::Stopped(stop), ending);
    assert_eq!((some.next(), some.next()), (None, None));
    assert_eq!((some.place(), some.ending()), (11, ending));
    assert_eq!(session(&EXAMPLE[..12]).collect::<Result<Vec<_>, _>>(), Err(stop));
}

#[test]
fn a_truncated_body_is_no_cut() {
    let mut bytes = [0; 64];
    bytes[..11].copy_from_slice(&EXAMPLE[..11]);
    let end = haspeljo::encode(&mut bytes, 11, Network::Mainnet, 55, &[2, 0x90, 3]).unwrap();
    let ending = session(&bytes[..end]).ending();
    assert_eq!(stop(ending), Some((Layer::Body, Error::Missing, 11)));
    let Ending::Stopped(stop) = ending else { unreachable!() };
    assert!(!stop.is_cut());
    assert_eq!(stop.to_string(), "stopped in the body at 11");
    assert_eq!(stop.source().unwrap().to_string(), "bytes of a field are missing");
    let resumed = Session::resume(&bytes, Network::Mainnet, 64, 11).unwrap().next();
    assert_eq!(resumed, Some(Err(stop)));
}

#[test]
fn a_place_past_the_end() {
    for place in [21, usize::MAX] {
        let refused = Session::resume(&EXAMPLE, Network::Mainnet, 64, place);
        assert_eq!(refused.err(), Some(Error::Outside));
    }
    let mut at_the_end = Session::resume(&EXAMPLE, Network::Mainnet, 64, 20).unwrap();
    assert_eq!((at_the_end.next(), at_the_end.ending()), (None, Ending::Clean));
}

#[test]
fn a_verdict_stops_nothing() {
    let mut old = EXAMPLE;
    old[5] = 4;
    old[7] = 99;
    let items = items(&old);
    assert_eq!(items.len(), 2);
    assert!(matches!(items[0], Item::Handshake { verdict: Verdict::OldVersion, .. }));
    assert_eq!(Version::EIP37_MIN, Version::new(4, 0, 100));
    assert_eq!(session(&old).ending(), Ending::Clean);
}

/// A handshake, Peers of so many entries, GetPeers; and where the Peers start.
fn with_peers(network: Network, count: usize) -> (Vec<u8>, usize) {
    let entries = vec![EntryValue::new("ab", Version::new(6, 0, 1), ""); count];
    let mut out = vec![];
    Write::Handshake { timestamp: 300, entry: &entries[0] }.append(&mut out).unwrap();
    let start = out.len();
    Write::Peers { network, cap: count, entries: &entries }.append(&mut out).unwrap();
    Write::GetPeers { network }.append(&mut out).unwrap();
    (out, start)
}

#[test]
fn a_resumed_session_has_its_network_and_cap() {
    for (network, other) in
        [(Network::Mainnet, Network::Testnet), (Network::Testnet, Network::Mainnet)]
    {
        for count in [3, 65] {
            let (bytes, start) = with_peers(network, count);
            let resumed = |network, cap| Session::resume(&bytes, network, cap, start).unwrap();
            let whole: Vec<_> = Session::new(&bytes, network, count).skip(1).collect();
            assert_eq!(whole.len(), 2);
            assert!(resumed(network, count).eq(whole));
            assert_eq!(resumed(network, count).ending(), Ending::Clean);
            let many = Some((Layer::Body, Error::ManyItems, start));
            assert_eq!(stop(resumed(network, count - 1).ending()), many);
            let magic = Some((Layer::Frame, Error::OtherMagic, start));
            assert_eq!(stop(resumed(other, count).ending()), magic);
        }
    }
}
