//! A session of every message, cut, grown and damaged at each byte, still reads to an ending.

use haspeljo::*;
use std::net::SocketAddr;

const NETWORK: Network = Network::Mainnet;
const CAP: usize = 64;

fn whole() -> Vec<u8> {
    let entry = EntryValue::new("ergoref", Version::new(5, 0, 20), "nodé")
        .with_address("[2a01:4f8::1]:9030".parse::<SocketAddr>().ok())
        .with_features([(3, &[1, 0, 2, 4, 9][..]), (4, b"\x03url"), (200, &[])].map(feature));
    let entries = [entry.clone(), entry];
    let network = NETWORK;
    let mut out = vec![];
    for write in [
        Write::Handshake { timestamp: 300, entry: &entries[0] },
        Write::GetPeers { network },
        Write::Peers { network, cap: CAP, entries: &entries },
        Write::ModifierRequest { network, modifier_type: 101, ids: &[[1; 32]] },
        Write::ModifierResponse {
            network,
            modifier_type: 102,
            payloads: &[Payload::new(&[2; 32], b"abc")],
        },
        Write::Inv { network, modifier_type: 2, ids: &[[3; 32], [4; 32]] },
        Write::SyncInfo { network, body: b"headers" },
        Write::Unknown { network, code: 90, body: b"other" },
    ] {
        write.append(&mut out).unwrap();
    }
    out
}

fn feature<'a>((id, body): (u8, &'a [u8])) -> Feature<'a> {
    Feature::new(id, body)
}

fn read(bytes: &[u8]) -> (Vec<Item<'_>>, Ending) {
    let mut session = Session::new(bytes, NETWORK, CAP);
    let items = session.by_ref().flatten().inspect(look).collect();
    (items, session.ending())
}

/// What is read of an item beside its fields.
fn look(item: &Item) {
    match item {
        Item::Handshake { handshake, verdict, .. } => {
            assert_eq!(*verdict, handshake.verdict(NETWORK));
            assert!(handshake.entry.rest_api_url().is_none_or(|url| url.len() < 256));
        }
        Item::Message { message: Message::Peers { bogus, entries, .. }, .. } => {
            let entries = entries.clone();
            assert_eq!(*bogus, entries.filter(|entry| entry.is_bogus(NETWORK)).count());
        }
        _ => {}
    }
}

#[test]
fn a_cut_leaves_the_items_that_end_by_it() {
    let bytes = whole();
    let (items, ending) = read(&bytes);
    assert_eq!((items.len(), ending), (8, Ending::Clean));
    for k in 0..=bytes.len() {
        let by_k = items.iter().take_while(|item| item.end() <= k).count();
        let at_an_end = by_k > 0 && items[by_k - 1].end() == k;
        let (cut, ending) = read(&bytes[..k]);
        assert_eq!(cut, items[..by_k]);
        match ending {
            Ending::Clean => assert!(at_an_end),
            Ending::Stopped(stop) => assert!(stop.is_cut() && !at_an_end),
        }
    }
}

#[test]
fn a_session_goes_on_from_every_cut() {
    let bytes = whole();
    let (items, _) = read(&bytes);
    for k in 0..=bytes.len() {
        let mut session = Session::new(&bytes[..k], NETWORK, CAP);
        let mut read: Vec<Item> = session.by_ref().flatten().collect();
        let place = session.place();
        assert_eq!(place, read.last().map_or(0, Item::end));
        // What stands before the place is not read again.
        let mut grown = bytes.clone();
        grown[..place].fill(0xee);
        let mut rest = Session::resume(&grown, NETWORK, CAP, place).unwrap();
        read.extend(rest.by_ref().flatten());
        assert_eq!(read, items);
        assert_eq!((rest.ending(), rest.place()), (Ending::Clean, bytes.len()));
    }
}

#[test]
fn a_session_grows_byte_by_byte() {
    let bytes = whole();
    let (mut place, mut read) = (0, vec![]);
    for k in 0..=bytes.len() {
        let mut session = Session::resume(&bytes[..k], NETWORK, CAP, place).unwrap();
        read.extend(session.by_ref().flatten());
        place = session.place();
    }
    assert_eq!(read, self::read(&bytes).0);
}

/// Each frame's check is made anew, so that the damage is read.
fn repair(bytes: &mut [u8], mut at: usize) {
    while let Some(&[.., a, b, c, d]) = bytes.get(at..at + 9) {
        let length = u32::from_be_bytes([a, b, c, d]) as usize;
        if length == 0 {
            at += 9;
            continue;
        }
        let Some(check) = bytes.get(at + 13..at + 13 + length).map(frame_check) else { return };
        bytes[at + 9..at + 13].copy_from_slice(&check);
        at += 13 + length;
    }
}

#[test]
fn a_changed_byte_is_read_or_refused() {
    let bytes = whole();
    let (items, _) = read(&bytes);
    let mut refused = 0;
    for place in 0..bytes.len() {
        for value in [0, 1, 4, 0x20, 0x7f, 0x80, 0xc3, 0xff, bytes[place] ^ 1] {
            let mut changed = bytes.clone();
            changed[place] = value;
            repair(&mut changed, items[0].end());
            let (read, ending) = read(&changed);
            let before = items.iter().take_while(|item| item.end() <= place).count();
            assert_eq!(read[..before], items[..before]);
            refused += usize::from(ending != Ending::Clean);
        }
    }
    assert!(refused > 0);
}
