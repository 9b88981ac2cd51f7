//! The Rust's answers on message bodies. It gives ids, payloads and entries by value; the places
//! where these stand are found by stepping through the body with its own readers.

use super::{answer, byte, cursor, entries, judged, number, refused, Reading};
use crate::answer::{Answer, Expected, Value};
use p2p::protocol::messages::{parse_peers_body, MessageCode, ProtocolMessage};
use p2p::transport::frame::Frame;
use p2p::transport::handshake::{parse_peer_entry, PeerSpec};
use p2p::transport::vlq;
use std::io::{self, Cursor, Read};

/// The most ids or payloads of a message.
pub const MOST: u64 = 400;

/// The length of an id.
const ID: u64 = 32;

/// A payload: its id and its bytes.
type Modifier = ([u8; 32], Vec<u8>);

/// A message opened and the next place; a document's where it has a bogus count of which a document
/// says a part.
pub type Opened = io::Result<(Expected<Value>, u64)>;

/// A message: type byte, count and bogus count, the place of the first item, the items, and the
/// next place. GetPeers has none of these; SyncInfo and Unknown end with the body.
pub fn from_frame(code: u8, body: &[u8], cap: u64, mainnet: u8) -> Expected {
    expected(opened(code, body, cap, mainnet))
}

fn expected(opened: Opened) -> Expected {
    match opened {
        Ok((message, next)) => message.map(|message| Answer::Reached(message, next)),
        Err(e) => Expected::Rust(Answer::Refused(number(&e))),
    }
}

/// A message opened, as `from_frame` tells of it.
pub fn opened(code: u8, body: &[u8], cap: u64, mainnet: u8) -> Opened {
    let (fields, next) = match of_code(code, body)? {
        ProtocolMessage::Peers { body } => return peers(&body, cap, mainnet),
        ProtocolMessage::GetPeers => (Value::counted([0; 4], []), 0),
        ProtocolMessage::Inv { modifier_type, ids }
        | ProtocolMessage::ModifierRequest { modifier_type, ids } => {
            let (count, first) = counted(body)?;
            let items = ids.iter().map(|id| Value::Bytes(id.to_vec()));
            let numbers = [modifier_type.into(), ids.len() as u64, 0, first];
            (Value::counted(numbers, items), first + ID * count)
        }
        ProtocolMessage::ModifierResponse { modifier_type, modifiers } => {
            let (_, first) = counted(body)?;
            let items = modifiers.iter().flat_map(|(id, bytes)| [id.to_vec(), bytes.clone()]);
            let numbers = [modifier_type.into(), modifiers.len() as u64, 0, first];
            let next = payload_places(body, first, &modifiers).1;
            (Value::counted(numbers, items.map(Value::Bytes)), next)
        }
        ProtocolMessage::SyncInfo { body: kept } | ProtocolMessage::Unknown { body: kept, .. } => {
            (Value::counted([0; 4], []), kept.len() as u64)
        }
    };
    Ok((Expected::Rust(fields), next))
}

fn of_code(code: u8, body: &[u8]) -> io::Result<ProtocolMessage> {
    ProtocolMessage::from_frame(&Frame { code, body: body.to_vec() })
}

/// The count of ids or payloads after a type byte, and the place after it.
fn counted(body: &[u8]) -> io::Result<(u64, u64)> {
    let mut cursor = Cursor::new(body);
    byte(&mut cursor)?;
    let count = vlq::read_vlq_length(&mut cursor)?;
    Ok((count as u64, cursor.position()))
}

// ---- Peers

/// The Rust's `parse_peers_body`, and its `is_bogus_address` of each entry that it is asked about.
pub fn read_peers_body(body: &[u8], cap: u64, mainnet: u8) -> Expected {
    expected(peers(body, cap, mainnet))
}

fn peers(body: &[u8], cap: u64, mainnet: u8) -> Opened {
    let specs = parse_peers_body(body, cap as usize)?;
    let places = entry_places(body, specs.len())?;
    let entries = specs.iter().zip(&places).map(|(spec, at)| entries::entry(0, body, *at, spec));
    let entries: Vec<Value> = entries.collect::<io::Result<_>>()?;
    let message = bogus_count(&specs, mainnet)
        .map(|bogus| Value::counted([0, specs.len() as u64, bogus, places[0]], entries));
    Ok((message, places[specs.len()]))
}

/// How many entries a Peers body has, and how many of them have a bogus address, as a line says it.
pub fn counts(body: &[u8], cap: u64, mainnet: u8) -> io::Result<String> {
    let specs = parse_peers_body(body, cap as usize)?;
    let bogus = bogus_count(&specs, mainnet).into_answer();
    Ok(format!(" entries {} bogus {bogus}", specs.len()))
}

/// How many entries have a bogus address. No address isn't bogus.
fn bogus_count(specs: &[PeerSpec], mainnet: u8) -> Expected<u64> {
    let addresses = specs.iter().filter_map(|spec| spec.address);
    let answers: Expected<Vec<bool>> = addresses.map(|address| judged(address, mainnet)).collect();
    answers.map(|answers| answers.into_iter().filter(|bogus| *bogus).count() as u64)
}

/// Where each of the first so many entries of a body stands, and where they end.
fn entry_places(body: &[u8], count: usize) -> io::Result<Vec<u64>> {
    let mut cursor = Cursor::new(body);
    vlq::read_vlq_length(&mut cursor)?;
    let mut places = vec![cursor.position()];
    for _ in 0..count {
        parse_peer_entry(&mut cursor)?;
        places.push(cursor.position());
    }
    Ok(places)
}

pub fn entry_by_index(body: &[u8], cap: u64, index: u64) -> Expected {
    entry_in_stream(body, [0, body.len() as u64], cap, index)
}

/// The entry with an index of the body that stands there, with its places in s. The Rust reads the
/// body alone; a body outside is document 01's 12.
pub fn entry_in_stream(s: &[u8], [start, length]: [u64; 2], cap: u64, index: u64) -> Expected {
    let Some(body) = body_at(s, start, length) else { return refused(12) };
    by_index(parse_peers_body(body, cap as usize), index, |specs, i| {
        let places = entry_places(body, i + 1)?;
        Ok((entries::entry(0, s, start + places[i], &specs[i])?, start + places[i + 1]))
    })
}

fn body_at(s: &[u8], start: u64, length: u64) -> Option<&[u8]> {
    s.get(start as usize..)?.get(..length as usize)
}

/// The item of an index in what the Rust reads. It has no index outside: that 12 is document 01's.
fn by_index<T>(
    list: io::Result<Vec<T>>,
    index: u64,
    item: impl FnOnce(&[T], usize) -> Reading,
) -> Expected {
    match list {
        Ok(list) if index >= list.len() as u64 => refused(12),
        list => Expected::Rust(answer(list.and_then(|list| item(&list, index as usize)))),
    }
}

// ---- ids and payloads

/// An id with its place, and where it ends.
pub fn id_by_index(body: &[u8], index: u64) -> Expected {
    id_in_stream(body, [0, body.len() as u64], index)
}

pub fn id_in_stream(s: &[u8], [start, length]: [u64; 2], index: u64) -> Expected {
    let Some(body) = body_at(s, start, length) else { return refused(12) };
    let ids = of_code(MessageCode::INV, body).map(|message| match message {
        ProtocolMessage::Inv { ids, .. } => ids,
        other => unreachable!("{other:?}"),
    });
    by_index(ids, index, |ids, i| {
        let place = start + counted(body)?.1 + ID * i as u64;
        let id = Value::Bytes(ids[i].to_vec());
        Ok((Value::List(vec![Value::Unsigned(place), id]), place + ID))
    })
}

/// A payload: its id and its bytes, each with its place, and where it ends.
pub fn payload_by_index(body: &[u8], index: u64) -> Expected {
    payload_in_stream(body, [0, body.len() as u64], index)
}

pub fn payload_in_stream(s: &[u8], [start, length]: [u64; 2], index: u64) -> Expected {
    let Some(body) = body_at(s, start, length) else { return refused(12) };
    by_index(modifiers(body), index, |modifiers, i| {
        let (places, next) = payload_places(body, counted(body)?.1, &modifiers[..=i]);
        let places = places[i].map(|place| start + place);
        Ok((Value::List(payload(places, &modifiers[i])), start + next))
    })
}

fn modifiers(body: &[u8]) -> io::Result<Vec<Modifier>> {
    of_code(MessageCode::MODIFIER_RESPONSE, body).map(|message| match message {
        ProtocolMessage::ModifierResponse { modifiers, .. } => modifiers,
        other => unreachable!("{other:?}"),
    })
}

fn payload([id_place, place]: [u64; 2], (id, bytes): &Modifier) -> Vec<Value> {
    vec![
        Value::Unsigned(id_place),
        Value::Bytes(id.to_vec()),
        Value::Unsigned(place),
        Value::Bytes(bytes.clone()),
    ]
}

/// Where the id and the bytes of each payload stand that the Rust has read, and where they end.
fn payload_places(body: &[u8], first: u64, modifiers: &[Modifier]) -> (Vec<[u64; 2]>, u64) {
    let mut at = first;
    let places = modifiers.iter().map(|(_, bytes)| {
        let place = payload_place(body, at).expect("a length that the Rust has read").0;
        let places = [at, place];
        at = place + bytes.len() as u64;
        places
    });
    (places.collect(), at)
}

/// Steps over an id and a length: the place after them, and the length.
fn payload_place(body: &[u8], at: u64) -> io::Result<(u64, u64)> {
    let mut cursor = cursor(body, at);
    cursor.read_exact(&mut [0; ID as usize])?;
    let length = vlq::read_vlq_length(&mut cursor)?;
    Ok((cursor.position(), length as u64))
}

/// The payload at a place after others of `total` bytes, and the total with its own. The Rust reads
/// payloads as part of a body: what it says counts where its reading gets to this place with this
/// total. Elsewhere document 01 says it.
pub fn read_payload(body: &[u8], at: u64, total: u64) -> Expected {
    if at > body.len() as u64 {
        return refused(12);
    }
    let told = told(body, at, total);
    told.map_or_else(|| Expected::Document(asked(body, at, total)), Expected::Rust)
}

/// Document 01's answer, question by question.
fn asked(body: &[u8], at: u64, total: u64) -> Answer {
    let (place, length) = match payload_place(body, at) {
        Ok(found) => found,
        Err(e) => return Answer::Refused(number(&e)),
    };
    let total = total.saturating_add(length);
    if total > body.len() as u64 {
        return Answer::Refused(11);
    }
    let Some(bytes) = body.get(place as usize..(place + length) as usize) else {
        return Answer::Refused(1);
    };
    let id = body[at as usize..][..ID as usize].try_into().expect("an id");
    reached([at, place], &(id, bytes.to_vec()), total)
}

fn reached(places: [u64; 2], modifier: &Modifier, total: u64) -> Answer {
    let mut values = payload(places, modifier);
    values.push(Value::Unsigned(total));
    Answer::Reached(Value::List(values), places[1] + modifier.1.len() as u64)
}

/// What the Rust's reading of the whole body says of the payload at this place, if it gets there:
/// the payload, or the number with which the reading ends there.
fn told(body: &[u8], at: u64, total: u64) -> Option<Answer> {
    match modifiers(body) {
        Ok(list) => {
            let (places, _) = payload_places(body, counted(body).ok()?.1, &list);
            let i = places.iter().position(|[id, _]| *id == at)?;
            let before: u64 = list[..i].iter().map(|(_, bytes)| bytes.len() as u64).sum();
            let after = before + list[i].1.len() as u64;
            (before == total).then(|| reached(places[i], &list[i], after))
        }
        Err(e) => (starts(body).last() == Some(&[at, total])).then(|| Answer::Refused(number(&e))),
    }
}

/// The place of each payload to which a reading of the body gets, and the lengths before it.
pub fn starts(body: &[u8]) -> Vec<[u64; 2]> {
    let Ok((count @ 0..=MOST, first)) = counted(body) else { return vec![] };
    let (mut at, mut total) = (first, 0);
    let mut starts = vec![];
    for _ in 0..count {
        starts.push([at, total]);
        let Answer::Reached(_, next) = asked(body, at, total) else { break };
        total += payload_place(body, at).expect("a payload").1;
        at = next;
    }
    starts
}
