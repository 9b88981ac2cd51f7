//! The readers: of single values, 1 to 5, of entries, handshakes, frames and message bodies, 18 to 32,
//! and by index with places in a session, 46 to 48. An answer is numbers; the places among them are
//! those of the parts that the crate lends out of the bytes.

use crate::cases::Case;
use haspeljo::{decode, vlq, Address, Entry, Error, Handshake, Message, MessageCode, Network};
use haspeljo::{entry_in_stream, id_in_stream, payload_in_stream};
use std::ops::Range;

type Numbers = Result<Vec<u64>, Error>;

/// What the slots of an array hold before a call.
pub const UNTOUCHED: u64 = 7;

/// Which numbers of a frozen answer the crate does not show, by their indices.
fn hidden(function: u8, numbers: &[u64]) -> &'static [usize] {
    match (function, numbers) {
        // The place of the first feature.
        (18 | 20 | 29, _) => &[13],
        // The next place.
        (23, _) => &[1],
        // Of an empty list, the place where an item would be, and the next place.
        (27 | 28, [_, 0, _, first, _]) if *first > 0 => &[3, 4],
        // All but places and lengths; where a payload ends.
        (46, _) => &[0, 3, 4, 5, 8, 9, 10, 11, 12],
        (48, _) => &[3],
        _ => &[],
    }
}

/// What the crate must answer, by the frozen answer.
pub fn expected(function: u8, answer: &str) -> Numbers {
    let numbers: Vec<u64> = answer.split(' ').map(|word| word.parse().unwrap()).collect();
    let [number, numbers @ ..] = &numbers[..] else { panic!("no numbers") };
    if let Ok(error) = Error::try_from(*number as u8) {
        assert!(numbers.iter().all(|slot| *slot == UNTOUCHED));
        return Err(error);
    }
    let hidden = hidden(function, numbers);
    Ok((0..numbers.len()).filter(|i| !hidden.contains(i)).map(|i| numbers[i]).collect())
}

/// Arguments are taken and handed over in the order of the table. None where a body has no range of
/// `usize`.
pub fn answer(case: Case) -> Option<Numbers> {
    match case.function {
        46..=48 => in_stream(case),
        _ => Some(read(case)),
    }
}

fn read(mut case: Case) -> Numbers {
    match case.function {
        1..=5 => value(case),
        18 => parse(case.input),
        19 => Ok(vec![Handshake::measure_size(case.input)? as u64]),
        20 => parse_peer_entry(case.size(), case.input),
        22 => feature_by_index(case.size(), case.size(), case.input),
        23 => validate_peer(case.network(), case.input),
        24 => validate_entry(case.size(), case.network(), case.input),
        25 => rest_api_url(case.size(), case.input),
        26 => frame(case.size(), case.network(), case.input),
        27 => message(case.size(), case.network(), case.word() as u8, case.input),
        28 => message(case.size(), case.network(), MessageCode::PEERS, case.input),
        29 => entry_by_index(case.size(), case.size(), case.input),
        30 => id_by_index(case.size(), case.input),
        32 => payload_by_index(case.size(), case.input),
        other => panic!("function {other} is no reader of the crate"),
    }
}

/// A value, or a string or part by place and length, and the next place.
fn value(mut case: Case) -> Numbers {
    let at = case.size();
    let count = if case.function == 5 { case.size() } else { 0 };
    let bytes = case.input;
    let part = |part: &[u8], next: usize| {
        let [start, length] = span(bytes, part);
        vec![start, length, next as u64]
    };
    Ok(match case.function {
        1 => vlq::read_byte(bytes, at).map(|read| vec![read.value.into(), read.next as u64])?,
        2 => vlq::read_vlq(bytes, at).map(|read| vec![read.value, read.next as u64])?,
        3 => vlq::read_vlq_length(bytes, at).map(|n| vec![n.value as u64, n.next as u64])?,
        4 => vlq::read_short_string(bytes, at).map(|s| part(s.value.as_bytes(), s.next))?,
        _ => vlq::read_part(bytes, at, count).map(|read| part(read.value, read.next))?,
    })
}

fn parse(bytes: &[u8]) -> Numbers {
    let handshake = Handshake::parse(bytes)?;
    Ok(entry_numbers(bytes, handshake.timestamp, handshake.entry))
}

fn parse_peer_entry(at: usize, bytes: &[u8]) -> Numbers {
    Ok(entry_numbers(bytes, 0, Entry::parse(bytes, at)?))
}

fn feature_by_index(at: usize, index: usize, bytes: &[u8]) -> Numbers {
    let entry = Entry::parse(bytes, at)?;
    let feature = entry.features().nth(index).ok_or(Error::Outside)?;
    let [start, length] = span(bytes, feature.body);
    Ok(vec![feature.id.into(), start, length, start + length])
}

fn validate_peer(network: Network, bytes: &[u8]) -> Numbers {
    Ok(vec![Handshake::validate_peer(bytes, network)?.number().into()])
}

fn validate_entry(at: usize, network: Network, bytes: &[u8]) -> Numbers {
    let entry = Entry::parse(bytes, at)?;
    Ok(vec![entry.verdict(network).number().into(), entry.end() as u64])
}

fn rest_api_url(at: usize, bytes: &[u8]) -> Numbers {
    let entry = Entry::parse(bytes, at)?;
    let Some(url) = entry.rest_api_url() else { return Ok(vec![0, 0, 0, entry.end() as u64]) };
    let [start, length] = span(bytes, url.as_bytes());
    Ok(vec![1, start, length, entry.end() as u64])
}

fn frame(at: usize, network: Network, bytes: &[u8]) -> Numbers {
    let frame = decode(bytes, network, at)?;
    let [start, length] = span(bytes, frame.body);
    Ok(vec![frame.code.into(), start, length, frame.end as u64])
}

/// A number that the message does not have is 0, and GetPeers has none.
fn message(cap: usize, network: Network, code: u8, body: &[u8]) -> Numbers {
    Ok(match Message::from_frame(code, body, cap, network)? {
        Message::GetPeers => vec![0, 0, 0, 0, 0],
        Message::Peers { bogus, entries, .. } => {
            list(0, bogus, entries.map(|entry| entry.start() as u64..entry.end() as u64))
        }
        Message::ModifierRequest { modifier_type, ids, .. }
        | Message::Inv { modifier_type, ids, .. } => {
            list(modifier_type, 0, ids.iter().map(|id| place(body, id)..end(body, id)))
        }
        Message::ModifierResponse { modifier_type, payloads, .. } => {
            list(modifier_type, 0, payloads.map(|p| place(body, p.id)..end(body, p.bytes)))
        }
        Message::SyncInfo(held) | Message::Unknown(held) => vec![0, 0, 0, 0, end(body, held)],
        other => panic!("{other:?}"),
    })
}

/// Type byte, count and bogus count; where there are items, the first one's start and the last
/// one's end.
fn list(kind: u8, bogus: usize, items: impl ExactSizeIterator<Item = Range<u64>>) -> Vec<u64> {
    let mut numbers = vec![kind.into(), items.len() as u64, bogus as u64];
    let items: Vec<_> = items.collect();
    if let ([first, ..], [.., last]) = (&items[..], &items[..]) {
        numbers.extend([first.start, last.end]);
    }
    numbers
}

fn entry_by_index(cap: usize, index: usize, body: &[u8]) -> Numbers {
    let message = Message::from_frame(MessageCode::PEERS, body, cap, Network::Mainnet)?;
    let Message::Peers { mut entries, .. } = message else { panic!("{message:?}") };
    let entry = entries.nth(index).ok_or(Error::Outside)?;
    Ok(entry_numbers(body, 0, entry))
}

/// The cap is for Peers alone, the network for bogus addresses.
fn id_by_index(index: usize, body: &[u8]) -> Numbers {
    let message = Message::from_frame(MessageCode::INV, body, 0, Network::Mainnet)?;
    let Message::Inv { ids, .. } = message else { panic!("{message:?}") };
    let id = ids.get(index).ok_or(Error::Outside)?;
    Ok(vec![place(body, id)])
}

fn payload_by_index(index: usize, body: &[u8]) -> Numbers {
    let message = Message::from_frame(MessageCode::MODIFIER_RESPONSE, body, 0, Network::Mainnet)?;
    let Message::ModifierResponse { mut payloads, .. } = message else { panic!("{message:?}") };
    let payload = payloads.nth(index).ok_or(Error::Outside)?;
    let [start, length] = span(body, payload.bytes);
    Ok(vec![place(body, payload.id), start, length, start + length])
}

fn in_stream(mut case: Case) -> Option<Numbers> {
    let start = case.size();
    let body = start..start.checked_add(case.size())?;
    let cap = if case.function == 46 { case.size() } else { 0 };
    let index = case.size();
    let bytes = case.input;
    Some(match case.function {
        46 => entry_in_stream(bytes, body, cap, index).map(|e| {
            let features = [e.features.start as u64, e.features.end as u64];
            [range(e.agent), range(e.name), features].concat()
        }),
        47 => id_in_stream(bytes, body, index).map(|id| vec![id.start as u64]),
        _ => payload_in_stream(bytes, body, index)
            .map(|p| [&[p.id.start as u64][..], &range(p.bytes)].concat()),
    })
}

/// Place and length.
fn range(range: Range<usize>) -> [u64; 2] {
    [range.start as u64, range.len() as u64]
}

fn entry_numbers(bytes: &[u8], timestamp: u64, entry: Entry) -> Vec<u64> {
    let mut numbers = vec![timestamp];
    numbers.extend(span(bytes, entry.agent().as_bytes()));
    let version = entry.version();
    numbers.extend([version.major, version.minor, version.patch].map(u64::from));
    numbers.extend(span(bytes, entry.name().as_bytes()));
    numbers.extend(address_numbers(entry.address()));
    numbers.extend([entry.features().len() as u64, entry.end() as u64]);
    numbers
}

/// Kind, high and low half, port.
fn address_numbers(address: Option<Address>) -> [u64; 4] {
    match address {
        None => [0; 4],
        Some(Address::V4(address)) => [4, address.ip().to_bits().into(), 0, address.port().into()],
        Some(Address::V6(address)) => {
            let bits = address.ip().to_bits();
            [6, (bits >> 64) as u64, bits as u64, address.port().into()]
        }
        Some(other) => panic!("{other}"),
    }
}

/// Where a part that was lent out of the bytes begins in them.
fn place(bytes: &[u8], part: &[u8]) -> u64 {
    (part.as_ptr().addr() - bytes.as_ptr().addr()) as u64
}

fn end(bytes: &[u8], part: &[u8]) -> u64 {
    place(bytes, part) + part.len() as u64
}

/// Place and length.
fn span(bytes: &[u8], part: &[u8]) -> [u64; 2] {
    [place(bytes, part), part.len() as u64]
}
