//! The Rust's answers on entries and handshakes. Its readers give strings and bodies by value; the
//! places where these stand are found by stepping through the bytes with its own readers.

use super::{answer, byte, cursor, network, number, numbered, read, refused};
use crate::answer::{Answer, Expected, Value};
use p2p::transport::handshake::{self, Feature, PeerSpec};
use p2p::transport::vlq;
use std::io::{self, Cursor, Read};
use std::net::{IpAddr, SocketAddr};

/// How the text of a verdict by the Rust begins, and document 01's number for it.
const VERDICTS: [(&str, u8); 2] = [("Peer version", 1), ("Session magic mismatch", 2)];

/// An entry that says nothing, up to its count of one feature.
const BEFORE_A_FEATURE: [u8; 7] = [0, 0, 0, 0, 0, 0, 1];

pub fn parse(s: &[u8]) -> Expected {
    let reading = parsed(s).and_then(|(spec, size)| Ok((handshake_fields(s, &spec)?, size)));
    Expected::Rust(answer(reading))
}

pub fn measure_size(s: &[u8]) -> Expected {
    Expected::Rust(match handshake::measure_size(s) {
        Ok(size) => Answer::Is(Value::Unsigned(size as u64)),
        Err(e) => Answer::Refused(number(&e)),
    })
}

pub fn validate_peer(s: &[u8], mainnet: u8) -> Expected {
    Expected::Rust(answer(parsed(s).map(|(spec, size)| (verdict(&spec, mainnet), size))))
}

/// A handshake by `parse`, which drops its place, and its size by `measure_size`.
pub fn parsed(s: &[u8]) -> io::Result<(PeerSpec, u64)> {
    let spec = handshake::parse(s)?;
    let size = handshake::measure_size(s).expect("the size of what the Rust parses");
    Ok((spec, size as u64))
}

/// The timestamp, which `parse` drops, and the entry.
pub fn handshake_fields(s: &[u8], spec: &PeerSpec) -> io::Result<Value> {
    let mut cursor = Cursor::new(s);
    let timestamp = vlq::read_vlq(&mut cursor)?;
    entry(timestamp, s, cursor.position(), spec)
}

pub fn parse_peer_entry(s: &[u8], at: u64) -> Expected {
    of_entry(s, at, |spec| entry(0, s, at, spec))
}

pub fn validate_entry(s: &[u8], at: u64, mainnet: u8) -> Expected {
    of_entry(s, at, |spec| Ok(verdict(spec, mainnet)))
}

/// The URL begins after the length byte of the first feature 4.
pub fn rest_api_url(s: &[u8], at: u64) -> Expected {
    of_entry(s, at, |spec| {
        let Some(url) = spec.rest_api_url() else {
            return Ok(Value::headed(0, 0, Value::Bytes(vec![])));
        };
        let index = spec.features.iter().position(|f| f.id == 4).expect("the feature of the URL");
        let place = body_place(s, first_feature(s, at)?, index)? + 1;
        Ok(Value::headed(1, place, Value::Bytes(url.into_bytes())))
    })
}

/// What the Rust says of an entry that it parses.
fn of_entry(s: &[u8], at: u64, value: impl FnOnce(&PeerSpec) -> io::Result<Value>) -> Expected {
    read(s, at, |cursor| {
        let spec = handshake::parse_peer_entry(cursor)?;
        Ok(value(&spec).expect("the places of what the Rust parses"))
    })
}

/// The Rust reads features as part of an entry, so an entry is put before this one.
pub fn read_feature(s: &[u8], at: u64) -> Expected {
    if at > s.len() as u64 {
        return refused(12);
    }
    let before = BEFORE_A_FEATURE.len() as u64;
    let whole = [&BEFORE_A_FEATURE, &s[at as usize..]].concat();
    let mut cursor = Cursor::new(&whole[..]);
    let spec = handshake::parse_peer_entry(&mut cursor);
    Expected::Rust(answer(spec.map(|spec| {
        let next = at + cursor.position() - before;
        let feature = &spec.features[0];
        (feature_at(feature, next - feature.body.len() as u64), next)
    })))
}

/// The Rust's features have no index outside, so that 12 is document 01's.
pub fn feature_by_index(s: &[u8], at: u64, index: u64) -> Expected {
    if at > s.len() as u64 {
        return refused(12);
    }
    let spec = match handshake::parse_peer_entry(&mut cursor(s, at)) {
        Ok(spec) => spec,
        Err(e) => return Expected::Rust(Answer::Refused(number(&e))),
    };
    if index >= spec.features.len() as u64 {
        return refused(12);
    }
    let feature = &spec.features[index as usize];
    let place = first_feature(s, at).and_then(|first| body_place(s, first, index as usize));
    let place = place.expect("the places of what the Rust parses");
    Expected::Rust(Answer::Reached(feature_at(feature, place), place + feature.body.len() as u64))
}

fn feature_at(feature: &Feature, place: u64) -> Value {
    Value::headed(feature.id.into(), place, Value::Bytes(feature.body.clone()))
}

/// All that the Rust reads of an entry: strings with their places, the features with the place of
/// the first.
pub fn entry(timestamp: u64, s: &[u8], at: u64, spec: &PeerSpec) -> io::Result<Value> {
    let [agent, name, first] = places(s, at)?;
    let [kind, high, low, port] = address(spec.address);
    let PeerSpec { version, features, .. } = spec;
    let text = |text: &str| Value::Bytes(text.as_bytes().to_vec());
    let mut values = vec![Value::Unsigned(timestamp), Value::Unsigned(agent), text(&spec.agent)];
    values.extend([version.major, version.minor, version.patch].map(|n| Value::Unsigned(n.into())));
    values.extend([Value::Unsigned(name), text(&spec.name)]);
    let count = features.len() as u64;
    values.extend([kind, high, low, port, count, first].map(Value::Unsigned));
    for Feature { id, body } in features {
        values.extend([Value::Unsigned((*id).into()), Value::Bytes(body.clone())]);
    }
    Ok(Value::List(values))
}

/// 0 for none, 4 or 6; the address as a number, of IPv6 the high and the low half; the port.
fn address(address: Option<SocketAddr>) -> [u64; 4] {
    let Some(address) = address else { return [0; 4] };
    let port = address.port().into();
    match address.ip() {
        IpAddr::V4(ip) => [4, u32::from(ip).into(), 0, port],
        IpAddr::V6(ip) => [6, (u128::from(ip) >> 64) as u64, u128::from(ip) as u64, port],
    }
}

/// Where the agent, the name and the first feature of an entry stand.
fn places(s: &[u8], at: u64) -> io::Result<[u64; 3]> {
    let mut cursor = cursor(s, at);
    let agent = cursor.position() + 1;
    vlq::read_short_string(&mut cursor)?;
    cursor.read_exact(&mut [0; 3])?;
    let name = cursor.position() + 1;
    vlq::read_short_string(&mut cursor)?;
    if byte(&mut cursor)? != 0 {
        let length = byte(&mut cursor)?.saturating_sub(4);
        cursor.set_position(cursor.position() + length as u64);
        vlq::read_vlq(&mut cursor)?;
    }
    byte(&mut cursor)?;
    Ok([agent, name, cursor.position()])
}

fn first_feature(s: &[u8], at: u64) -> io::Result<u64> {
    places(s, at).map(|[_, _, first]| first)
}

/// Where the body of the feature with this index stands, after the first feature's place.
fn body_place(s: &[u8], first: u64, index: usize) -> io::Result<u64> {
    let mut cursor = cursor(s, first);
    for _ in 0..index {
        let length = body_length(&mut cursor)?;
        cursor.set_position(cursor.position() + length as u64);
    }
    body_length(&mut cursor)?;
    Ok(cursor.position())
}

/// Steps to the body of a feature: how long it is.
fn body_length(cursor: &mut Cursor<&[u8]>) -> io::Result<usize> {
    byte(cursor)?;
    vlq::read_vlq_length(cursor)
}

pub fn verdict(spec: &PeerSpec, mainnet: u8) -> Value {
    let verdict = handshake::validate_peer(spec, &network(mainnet));
    Value::Unsigned(verdict.map_or_else(|text| numbered(&VERDICTS, &text).into(), |()| 0))
}
