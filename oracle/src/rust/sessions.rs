//! The session walk, put together from the Rust's functions: at place 0 `parse` and `measure_size`,
//! elsewhere `decode`, then `from_frame`, and `parse_peers_body` for Peers.

use super::items::Item;
use super::{entries, frames, messages, number, refused};
use crate::answer::{Answer, Expected, Value};
use p2p::protocol::messages::ProtocolMessage;
use p2p::transport::frame::Frame;
use p2p::transport::handshake::PeerSpec;
use std::io;

/// What stands at a place of a session: an item and its end; or `end`; or `stop` with the layer, the
/// number and the item's start.
pub fn step(s: &[u8], at: u64, mainnet: u8, cap: u64) -> Expected {
    if at > s.len() as u64 {
        return refused(12);
    }
    match opened(s, at, mainnet, cap) {
        Ok((item, end)) => item.map(|item| Answer::Reached(item, end)),
        Err(ending) => Expected::Rust(Answer::Is(ending)),
    }
}

/// All items of a session in order, each with its end, then how the session ends.
pub fn walk(s: &[u8], mainnet: u8, cap: u64) -> Expected {
    let (items, ending) = each(|at| opened(s, at, mainnet, cap));
    let items = items.into_iter().map(|(item, end)| item.map(|item| [item, Value::Unsigned(end)]));
    let items: Expected<Vec<[Value; 2]>> = items.collect();
    items.map(|items| {
        let values = items.into_iter().flatten().chain([ending]);
        Answer::Is(Value::List(values.collect()))
    })
}

/// All items of a session by value, and how the session ends.
pub fn items(s: &[u8], mainnet: u8, cap: u64) -> (Vec<Item>, Value) {
    let (items, ending) = each(|at| valued(s, at, mainnet, cap));
    (items.into_iter().map(|(item, _)| item).collect(), ending)
}

/// What is opened from place 0 on, each with its end, and how the session ends.
fn each<T>(open: impl Fn(u64) -> Result<(T, u64), Value>) -> (Vec<(T, u64)>, Value) {
    let (mut items, mut at) = (vec![], 0);
    loop {
        match open(at) {
            Ok((item, end)) => {
                items.push((item, end));
                at = end;
            }
            Err(ending) => return (items, ending),
        }
    }
}

/// What stands at a place before a body is opened.
enum Found {
    Handshake(PeerSpec),
    Frame(Frame),
}

/// What stands at a place and its end, or how the session ends there.
fn found(s: &[u8], at: u64, mainnet: u8) -> Result<(Found, u64), Value> {
    if at == 0 {
        let (spec, size) = entries::parsed(s).map_err(|e| stop("handshake", e, at))?;
        return Ok((Found::Handshake(spec), size));
    }
    if at == s.len() as u64 {
        return Err(Value::Word("end"));
    }
    let (frame, end) = frames::decoded(s, at, mainnet).map_err(|e| stop("frame", e, at))?;
    Ok((Found::Frame(frame), end))
}

/// The item at a place with its end, or how the session ends there.
fn opened(s: &[u8], at: u64, mainnet: u8, cap: u64) -> Result<(Expected<Value>, u64), Value> {
    let (frame, end) = match found(s, at, mainnet)? {
        (Found::Handshake(spec), size) => {
            return Ok((Expected::Rust(handshake(s, &spec, mainnet)), size))
        }
        (Found::Frame(frame), end) => (frame, end),
    };
    let (fields, next) =
        messages::opened(frame.code, &frame.body, cap, mainnet).map_err(|e| stop("body", e, at))?;
    let length = frame.body.len() as u64;
    let numbers = [at, frame.code.into(), end - length, length];
    Ok((fields.map(|fields| message(numbers, fields, next)), end))
}

/// The fields of a handshake and its verdict.
fn handshake(s: &[u8], spec: &PeerSpec, mainnet: u8) -> Value {
    let fields = entries::handshake_fields(s, spec).expect("the places of what the Rust parses");
    let verdict = entries::verdict(spec, mainnet);
    Value::List(vec![Value::Word("handshake"), Value::Unsigned(0), fields, verdict])
}

/// The item at a place by value with its end, or how the session ends there.
fn valued(s: &[u8], at: u64, mainnet: u8, cap: u64) -> Result<(Item, u64), Value> {
    let (item, end) = match found(s, at, mainnet)? {
        (Found::Handshake(spec), size) => (Item::handshake(s, spec), size),
        (Found::Frame(frame), end) => {
            let message = ProtocolMessage::from_frame(&frame);
            let item = message.and_then(|message| Item::message(message, cap));
            (item.map_err(|e| stop("body", e, at))?, end)
        }
    };
    Ok((item, end))
}

/// Start, code, place and length of the body; then what is read of the body, in places of the body.
pub fn message(numbers: [u64; 4], fields: Value, next: u64) -> Value {
    let read = [fields, Value::Unsigned(next)];
    Value::List(vec![Value::Word("message"), Value::counted(numbers, read)])
}

fn stop(layer: &'static str, e: io::Error, start: u64) -> Value {
    stopped(layer, number(&e).into(), start)
}

pub fn stopped(layer: &'static str, number: u64, start: u64) -> Value {
    let words = [Value::Word("stop"), Value::Word(layer)];
    Value::List(words.into_iter().chain([number, start].map(Value::Unsigned)).collect())
}

/// The lines that the program `session` prints of a session.
pub fn lines(s: &[u8], mainnet: u8, cap: u64) -> String {
    let mut text = String::new();
    let mut at = 0;
    loop {
        match line(s, at, mainnet, cap) {
            Ok((line, end)) => {
                text += &format!("{line}\n");
                at = end;
            }
            Err((_, _)) if at > 0 && at == s.len() as u64 => return text + &format!("end {at}\n"),
            Err((layer, e)) => return text + &format!("stop {layer} {} {at}\n", number(&e)),
        }
    }
}

/// The line of the item at a place and the item's end, or the layer and the error that stop the walk.
fn line(
    s: &[u8],
    at: u64,
    mainnet: u8,
    cap: u64,
) -> Result<(String, u64), (&'static str, io::Error)> {
    if at == 0 {
        let (spec, end) = entries::parsed(s).map_err(|e| ("handshake", e))?;
        let v = spec.version;
        let verdict = entries::verdict(&spec, mainnet);
        let version = format!("{}.{}.{}", v.major, v.minor, v.patch);
        return Ok((format!("handshake 0 {end} version {version} verdict {verdict}"), end));
    }
    let (frame, end) = frames::decoded(s, at, mainnet).map_err(|e| ("frame", e))?;
    messages::opened(frame.code, &frame.body, cap, mainnet).map_err(|e| ("body", e))?;
    let peers = match frame.code {
        2 => messages::counts(&frame.body, cap, mainnet).map_err(|e| ("body", e))?,
        _ => String::new(),
    };
    Ok((format!("message {at} {end} code {}{peers}", frame.code), end))
}
