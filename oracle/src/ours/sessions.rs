//! Our session walk. A step says what stands at a place; the fields of an item are read with our
//! readers, and must be those that the step gives.

use super::{call, entries, messages};
use crate::answer::{Answer, Value};
use crate::rust::sessions::{message, stopped};
use haspeljo_sys::haspeljo_step;

/// What the first number of a step says.
const END: u64 = 0;
const HANDSHAKE: u64 = 1;
const MESSAGE: u64 = 2;
const STOP: u64 = 3;

const LAYERS: [&str; 3] = ["handshake", "frame", "body"];

/// An item with its end, or how the session ends.
type Opened = Result<(Value, u64), Value>;

const DIFFER: Answer = Answer::Broken("a step and our readers differ");

pub fn step(s: &[u8], at: usize, mainnet: u8, cap: usize) -> Answer {
    match opened(s, at, mainnet, cap) {
        Ok(Ok((item, end))) => Answer::Reached(item, end),
        Ok(Err(ending)) => Answer::Is(ending),
        Err(refused) => refused,
    }
}

/// How many items a session has, by its steps alone.
pub fn items(s: &[u8], mainnet: u8, cap: usize) -> u64 {
    let (mut count, mut at) = (0, 0);
    let mut r = [0; 11];
    loop {
        let number = unsafe { haspeljo_step(s.as_ptr(), s.len(), at, mainnet, cap, &mut r) };
        match (number, r[0]) {
            (0, HANDSHAKE | MESSAGE) => at = r[2] as usize,
            _ => return count,
        }
        count += 1;
    }
}

pub fn walk(s: &[u8], mainnet: u8, cap: usize) -> Answer {
    let mut values = vec![];
    let mut at = 0;
    loop {
        match opened(s, at, mainnet, cap) {
            Ok(Ok((_, end))) if end <= at as u64 => {
                return Answer::Broken("an item ends where it starts");
            }
            Ok(Ok((item, end))) => {
                values.extend([item, Value::Unsigned(end)]);
                at = end as usize;
            }
            Ok(Err(ending)) => {
                values.push(ending);
                return Answer::Is(Value::List(values));
            }
            Err(refused) => return refused,
        }
    }
}

/// A step's numbers.
pub fn stepped(s: &[u8], at: usize, mainnet: u8, cap: usize) -> Result<[u64; 11], Answer> {
    call(|r| unsafe { haspeljo_step(s.as_ptr(), s.len(), at, mainnet, cap, r) })
}

fn opened(s: &[u8], at: usize, mainnet: u8, cap: usize) -> Result<Opened, Answer> {
    let r = stepped(s, at, mainnet, cap)?;
    match r {
        [END, 0, 0, 0, 0, 0, 0, 0, 0, 0, 0] => Ok(Err(Value::Word("end"))),
        [HANDSHAKE, start, end, verdict, 0, 0, 0, 0, 0, 0, 0] => handshake(s, start, end, verdict),
        [MESSAGE, .., 0] => opened_message(s, r, mainnet, cap),
        [STOP, start, layer @ 1..=3, number, 0, 0, 0, 0, 0, 0, 0] => {
            Ok(Err(stopped(LAYERS[layer as usize - 1], number, start)))
        }
        _ => Err(Answer::Broken("a step is of no known kind")),
    }
}

fn handshake(s: &[u8], start: u64, end: u64, verdict: u64) -> Result<Opened, Answer> {
    let Answer::Reached(fields, size) = entries::parse(s) else { return Err(DIFFER) };
    if size != end {
        return Err(DIFFER);
    }
    let numbers = [Value::Unsigned(start), fields, Value::Unsigned(verdict)];
    let values = [Value::Word("handshake")].into_iter().chain(numbers).collect();
    Ok(Ok((Value::List(values), end)))
}

fn opened_message(s: &[u8], r: [u64; 11], mainnet: u8, cap: usize) -> Result<Opened, Answer> {
    let [_, start, end, code, place, length, numbers @ .., _] = r;
    let body = s.get(place as usize..end as usize).filter(|body| body.len() as u64 == length);
    let body = body.ok_or(DIFFER)?;
    let Answer::Reached(fields, next) = messages::from_frame(code as u8, body, cap, mainnet) else {
        return Err(DIFFER);
    };
    let given: [u64; 4] = numbers;
    match &fields {
        Value::List(values) if values[..4] == given.map(Value::Unsigned) => {
            Ok(Ok((message([start, code, place, length], fields, next), end)))
        }
        _ => Err(DIFFER),
    }
}
