//! Our readers of entries and handshakes.

use super::{call, ended, part_at, reached, reached_number};
use crate::answer::{Answer, Value};
use haspeljo_sys::*;

pub fn parse(s: &[u8]) -> Answer {
    reached(parsed(s), |r| (entry(s, r), r[14]))
}

/// A handshake's numbers.
pub fn parsed(s: &[u8]) -> Result<[u64; 15], Answer> {
    call(|r| unsafe { haspeljo_parse(s.as_ptr(), s.len(), r) })
}

pub fn measure_size(s: &[u8]) -> Answer {
    match call(|r| unsafe { haspeljo_measure_size(s.as_ptr(), s.len(), r) }) {
        Ok([size]) => Answer::Is(Value::Unsigned(size)),
        Err(refused) => refused,
    }
}

pub fn parse_peer_entry(s: &[u8], at: usize) -> Answer {
    reached(entry_at(s, at), |r| (entry(s, r), r[14]))
}

/// An entry's numbers.
pub fn entry_at(s: &[u8], at: usize) -> Result<[u64; 15], Answer> {
    call(|r| unsafe { haspeljo_parse_peer_entry(s.as_ptr(), s.len(), at, r) })
}

pub fn read_feature(s: &[u8], at: usize) -> Answer {
    reached(feature(s, at), |r| (ended(s, r), r[3]))
}

fn feature(s: &[u8], at: usize) -> Result<[u64; 4], Answer> {
    call(|r| unsafe { haspeljo_read_feature(s.as_ptr(), s.len(), at, r) })
}

pub fn feature_by_index(s: &[u8], at: usize, index: usize) -> Answer {
    let result = call(|r| unsafe { haspeljo_feature_by_index(s.as_ptr(), s.len(), at, index, r) });
    reached(result, |r| (ended(s, r), r[3]))
}

pub fn validate_peer(s: &[u8], mainnet: u8) -> Answer {
    reached_number(call(|r| unsafe { haspeljo_validate_peer(s.as_ptr(), s.len(), mainnet, r) }))
}

pub fn validate_entry(s: &[u8], at: usize, mainnet: u8) -> Answer {
    reached_number(call(|r| unsafe {
        haspeljo_validate_entry(s.as_ptr(), s.len(), at, mainnet, r)
    }))
}

pub fn rest_api_url(s: &[u8], at: usize) -> Answer {
    let result = call(|r| unsafe { haspeljo_rest_api_url(s.as_ptr(), s.len(), at, r) });
    reached(result, |[found, start, length, next]| {
        (part_at(s, start, length).map(|url| Value::headed(found, start, url)), next)
    })
}

/// What stands at the places of an entry's numbers, with all of its features, if these end at the
/// next place.
pub fn entry(s: &[u8], r: [u64; 15]) -> Option<Value> {
    let [count, first, next] = [r[12], r[13], r[14]];
    let number = Value::Unsigned;
    let mut values = vec![number(r[0]), number(r[1]), part_at(s, r[1], r[2])?];
    values.extend([r[3], r[4], r[5], r[6]].map(number));
    values.push(part_at(s, r[6], r[7])?);
    values.extend([r[8], r[9], r[10], r[11], count, first].map(number));
    let mut at = first;
    for _ in 0..count {
        let [id, start, length, after] = feature(s, at as usize).ok()?;
        values.extend([number(id), part_at(s, start, length)?]);
        at = after;
    }
    (at == next).then_some(Value::List(values))
}
