//! Our readers of message bodies.

use super::entries::{self, entry_at};
use super::{call, part, part_at, reached};
use crate::answer::{Answer, Value};
use haspeljo_sys::*;

/// A message, with all of its items.
pub fn from_frame(code: u8, body: &[u8], cap: usize, mainnet: u8) -> Answer {
    reached(opened(code, body, cap, mainnet), |[kind, count, bogus, first, next]| {
        let items = match code {
            2 => peers(body, count, first, next),
            22 | 55 => ids(body, count, first, next),
            33 => payloads(body, count, first, next),
            _ => Some(vec![]),
        };
        (items.map(|items| Value::counted([kind, count, bogus, first], items)), next)
    })
}

/// A message's numbers.
pub fn opened(code: u8, body: &[u8], cap: usize, mainnet: u8) -> Result<[u64; 5], Answer> {
    call(|r| unsafe { haspeljo_from_frame(body.as_ptr(), body.len(), mainnet, cap, code, r) })
}

pub fn read_peers_body(body: &[u8], cap: usize, mainnet: u8) -> Answer {
    let result =
        call(|r| unsafe { haspeljo_parse_peers_body(body.as_ptr(), body.len(), mainnet, cap, r) });
    reached(result, |[kind, count, bogus, first, next]| {
        let entries = peers(body, count, first, next);
        (entries.map(|entries| Value::counted([kind, count, bogus, first], entries)), next)
    })
}

/// So many entries from a place on, if they end at the next place.
fn peers(body: &[u8], count: u64, first: u64, next: u64) -> Option<Vec<Value>> {
    let mut at = first;
    let mut entries = vec![];
    for _ in 0..count {
        let r = entry_at(body, at as usize).ok()?;
        entries.push(entries::entry(body, r)?);
        at = r[14];
    }
    (at == next).then_some(entries)
}

fn ids(body: &[u8], count: u64, first: u64, next: u64) -> Option<Vec<Value>> {
    let ids = body.get(first as usize..next as usize)?;
    let whole = ids.len() as u64 == count.checked_mul(32)?;
    whole.then(|| ids.chunks(32).map(|id| Value::Bytes(id.to_vec())).collect())
}

fn payloads(body: &[u8], count: u64, first: u64, next: u64) -> Option<Vec<Value>> {
    let (mut at, mut total) = (first, 0);
    let mut values = vec![];
    for _ in 0..count {
        let [id, place, length, after, sum] = payload_at(body, at as usize, total as usize).ok()?;
        values.extend([part_at(body, id, 32)?, part(body, place, length, after)?]);
        (at, total) = (after, sum);
    }
    (at == next).then_some(values)
}

pub fn entry_by_index(body: &[u8], cap: usize, index: usize) -> Answer {
    let result =
        call(|r| unsafe { haspeljo_entry_by_index(body.as_ptr(), body.len(), cap, index, r) });
    reached(result, |r| (entries::entry(body, r), r[14]))
}

pub fn id_by_index(body: &[u8], index: usize) -> Answer {
    let result = call(|r| unsafe { haspeljo_id_by_index(body.as_ptr(), body.len(), index, r) });
    reached(result, |r| id(body, r))
}

/// An id with its place, and where it ends.
fn id(body: &[u8], [place]: [u64; 1]) -> (Option<Value>, u64) {
    let id = part_at(body, place, 32);
    (id.map(|id| Value::List(vec![Value::Unsigned(place), id])), place.wrapping_add(32))
}

pub fn read_payload(body: &[u8], at: usize, total: usize) -> Answer {
    reached(payload_at(body, at, total), |[id, place, length, next, total]| {
        let values = payload(body, [id, place, length, next]);
        let with_total = values.map(|mut values| {
            values.push(Value::Unsigned(total));
            Value::List(values)
        });
        (with_total, next)
    })
}

/// A payload's numbers.
pub fn payload_at(body: &[u8], at: usize, total: usize) -> Result<[u64; 5], Answer> {
    call(|r| unsafe { haspeljo_read_payload(body.as_ptr(), body.len(), at, total, r) })
}

pub fn payload_by_index(body: &[u8], index: usize) -> Answer {
    let result =
        call(|r| unsafe { haspeljo_payload_by_index(body.as_ptr(), body.len(), index, r) });
    reached(result, |r| (payload(body, r).map(Value::List), r[3]))
}

/// The id and the bytes of a payload, each with its place.
fn payload(body: &[u8], [id, place, length, next]: [u64; 4]) -> Option<Vec<Value>> {
    let [id_bytes, bytes] = [part_at(body, id, 32)?, part(body, place, length, next)?];
    Some(vec![Value::Unsigned(id), id_bytes, Value::Unsigned(place), bytes])
}

// ---- by index from a message of a session, with places in the session

pub fn entry_in_stream(s: &[u8], [start, length]: [usize; 2], cap: usize, index: usize) -> Answer {
    let result = call(|r| unsafe {
        haspeljo_entry_in_stream(s.as_ptr(), s.len(), start, length, cap, index, r)
    });
    reached(result, |r| (entries::entry(s, r), r[14]))
}

pub fn id_in_stream(s: &[u8], [start, length]: [usize; 2], index: usize) -> Answer {
    let result =
        call(|r| unsafe { haspeljo_id_in_stream(s.as_ptr(), s.len(), start, length, index, r) });
    reached(result, |r| id(s, r))
}

pub fn payload_in_stream(s: &[u8], [start, length]: [usize; 2], index: usize) -> Answer {
    let result = call(|r| unsafe {
        haspeljo_payload_in_stream(s.as_ptr(), s.len(), start, length, index, r)
    });
    reached(result, |r| (payload(s, r).map(Value::List), r[3]))
}
