//! Our library's exported functions, each with a safe form that also tests that a refusal changes
//! nothing and that a write changes only the bytes it reports.

pub mod builds;
pub mod entries;
pub mod frames;
pub mod messages;
pub mod sessions;
pub mod writers;

use crate::answer::{Answer, Value};
use haspeljo_sys::*;
use std::mem::MaybeUninit;

/// What a result array holds before a call.
const UNTOUCHED: u64 = 0x5bad_c0de_5bad_c0de;

/// A call that fills a result array, or refuses and leaves the array as it was.
fn call<const N: usize>(f: impl FnOnce(&mut [u64; N]) -> u8) -> Result<[u64; N], Answer> {
    let mut r = [UNTOUCHED; N];
    match f(&mut r) {
        0 => Ok(r),
        _ if r != [UNTOUCHED; N] => Err(Answer::Broken("a refusal changed the result")),
        number => Err(Answer::Refused(number)),
    }
}

/// A reader's answer, from what it says of the value and where it says that it ends.
fn reached<const N: usize>(
    result: Result<[u64; N], Answer>,
    value: impl FnOnce([u64; N]) -> (Option<Value>, u64),
) -> Answer {
    match result.map(value) {
        Ok((Some(value), next)) => Answer::Reached(value, next),
        Ok((None, _)) => {
            Answer::Broken("what it names lies outside the bytes or does not end at the next place")
        }
        Err(refused) => refused,
    }
}

/// The answer of a reader of one number.
fn reached_number(result: Result<[u64; 2], Answer>) -> Answer {
    reached(result, |[number, next]| (Some(Value::Unsigned(number)), next))
}

/// The bytes that begin at `start` and end at `next`, if they are `length` ones of s.
fn part(s: &[u8], start: u64, length: u64, next: u64) -> Option<Value> {
    let part = s.get(start as usize..next as usize)?;
    (part.len() as u64 == length).then(|| Value::Bytes(part.to_vec()))
}

/// A number, and bytes by place and length that end at the next place.
fn ended(s: &[u8], [number, start, length, next]: [u64; 4]) -> Option<Value> {
    part(s, start, length, next).map(|bytes| Value::headed(number, start, bytes))
}

/// So many bytes of s from `start` on.
fn part_at(s: &[u8], start: u64, length: u64) -> Option<Value> {
    part(s, start, length, start.checked_add(length)?)
}

// SAFETY, of every call below and in the modules of this one: a pointer and a length come from one slice, a result array is
// borrowed for the call, and our functions read and write within these alone.

pub fn read_byte(s: &[u8], at: usize) -> Answer {
    reached_number(call(|r| unsafe { haspeljo_read_byte(s.as_ptr(), s.len(), at, r) }))
}

pub fn read_vlq(s: &[u8], at: usize) -> Answer {
    reached_number(call(|r| unsafe { haspeljo_read_vlq(s.as_ptr(), s.len(), at, r) }))
}

pub fn read_vlq_length(s: &[u8], at: usize) -> Answer {
    reached_number(call(|r| unsafe { haspeljo_read_vlq_length(s.as_ptr(), s.len(), at, r) }))
}

pub fn read_short_string(s: &[u8], at: usize) -> Answer {
    let result = call(|r| unsafe { haspeljo_read_short_string(s.as_ptr(), s.len(), at, r) });
    reached(result, |[start, length, next]| (part(s, start, length, next), next))
}

pub fn read_part(s: &[u8], at: usize, n: usize) -> Answer {
    let result = call(|r| unsafe { haspeljo_read_part(s.as_ptr(), s.len(), at, n, r) });
    reached(result, |[start, length, next]| {
        (part(s, start, length, next).filter(|_| length == n as u64), next)
    })
}

/// Bytes before and after an output that no writer may change.
const MARGIN: usize = 32;

/// An output between such bytes.
pub struct Guarded(Vec<u8>);

impl Guarded {
    /// An output of `room` bytes, which and those around it hold what `byte` gives for each index.
    pub fn filled(room: usize, byte: impl FnMut(usize) -> u8) -> Guarded {
        Guarded((0..room + 2 * MARGIN).map(byte).collect())
    }

    pub fn output(&self) -> &[u8] {
        &self.0[MARGIN..self.0.len() - MARGIN]
    }

    /// A writer's answer from a place, or the promise that it broke.
    pub fn write(&mut self, at: usize, f: impl FnOnce(&mut [u8], &mut [u64; 1]) -> u8) -> Answer {
        let before = self.0.clone();
        let after = &mut self.0;
        let room = before.len() - 2 * MARGIN;
        let result = call(|r| f(&mut after[MARGIN..MARGIN + room], r));
        let [end] = match result {
            Ok(r) => r,
            Err(_) if *after != before => return Answer::Broken("a refusal changed the output"),
            Err(refused) => return refused,
        };
        if end < at as u64 || end > room as u64 {
            return Answer::Broken("the end is not in the output");
        }
        let (from, to) = (MARGIN + at, MARGIN + end as usize);
        if after[..from] != before[..from] || after[to..] != before[to..] {
            return Answer::Broken("a write changed bytes that it does not report");
        }
        Answer::Reached(Value::Bytes(after[from..to].to_vec()), end)
    }
}

/// A writer on an output of `room` bytes with a pattern in it and around it.
fn write(room: usize, at: usize, f: impl FnOnce(&mut [u8], &mut [u64; 1]) -> u8) -> Answer {
    Guarded::filled(room, |i| (i * 31 + 7) as u8).write(at, f)
}

pub fn write_vlq(room: usize, at: usize, value: u64) -> Answer {
    write(room, at, |out, r| unsafe {
        haspeljo_write_vlq(out.as_mut_ptr(), out.len(), at, value, r)
    })
}

pub fn write_short_string(room: usize, at: usize, s: &[u8]) -> Answer {
    write(room, at, |out, r| unsafe {
        haspeljo_write_short_string(out.as_mut_ptr(), out.len(), at, s.as_ptr(), s.len(), r)
    })
}

pub fn write_part(room: usize, at: usize, s: &[u8]) -> Answer {
    write(room, at, |out, r| unsafe {
        haspeljo_write_part(out.as_mut_ptr(), out.len(), at, s.as_ptr(), s.len(), r)
    })
}

pub fn zigzag_encode(n: i32) -> Answer {
    Answer::Is(Value::Unsigned(unsafe { haspeljo_zigzag_encode(n) }.into()))
}

pub fn zigzag_decode(n: u32) -> Answer {
    Answer::Is(Value::Signed(unsafe { haspeljo_zigzag_decode(n) }.into()))
}

pub fn zigzag_encode_i64(n: i64) -> Answer {
    Answer::Is(Value::Unsigned(unsafe { haspeljo_zigzag_encode_i64(n) }))
}

pub fn zigzag_decode_i64(n: u64) -> Answer {
    Answer::Is(Value::Signed(unsafe { haspeljo_zigzag_decode_i64(n) }))
}

/// 1 or 0 as a truth value.
fn truth(n: u8) -> Answer {
    match n {
        0 | 1 => Answer::Is(Value::Truth(n == 1)),
        _ => Answer::Broken("a truth value is neither 0 nor 1"),
    }
}

pub fn is_utf8(s: &[u8]) -> Answer {
    truth(unsafe { haspeljo_is_utf8(s.as_ptr(), s.len()) })
}

pub fn is_bogus_v4(address: u32, port: u16, mainnet: u8) -> Answer {
    truth(unsafe { haspeljo_is_bogus_v4(address, port, mainnet) })
}

pub fn is_bogus_v6(high: u64, low: u64, port: u16, mainnet: u8) -> Answer {
    truth(unsafe { haspeljo_is_bogus_v6(high, low, port, mainnet) })
}

pub fn blake2b256(s: &[u8]) -> [u8; 32] {
    let mut r = MaybeUninit::uninit();
    unsafe {
        haspeljo_blake2b256(s.as_ptr(), s.len(), r.as_mut_ptr());
        r.assume_init()
    }
}

pub fn frame_check(s: &[u8]) -> [u8; 4] {
    let mut r = [0; 4];
    unsafe { haspeljo_frame_check(s.as_ptr(), s.len(), &mut r) };
    r
}

#[cfg(test)]
mod tests {
    use super::*;

    fn broken(answer: Answer) -> bool {
        matches!(answer, Answer::Broken(_))
    }

    #[test]
    fn a_refusal_may_change_no_result() {
        let kept = call::<2>(|_| 7);
        assert_eq!(kept, Err(Answer::Refused(7)));
        let changed = call::<2>(|r| {
            r[1] = 0;
            7
        });
        assert!(broken(changed.unwrap_err()));
    }

    #[test]
    fn a_part_lies_before_the_next_place() {
        let s = [1, 2, 3, 4];
        assert_eq!(part(&s, 1, 2, 3), Some(Value::Bytes(vec![2, 3])));
        assert_eq!(part(&s, 0, 2, 3), None);
        assert_eq!(part(&s, 3, 2, 5), None);
        assert_eq!(part(&s, 3, u64::MAX, 2), None);
    }

    /// A writer that stores 1 at `stored` of an output of eight bytes and says that it wrote from
    /// place 2 to `end`, or that it refuses.
    fn written(stored: usize, end: u64, refusal: u8) -> Answer {
        write(8, 2, |out, r| {
            out[stored] = 1;
            if refusal == 0 {
                r[0] = end;
            }
            refusal
        })
    }

    #[test]
    fn a_write_changes_only_what_it_reports() {
        assert_eq!(written(2, 3, 0), Answer::Reached(Value::Bytes(vec![1]), 3));
        assert!(broken(written(1, 3, 0)));
        assert!(broken(written(3, 3, 0)));
        assert!(broken(written(2, 1, 0)));
        assert!(broken(written(2, 9, 0)));
        assert!(broken(written(2, 3, 14)));
    }
}
