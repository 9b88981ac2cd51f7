//! VLQs, zigzag, short strings and parts. A reader gives a [`Read`].

use crate::{calls, part, string, Error};

pub use crate::calls::{
    write_part, write_vlq, zigzag_decode, zigzag_decode_i64, zigzag_encode, zigzag_encode_i64,
};

/// A value that was read, and the place after it.
#[derive(Clone, Copy, Debug, PartialEq, Eq, Hash)]
#[non_exhaustive]
pub struct Read<T> {
    /// The value.
    pub value: T,
    /// The place after its bytes.
    pub next: usize,
}

impl<T> Read<T> {
    fn new(value: T, next: u64) -> Read<T> {
        Read { value, next: next as usize }
    }
}

/// The byte at a place.
///
/// # Errors
///
/// `Outside`, `Missing`.
pub fn read_byte(bytes: &[u8], at: usize) -> Result<Read<u8>, Error> {
    let [value, next] = calls::read_byte(bytes, at)?;
    Ok(Read::new(value as u8, next))
}

/// A VLQ of at most ten bytes, modulo 2^64.
///
/// # Errors
///
/// `Outside`, `Missing`, `LongVlq`.
pub fn read_vlq(bytes: &[u8], at: usize) -> Result<Read<u64>, Error> {
    let [value, next] = calls::read_vlq(bytes, at)?;
    Ok(Read::new(value, next))
}

/// A VLQ of at most 16,388,608.
///
/// # Errors
///
/// `Outside`, `Missing`, `LongVlq`, `OverLimit`.
pub fn read_vlq_length(bytes: &[u8], at: usize) -> Result<Read<usize>, Error> {
    let [length, next] = calls::read_vlq_length(bytes, at)?;
    Ok(Read::new(length as usize, next))
}

/// A length byte, and so many bytes of UTF-8.
///
/// # Errors
///
/// `Outside`, `Missing`, `NotUtf8`.
pub fn read_short_string(bytes: &[u8], at: usize) -> Result<Read<&str>, Error> {
    let [start, length, next] = calls::read_short_string(bytes, at)?;
    Ok(Read::new(string(bytes, start, length), next))
}

/// So many bytes.
///
/// # Errors
///
/// `Outside`, `Missing`.
pub fn read_part(bytes: &[u8], at: usize, count: usize) -> Result<Read<&[u8]>, Error> {
    let [start, length, next] = calls::read_part(bytes, at, count)?;
    Ok(Read::new(part(bytes, start, length), next))
}

/// Writes a string of at most 255 bytes behind its length.
///
/// # Errors
///
/// `Outside`, `LongString`, `NoRoom`.
pub fn write_short_string(out: &mut [u8], at: usize, s: &str) -> Result<usize, Error> {
    calls::write_short_string(out, at, s.as_bytes())
}
