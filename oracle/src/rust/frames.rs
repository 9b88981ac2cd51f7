//! The Rust's answers on frames.

use super::{answer, network, refused};
use crate::answer::{Expected, Value};
use p2p::transport::frame::{self, Frame};
use std::io;

pub fn decode(s: &[u8], at: u64, mainnet: u8) -> Expected {
    if at > s.len() as u64 {
        return refused(12);
    }
    Expected::Rust(answer(decoded(s, at, mainnet).map(|(frame, end)| {
        let place = end - frame.body.len() as u64;
        (Value::headed(frame.code.into(), place, Value::Bytes(frame.body)), end)
    })))
}

/// A frame and its end. The Rust takes the bytes from the frame's first on, and drops the length,
/// which is document 01's: 9, or 13 plus the body. The body ends the frame.
pub fn decoded(s: &[u8], at: u64, mainnet: u8) -> io::Result<(Frame, u64)> {
    let frame = frame::decode(&network(mainnet).magic(), &s[at as usize..])?;
    let length = match frame.body.len() as u64 {
        0 => 9,
        n => 13 + n,
    };
    Ok((frame, at + length))
}
