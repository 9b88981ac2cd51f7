//! Our reader of frames.

use super::{call, ended, reached};
use crate::answer::Answer;
use haspeljo_sys::haspeljo_decode;

pub fn decode(s: &[u8], at: usize, mainnet: u8) -> Answer {
    reached(decoded(s, at, mainnet), |r| (ended(s, r), r[3]))
}

/// A frame's numbers.
pub fn decoded(s: &[u8], at: usize, mainnet: u8) -> Result<[u64; 4], Answer> {
    call(|r| unsafe { haspeljo_decode(s.as_ptr(), s.len(), at, mainnet, r) })
}
