//! Our writers of handshakes.

use crate::case::Case;
use crate::rust::builds::Config;
use crate::rust::tables::Lent;
use haspeljo_sys::{haspeljo_build, haspeljo_write_handshake};

/// A handshake of the entry in a row, into a lent output from a place: r is where it ends, and the
/// result 0 or a refusal number.
pub fn put_handshake(
    out: &mut [u8],
    at: usize,
    timestamp: u64,
    lent: &Lent,
    row: usize,
    r: &mut [u64; 1],
) -> u8 {
    let Lent { entries, features, buffer } = lent;
    unsafe {
        haspeljo_write_handshake(
            out.as_mut_ptr(),
            out.len(),
            at,
            timestamp,
            row,
            entries.as_ptr(),
            entries.len(),
            features.as_ptr(),
            features.len(),
            buffer.as_ptr(),
            buffer.len(),
            r,
        )
    }
}

pub fn write_handshake(case: &Case, out: &mut [u8], at: usize, r: &mut [u64; 1]) -> u8 {
    put_handshake(out, at, case.word(3), &Lent::of(&case.bytes), case.place(2), r)
}

pub fn build(case: &Case, out: &mut [u8], at: usize, r: &mut [u64; 1]) -> u8 {
    let config = Config::of(case);
    let [major, minor, patch] = config.version;
    let [kind, high, low, port] = config.address;
    unsafe {
        haspeljo_build(
            out.as_mut_ptr(),
            out.len(),
            at,
            config.mainnet,
            config.light,
            config.state_type,
            config.verifying,
            config.blocks_to_keep,
            major,
            minor,
            patch,
            kind as u8,
            high,
            low,
            port as u16,
            config.timestamp,
            config.session_id,
            config.agent.as_ptr(),
            config.agent.len(),
            config.name.as_ptr(),
            config.name.len(),
            r,
        )
    }
}
