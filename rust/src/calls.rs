//! A safe form of each function that the crate calls: slices for pointers and lengths, a `Result`
//! for the refusal number and the result array. All unsafe code of the crate is here.

use crate::{refusal, Error, HandshakeConfig, Network, ProxyMode};
use haspeljo_sys::*;
use std::mem::MaybeUninit;
use std::ops::Range;

/// The result array of an accepted call.
#[inline]
fn call<const N: usize>(f: impl FnOnce(&mut [u64; N]) -> u8) -> Result<[u64; N], Error> {
    let mut r = [0; N];
    match f(&mut r) {
        0 => Ok(r),
        number => Err(refused(number)),
    }
}

#[cold]
fn refused(number: u8) -> Error {
    refusal(number.into())
}

/// The end of an accepted write.
#[inline]
fn write(f: impl FnOnce(&mut [u64; 1]) -> u8) -> Result<usize, Error> {
    let [end] = call(f)?;
    Ok(end as usize)
}

// SAFETY, of every call below: each pointer and its length come from one slice that is borrowed for
// the call, a lent output and a result array are borrowed mutably, so that nothing else overlaps
// them, and the proved functions read and write within these alone and keep no pointer.

pub fn read_byte(s: &[u8], at: usize) -> Result<[u64; 2], Error> {
    call(|r| unsafe { haspeljo_read_byte(s.as_ptr(), s.len(), at, r) })
}

pub fn read_vlq(s: &[u8], at: usize) -> Result<[u64; 2], Error> {
    call(|r| unsafe { haspeljo_read_vlq(s.as_ptr(), s.len(), at, r) })
}

pub fn read_vlq_length(s: &[u8], at: usize) -> Result<[u64; 2], Error> {
    call(|r| unsafe { haspeljo_read_vlq_length(s.as_ptr(), s.len(), at, r) })
}

pub fn read_short_string(s: &[u8], at: usize) -> Result<[u64; 3], Error> {
    call(|r| unsafe { haspeljo_read_short_string(s.as_ptr(), s.len(), at, r) })
}

pub fn read_part(s: &[u8], at: usize, count: usize) -> Result<[u64; 3], Error> {
    call(|r| unsafe { haspeljo_read_part(s.as_ptr(), s.len(), at, count, r) })
}

/// Writes the shortest VLQ of a value.
///
/// # Errors
///
/// `Outside`, `NoRoom`.
pub fn write_vlq(out: &mut [u8], at: usize, value: u64) -> Result<usize, Error> {
    write(|r| unsafe { haspeljo_write_vlq(out.as_mut_ptr(), out.len(), at, value, r) })
}

pub fn write_short_string(out: &mut [u8], at: usize, s: &[u8]) -> Result<usize, Error> {
    write(|r| unsafe {
        haspeljo_write_short_string(out.as_mut_ptr(), out.len(), at, s.as_ptr(), s.len(), r)
    })
}

/// Writes bytes as they are.
///
/// # Errors
///
/// `Outside`, `NoRoom`.
pub fn write_part(out: &mut [u8], at: usize, s: &[u8]) -> Result<usize, Error> {
    write(|r| unsafe {
        haspeljo_write_part(out.as_mut_ptr(), out.len(), at, s.as_ptr(), s.len(), r)
    })
}

/// The zigzag number of 32 bits: 0, 1, 2 for 0, -1, 1.
pub fn zigzag_encode(value: i32) -> u32 {
    unsafe { haspeljo_zigzag_encode(value) }
}

/// The reverse of `zigzag_encode`.
pub fn zigzag_decode(value: u32) -> i32 {
    unsafe { haspeljo_zigzag_decode(value) }
}

/// The zigzag number of 64 bits: 0, 1, 2 for 0, -1, 1.
pub fn zigzag_encode_i64(value: i64) -> u64 {
    unsafe { haspeljo_zigzag_encode_i64(value) }
}

/// The reverse of `zigzag_encode_i64`.
pub fn zigzag_decode_i64(value: u64) -> i64 {
    unsafe { haspeljo_zigzag_decode_i64(value) }
}

/// Whether bytes are UTF-8 (RFC 3629).
pub fn is_utf8(s: &[u8]) -> bool {
    unsafe { haspeljo_is_utf8(s.as_ptr(), s.len()) == 1 }
}

pub fn is_bogus_v4(address: u32, network: Network) -> bool {
    unsafe { haspeljo_is_bogus_v4(address, 0, mainnet(network)) == 1 }
}

pub fn is_bogus_v6(high: u64, low: u64, network: Network) -> bool {
    unsafe { haspeljo_is_bogus_v6(high, low, 0, mainnet(network)) == 1 }
}

/// BLAKE2b with a 32-byte output and no key (RFC 7693).
pub fn blake2b256(s: &[u8]) -> [u8; 32] {
    let mut r = MaybeUninit::uninit();
    unsafe {
        haspeljo_blake2b256(s.as_ptr(), s.len(), r.as_mut_ptr());
        r.assume_init()
    }
}

/// The check of a frame with this body: the first four bytes of its BLAKE2b-256.
pub fn frame_check(s: &[u8]) -> [u8; 4] {
    let mut r = [0; 4];
    unsafe { haspeljo_frame_check(s.as_ptr(), s.len(), &mut r) };
    r
}

pub fn parse(s: &[u8]) -> Result<[u64; 15], Error> {
    call(|r| unsafe { haspeljo_parse(s.as_ptr(), s.len(), r) })
}

pub fn measure_size(s: &[u8]) -> Result<[u64; 1], Error> {
    call(|r| unsafe { haspeljo_measure_size(s.as_ptr(), s.len(), r) })
}

pub fn parse_peer_entry(s: &[u8], at: usize) -> Result<[u64; 15], Error> {
    call(|r| unsafe { haspeljo_parse_peer_entry(s.as_ptr(), s.len(), at, r) })
}

pub fn read_feature(s: &[u8], at: usize) -> Result<[u64; 4], Error> {
    call(|r| unsafe { haspeljo_read_feature(s.as_ptr(), s.len(), at, r) })
}

pub fn validate_peer(s: &[u8], network: Network) -> Result<[u64; 2], Error> {
    call(|r| unsafe { haspeljo_validate_peer(s.as_ptr(), s.len(), mainnet(network), r) })
}

pub fn validate_entry(s: &[u8], at: usize, network: Network) -> Result<[u64; 2], Error> {
    call(|r| unsafe { haspeljo_validate_entry(s.as_ptr(), s.len(), at, mainnet(network), r) })
}

pub fn rest_api_url(s: &[u8], at: usize) -> Result<[u64; 4], Error> {
    call(|r| unsafe { haspeljo_rest_api_url(s.as_ptr(), s.len(), at, r) })
}

pub fn decode(s: &[u8], network: Network, at: usize) -> Result<[u64; 4], Error> {
    call(|r| unsafe { haspeljo_decode(s.as_ptr(), s.len(), at, mainnet(network), r) })
}

pub fn from_frame(code: u8, body: &[u8], cap: usize, network: Network) -> Result<[u64; 5], Error> {
    call(|r| unsafe {
        haspeljo_from_frame(body.as_ptr(), body.len(), mainnet(network), cap, code, r)
    })
}

pub fn read_payload(body: &[u8], at: usize, total: usize) -> Result<[u64; 5], Error> {
    call(|r| unsafe { haspeljo_read_payload(body.as_ptr(), body.len(), at, total, r) })
}

pub fn step(s: &[u8], network: Network, cap: usize, at: usize) -> Result<[u64; 11], Error> {
    call(|r| unsafe { haspeljo_step(s.as_ptr(), s.len(), at, mainnet(network), cap, r) })
}

/// The place and length of a body that a caller names; 12 for a range that ends before it starts.
fn body_of(body: Range<usize>) -> Result<(usize, usize), Error> {
    let length = body.end.checked_sub(body.start).ok_or(Error::Outside)?;
    Ok((body.start, length))
}

pub fn entry_in_stream(
    s: &[u8],
    body: Range<usize>,
    cap: usize,
    index: usize,
) -> Result<[u64; 15], Error> {
    let (start, length) = body_of(body)?;
    call(|r| unsafe { haspeljo_entry_in_stream(s.as_ptr(), s.len(), start, length, cap, index, r) })
}

pub fn id_in_stream(s: &[u8], body: Range<usize>, index: usize) -> Result<[u64; 1], Error> {
    let (start, length) = body_of(body)?;
    call(|r| unsafe { haspeljo_id_in_stream(s.as_ptr(), s.len(), start, length, index, r) })
}

pub fn payload_in_stream(s: &[u8], body: Range<usize>, index: usize) -> Result<[u64; 4], Error> {
    let (start, length) = body_of(body)?;
    call(|r| unsafe { haspeljo_payload_in_stream(s.as_ptr(), s.len(), start, length, index, r) })
}

/// Tables of entries and of features, beside the buffer that their places are in.
#[derive(Clone, Copy)]
pub struct Lent<'a> {
    pub entries: &'a [u32],
    pub features: &'a [u32],
    pub buffer: &'a [u8],
}

pub fn write_entry(out: &mut [u8], at: usize, lent: Lent, index: usize) -> Result<usize, Error> {
    let Lent { entries, features, buffer } = lent;
    write(|r| unsafe {
        haspeljo_write_entry(
            out.as_mut_ptr(),
            out.len(),
            at,
            index,
            entries.as_ptr(),
            entries.len(),
            features.as_ptr(),
            features.len(),
            buffer.as_ptr(),
            buffer.len(),
            r,
        )
    })
}

#[inline]
pub fn write_handshake(
    out: &mut [u8],
    at: usize,
    timestamp: u64,
    lent: Lent,
    index: usize,
) -> Result<usize, Error> {
    let Lent { entries, features, buffer } = lent;
    write(|r| unsafe {
        haspeljo_write_handshake(
            out.as_mut_ptr(),
            out.len(),
            at,
            timestamp,
            index,
            entries.as_ptr(),
            entries.len(),
            features.as_ptr(),
            features.len(),
            buffer.as_ptr(),
            buffer.len(),
            r,
        )
    })
}

/// `address` is its kind (0 for none, 4 or 6), the high and the low half, and the port.
pub fn build(
    out: &mut [u8],
    at: usize,
    config: &HandshakeConfig,
    address: (u8, u64, u64, u16),
) -> Result<usize, Error> {
    let (kind, high, low, port) = address;
    let (agent, name) = (config.agent_name, config.peer_name);
    write(|r| unsafe {
        haspeljo_build(
            out.as_mut_ptr(),
            out.len(),
            at,
            mainnet(config.network),
            (config.mode == ProxyMode::Light).into(),
            config.state_type_id,
            config.verifying.into(),
            config.blocks_to_keep,
            config.version.major,
            config.version.minor,
            config.version.patch,
            kind,
            high,
            low,
            port,
            config.timestamp,
            config.session_id,
            agent.as_ptr(),
            agent.len(),
            name.as_ptr(),
            name.len(),
            r,
        )
    })
}

/// Writes a frame of any code with a body.
///
/// # Errors
///
/// `Outside`, `LongBody`, `NoRoom`.
pub fn encode(
    out: &mut [u8],
    at: usize,
    network: Network,
    code: u8,
    body: &[u8],
) -> Result<usize, Error> {
    let mainnet = mainnet(network);
    write(|r| unsafe {
        let (start, length) = (body.as_ptr(), body.len());
        haspeljo_encode(out.as_mut_ptr(), out.len(), at, mainnet, code, start, length, r)
    })
}

/// Writes a GetPeers message.
///
/// # Errors
///
/// `Outside`, `NoRoom`.
pub fn write_get_peers(out: &mut [u8], at: usize, network: Network) -> Result<usize, Error> {
    let mainnet = mainnet(network);
    write(|r| unsafe { haspeljo_write_get_peers(out.as_mut_ptr(), out.len(), at, mainnet, r) })
}

pub fn write_peers(
    out: &mut [u8],
    at: usize,
    network: Network,
    cap: usize,
    lent: Lent,
) -> Result<usize, Error> {
    let Lent { entries, features, buffer } = lent;
    write(|r| unsafe {
        haspeljo_write_peers(
            out.as_mut_ptr(),
            out.len(),
            at,
            mainnet(network),
            cap,
            entries.as_ptr(),
            entries.len(),
            features.as_ptr(),
            features.len(),
            buffer.as_ptr(),
            buffer.len(),
            r,
        )
    })
}

/// Which message of one table is written.
#[derive(Clone, Copy)]
pub enum Listed {
    ModifierRequest,
    ModifierResponse,
    Inv,
}

pub fn write_listed(
    out: &mut [u8],
    at: usize,
    network: Network,
    listed: Listed,
    modifier_type: u8,
    table: &[u32],
    buffer: &[u8],
) -> Result<usize, Error> {
    let writer = match listed {
        Listed::ModifierRequest => haspeljo_write_modifier_request,
        Listed::ModifierResponse => haspeljo_write_modifier_response,
        Listed::Inv => haspeljo_write_inv,
    };
    write(|r| unsafe {
        writer(
            out.as_mut_ptr(),
            out.len(),
            at,
            mainnet(network),
            modifier_type,
            table.as_ptr(),
            table.len(),
            buffer.as_ptr(),
            buffer.len(),
            r,
        )
    })
}

/// Writes a SyncInfo message.
///
/// # Errors
///
/// `Outside`, `LongBody`, `NoRoom`.
pub fn write_sync_info(
    out: &mut [u8],
    at: usize,
    network: Network,
    body: &[u8],
) -> Result<usize, Error> {
    let mainnet = mainnet(network);
    write(|r| unsafe {
        let (start, length) = (body.as_ptr(), body.len());
        haspeljo_write_sync_info(out.as_mut_ptr(), out.len(), at, mainnet, start, length, r)
    })
}

/// Writes a message whose code is none of [`MessageCode`](crate::MessageCode).
///
/// # Errors
///
/// `Outside`, `LongBody`, `Unwritable`, `NoRoom`.
pub fn write_unknown(
    out: &mut [u8],
    at: usize,
    network: Network,
    code: u8,
    body: &[u8],
) -> Result<usize, Error> {
    let mainnet = mainnet(network);
    write(|r| unsafe {
        let (start, length) = (body.as_ptr(), body.len());
        haspeljo_write_unknown(out.as_mut_ptr(), out.len(), at, mainnet, code, start, length, r)
    })
}

fn mainnet(network: Network) -> u8 {
    (network == Network::Mainnet).into()
}
