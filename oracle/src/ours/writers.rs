//! Our writers of entries and whole frames on a case, and as they are where the benchmark times them.

use super::write;
use crate::answer::Answer;
use crate::case::{tables, Case};
use crate::rust::tables::Lent;
use haspeljo_sys::*;

// SAFETY, of every call below: as in the module above; a table passes as a pointer and its length.

// A writer as it is writes into a lent output from a place; r is where it ends, and the result 0 or a
// refusal number.

pub fn put_peers(
    out: &mut [u8],
    at: usize,
    mainnet: u8,
    cap: usize,
    lent: &Lent,
    r: &mut [u64; 1],
) -> u8 {
    let Lent { entries, features, buffer } = lent;
    unsafe {
        haspeljo_write_peers(
            out.as_mut_ptr(),
            out.len(),
            at,
            mainnet,
            cap,
            entries.as_ptr(),
            entries.len(),
            features.as_ptr(),
            features.len(),
            buffer.as_ptr(),
            buffer.len(),
            r,
        )
    }
}

/// A type byte and what one table names in a buffer.
#[derive(Clone, Copy)]
pub struct Typed<'a> {
    pub kind: u8,
    pub table: &'a [u32],
    pub buffer: &'a [u8],
}

/// A writer of one table: output, network, type byte, table, buffer, result.
type OneTable = unsafe extern "C" fn(
    *mut u8,
    usize,
    usize,
    u8,
    u8,
    *const u32,
    usize,
    *const u8,
    usize,
    *mut [u64; 1],
) -> u8;

fn put_typed(
    writer: OneTable,
    out: &mut [u8],
    at: usize,
    mainnet: u8,
    Typed { kind, table, buffer }: Typed,
    r: &mut [u64; 1],
) -> u8 {
    unsafe {
        writer(
            out.as_mut_ptr(),
            out.len(),
            at,
            mainnet,
            kind,
            table.as_ptr(),
            table.len(),
            buffer.as_ptr(),
            buffer.len(),
            r,
        )
    }
}

pub fn put_modifier_response(
    out: &mut [u8],
    at: usize,
    mainnet: u8,
    payloads: Typed,
    r: &mut [u64; 1],
) -> u8 {
    put_typed(haspeljo_write_modifier_response, out, at, mainnet, payloads, r)
}

pub fn put_inv(out: &mut [u8], at: usize, mainnet: u8, ids: Typed, r: &mut [u64; 1]) -> u8 {
    put_typed(haspeljo_write_inv, out, at, mainnet, ids, r)
}

pub fn put_sync_info(out: &mut [u8], at: usize, mainnet: u8, body: &[u8], r: &mut [u64; 1]) -> u8 {
    let (start, length) = (body.as_ptr(), body.len());
    unsafe { haspeljo_write_sync_info(out.as_mut_ptr(), out.len(), at, mainnet, start, length, r) }
}

/// A writer as it is, of the values of a case.
pub type Put = fn(&Case, &mut [u8], usize, &mut [u64; 1]) -> u8;

/// A writer on the output of a case, whose first numbers are the place and the room.
pub fn on_case(case: &Case, put: Put) -> Answer {
    let [at, room] = [case.place(0), case.place(1)];
    write(room, at, |out, r| put(case, out, at, r))
}

pub fn write_entry(case: &Case, out: &mut [u8], at: usize, r: &mut [u64; 1]) -> u8 {
    let Lent { entries, features, buffer } = Lent::of(&case.bytes);
    unsafe {
        haspeljo_write_entry(
            out.as_mut_ptr(),
            out.len(),
            at,
            case.place(2),
            entries.as_ptr(),
            entries.len(),
            features.as_ptr(),
            features.len(),
            buffer.as_ptr(),
            buffer.len(),
            r,
        )
    }
}

pub fn write_peers(case: &Case, out: &mut [u8], at: usize, r: &mut [u64; 1]) -> u8 {
    put_peers(out, at, case.word(2) as u8, case.place(3), &Lent::of(&case.bytes), r)
}

fn one_table(writer: OneTable, case: &Case, out: &mut [u8], at: usize, r: &mut [u64; 1]) -> u8 {
    let ([table], buffer) = tables::<1>(&case.bytes);
    let typed = Typed { kind: case.word(3) as u8, table: &table, buffer };
    put_typed(writer, out, at, case.word(2) as u8, typed, r)
}

pub fn write_modifier_request(case: &Case, out: &mut [u8], at: usize, r: &mut [u64; 1]) -> u8 {
    one_table(haspeljo_write_modifier_request, case, out, at, r)
}

pub fn write_modifier_response(case: &Case, out: &mut [u8], at: usize, r: &mut [u64; 1]) -> u8 {
    one_table(haspeljo_write_modifier_response, case, out, at, r)
}

pub fn write_inv(case: &Case, out: &mut [u8], at: usize, r: &mut [u64; 1]) -> u8 {
    one_table(haspeljo_write_inv, case, out, at, r)
}

pub fn write_get_peers(case: &Case, out: &mut [u8], at: usize, r: &mut [u64; 1]) -> u8 {
    unsafe { haspeljo_write_get_peers(out.as_mut_ptr(), out.len(), at, case.word(2) as u8, r) }
}

pub fn write_sync_info(case: &Case, out: &mut [u8], at: usize, r: &mut [u64; 1]) -> u8 {
    put_sync_info(out, at, case.word(2) as u8, &case.bytes, r)
}

/// A writer of a body as it is: output, network, code, body, result.
type WholeBody =
    unsafe extern "C" fn(*mut u8, usize, usize, u8, u8, *const u8, usize, *mut [u64; 1]) -> u8;

fn whole_body(writer: WholeBody, case: &Case, out: &mut [u8], at: usize, r: &mut [u64; 1]) -> u8 {
    let [mainnet, code] = [case.word(2) as u8, case.word(3) as u8];
    let body = &case.bytes;
    unsafe { writer(out.as_mut_ptr(), out.len(), at, mainnet, code, body.as_ptr(), body.len(), r) }
}

pub fn write_unknown(case: &Case, out: &mut [u8], at: usize, r: &mut [u64; 1]) -> u8 {
    whole_body(haspeljo_write_unknown, case, out, at, r)
}

pub fn encode(case: &Case, out: &mut [u8], at: usize, r: &mut [u64; 1]) -> u8 {
    whole_body(haspeljo_encode, case, out, at, r)
}
