//! The Rust's answers on what it writes: entries, handshakes and whole frames. It takes values and
//! refuses nothing, so each refusal is document 01's, its questions in document 01's order.

use super::tables::{is_part, part, Lent, PAYLOAD};
use super::{messages::MOST, network, refused, write, LIMIT};
use crate::answer::Expected;
use crate::case::{tables, Case};
use p2p::protocol::messages::{build_peers_body, ProtocolMessage};
use p2p::transport::frame::{self, Frame};
use p2p::transport::handshake::{serialize_peer_entry, PeerSpec};
use p2p::transport::vlq::write_vlq;
use p2p::types::ModifierId;

/// An output: the place from which to write, and the length.
#[derive(Clone, Copy)]
pub struct Output {
    pub at: u64,
    pub room: u64,
}

impl Output {
    pub fn of(case: &Case) -> Output {
        Output { at: case.word(0), room: case.word(1) }
    }

    pub fn is_outside(self) -> bool {
        self.at > self.room
    }
}

/// The Rust's frame of a message on the network of a case, where its body is within the limit.
fn framed(case: &Case, frame: &Frame) -> Expected {
    let out = Output::of(case);
    if out.is_outside() {
        return refused(12);
    }
    if frame.body.len() as u64 > LIMIT {
        return refused(7);
    }
    let bytes = frame::encode(&network(case.word(2) as u8).magic(), frame);
    write(out.room, out.at, |out| out.extend_from_slice(&bytes))
}

// ---- entries

pub fn write_entry(case: &Case) -> Expected {
    entry(case, None)
}

pub fn write_handshake(case: &Case) -> Expected {
    entry(case, Some(case.word(3)))
}

/// The entry in the row of a case, and before it a timestamp if it is a handshake.
fn entry(case: &Case, timestamp: Option<u64>) -> Expected {
    let out = Output::of(case);
    let lent = Lent::of(&case.bytes);
    if !lent.is_whole() {
        return refused(16);
    }
    let rows = lent.rows();
    let Some(row) = rows.get(case.place(2)).filter(|row| lent.is_inside(&[**row])) else {
        return refused(12);
    };
    if out.is_outside() {
        return refused(12);
    }
    if let Some(number) = lent.refusal(&[*row]) {
        return refused(number);
    }
    let spec = lent.spec(row);
    write(out.room, out.at, |out| {
        timestamp.iter().for_each(|timestamp| write_vlq(out, *timestamp));
        serialize_peer_entry(&spec, out);
    })
}

pub fn write_peers(case: &Case) -> Expected {
    let lent = Lent::of(&case.bytes);
    let rows = lent.rows();
    if !lent.is_whole() {
        return refused(16);
    }
    if Output::of(case).is_outside() || !lent.is_inside(&rows) {
        return refused(12);
    }
    if let Some(number) = lent.refusal(&rows) {
        return refused(number);
    }
    if rows.len() as u64 > case.word(3) {
        return refused(10);
    }
    let specs: Vec<PeerSpec> = rows.iter().map(|row| lent.spec(row)).collect();
    framed(case, &ProtocolMessage::Peers { body: build_peers_body(&specs) }.to_frame())
}

// ---- ids and payloads

pub fn write_modifier_request(case: &Case) -> Expected {
    write_ids(case, modifier_request)
}

pub fn write_inv(case: &Case) -> Expected {
    write_ids(case, inv)
}

fn write_ids(case: &Case, message: fn(&Case) -> ProtocolMessage) -> Expected {
    let ([places], buffer) = tables(&case.bytes);
    if Output::of(case).is_outside() || !places.iter().all(|at| is_part(buffer, *at, 32)) {
        return refused(12);
    }
    if places.len() as u64 > MOST {
        return refused(10);
    }
    framed(case, &message(case).to_frame())
}

pub fn write_modifier_response(case: &Case) -> Expected {
    let ([table], buffer) = tables(&case.bytes);
    let rows = || table.chunks_exact(PAYLOAD);
    if !table.len().is_multiple_of(PAYLOAD) {
        return refused(16);
    }
    let inside = |row: &[u32]| is_part(buffer, row[0], 32) && is_part(buffer, row[1], row[2]);
    if Output::of(case).is_outside() || !rows().all(inside) {
        return refused(12);
    }
    if rows().any(|row| row[2] as u64 > LIMIT) {
        return refused(3);
    }
    if rows().len() as u64 > MOST {
        return refused(10);
    }
    framed(case, &modifier_response(case).to_frame())
}

// ---- bodies as they are

pub fn write_get_peers(case: &Case) -> Expected {
    framed(case, &ProtocolMessage::GetPeers.to_frame())
}

pub fn write_sync_info(case: &Case) -> Expected {
    framed(case, &sync_info(case).to_frame())
}

/// An Unknown's code is none of the six, which the Rust doesn't ask.
pub fn write_unknown(case: &Case) -> Expected {
    let known = [1, 2, 22, 33, 55, 65].contains(&(case.word(3) as u8));
    if known && !Output::of(case).is_outside() && case.bytes.len() as u64 <= LIMIT {
        return refused(15);
    }
    framed(case, &unknown(case).to_frame())
}

pub fn encode(case: &Case) -> Expected {
    framed(case, &Frame { code: case.word(3) as u8, body: case.bytes.clone() })
}

// ---- the messages that cases give, where all parts are inside

pub fn modifier_request(case: &Case) -> ProtocolMessage {
    ProtocolMessage::ModifierRequest { modifier_type: case.word(3) as u8, ids: ids(case) }
}

pub fn inv(case: &Case) -> ProtocolMessage {
    ProtocolMessage::Inv { modifier_type: case.word(3) as u8, ids: ids(case) }
}

pub fn modifier_response(case: &Case) -> ProtocolMessage {
    let ([table], buffer) = tables(&case.bytes);
    let payload = |row: &[u32]| (id(buffer, row[0]), part(buffer, row[1], row[2]).to_vec());
    let modifiers = table.chunks_exact(PAYLOAD).map(payload).collect();
    ProtocolMessage::ModifierResponse { modifier_type: case.word(3) as u8, modifiers }
}

pub fn sync_info(case: &Case) -> ProtocolMessage {
    ProtocolMessage::SyncInfo { body: case.bytes.clone() }
}

pub fn unknown(case: &Case) -> ProtocolMessage {
    ProtocolMessage::Unknown { code: case.word(3) as u8, body: case.bytes.clone() }
}

fn ids(case: &Case) -> Vec<ModifierId> {
    let ([places], buffer) = tables(&case.bytes);
    places.iter().map(|at| id(buffer, *at)).collect()
}

fn id(buffer: &[u8], at: u32) -> ModifierId {
    part(buffer, at, 32).try_into().expect("an id")
}
