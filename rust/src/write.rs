//! One call of a writer as a value.

use crate::vlq::{write_part, write_short_string, write_vlq};
use crate::writers::*;
use crate::{encode, write_get_peers, write_sync_info, write_unknown};
use crate::{EntryValue, Error, HandshakeConfig, ModifierId, Network, Payload};

/// What a writer writes: one call of it, with all that it is given but the output.
#[derive(Clone, Copy, PartialEq, Eq, Hash)]
#[non_exhaustive]
#[must_use = "nothing is written yet"]
pub enum Write<'a> {
    /// [`vlq::write_vlq`](crate::vlq::write_vlq).
    Vlq(u64),
    /// [`vlq::write_short_string`](crate::vlq::write_short_string).
    ShortString(&'a str),
    /// [`vlq::write_part`](crate::vlq::write_part).
    Part(&'a [u8]),
    /// [`write_entry`](crate::write_entry).
    Entry(&'a EntryValue),
    /// [`write_handshake`](crate::write_handshake).
    Handshake {
        /// When it is sent, in milliseconds since 1970.
        timestamp: u64,
        /// What the peer says of itself.
        entry: &'a EntryValue,
    },
    /// [`build`](crate::build).
    Built(&'a HandshakeConfig<'a>),
    /// [`encode`](crate::encode).
    Frame {
        /// The network whose magic the frame has.
        network: Network,
        /// The code.
        code: u8,
        /// The body.
        body: &'a [u8],
    },
    /// [`write_get_peers`](crate::write_get_peers).
    GetPeers {
        /// The network whose magic the frame has.
        network: Network,
    },
    /// [`write_peers`](crate::write_peers).
    Peers {
        /// The network whose magic the frame has.
        network: Network,
        /// How many entries it may have.
        cap: usize,
        /// The peers.
        entries: &'a [EntryValue],
    },
    /// [`write_modifier_request`](crate::write_modifier_request).
    ModifierRequest {
        /// The network whose magic the frame has.
        network: Network,
        /// What kind of modifier.
        modifier_type: u8,
        /// Which ones.
        ids: &'a [ModifierId],
    },
    /// [`write_modifier_response`](crate::write_modifier_response).
    ModifierResponse {
        /// The network whose magic the frame has.
        network: Network,
        /// What kind of modifier.
        modifier_type: u8,
        /// The modifiers.
        payloads: &'a [Payload<'a>],
    },
    /// [`write_inv`](crate::write_inv).
    Inv {
        /// The network whose magic the frame has.
        network: Network,
        /// What kind of modifier.
        modifier_type: u8,
        /// Which ones.
        ids: &'a [ModifierId],
    },
    /// [`write_sync_info`](crate::write_sync_info).
    SyncInfo {
        /// The network whose magic the frame has.
        network: Network,
        /// The body.
        body: &'a [u8],
    },
    /// [`write_unknown`](crate::write_unknown).
    Unknown {
        /// The network whose magic the frame has.
        network: Network,
        /// The code.
        code: u8,
        /// The body.
        body: &'a [u8],
    },
}

impl Write<'_> {
    /// Calls the writer: from a place of an output on, and answers the place after what it wrote. A
    /// refused write changes no byte.
    ///
    /// # Errors
    ///
    /// Those of the writer.
    pub fn write(&self, out: &mut [u8], at: usize) -> Result<usize, Error> {
        match *self {
            Write::Vlq(value) => write_vlq(out, at, value),
            Write::ShortString(string) => write_short_string(out, at, string),
            Write::Part(bytes) => write_part(out, at, bytes),
            Write::Entry(entry) => write_entry(out, at, entry),
            Write::Handshake { timestamp, entry } => write_handshake(out, at, timestamp, entry),
            Write::Built(config) => build(out, at, config),
            Write::Frame { network, code, body } => encode(out, at, network, code, body),
            Write::GetPeers { network } => write_get_peers(out, at, network),
            Write::Peers { network, cap, entries } => write_peers(out, at, network, cap, entries),
            Write::ModifierRequest { network, modifier_type, ids } => {
                write_modifier_request(out, at, network, modifier_type, ids)
            }
            Write::ModifierResponse { network, modifier_type, payloads } => {
                write_modifier_response(out, at, network, modifier_type, payloads)
            }
            Write::Inv { network, modifier_type, ids } => {
                write_inv(out, at, network, modifier_type, ids)
            }
            Write::SyncInfo { network, body } => write_sync_info(out, at, network, body),
            Write::Unknown { network, code, body } => write_unknown(out, at, network, code, body),
        }
    }

    /// Writes after what the `Vec` holds. A refused write leaves that as it was; the `Vec`'s capacity may have grown.
    ///
    /// # Errors
    ///
    /// Those of the writer; `NoRoom` if there is no memory for the `Vec` to grow. Peers, ModifierResponse, and more
    /// than 400 ids are first laid out in tables: without the memory for these the process ends, as with every `Vec`.
    pub fn append(&self, out: &mut Vec<u8>) -> Result<(), Error> {
        let (start, size) = (out.len(), self.size());
        // Without the memory there is no room, and the writer says so.
        if out.try_reserve(size).is_ok() {
            out.resize(start + size, 0);
        }
        let written = self.write(out, start);
        out.truncate(*written.as_ref().unwrap_or(&start));
        written.map(|_| ())
    }
}
