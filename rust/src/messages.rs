//! Frames and messages.

use crate::{again, calls, part, Entry, Error, Network};

/// A frame.
#[derive(Clone, Copy, PartialEq, Eq, Hash)]
#[non_exhaustive]
pub struct Frame<'a> {
    /// Which message it holds, as in [`MessageCode`].
    pub code: u8,
    /// The message's bytes.
    pub body: &'a [u8],
    /// The place after it.
    pub end: usize,
}

/// The frame at a place.
///
/// # Errors
///
/// `Outside`, `ShortFrame`, `OtherMagic`, `LongBody`, `ShortBody`, `OtherCheck`.
pub fn decode(bytes: &[u8], network: Network, at: usize) -> Result<Frame<'_>, Error> {
    let [code, start, length, end] = calls::decode(bytes, network, at)?;
    Ok(Frame { code: code as u8, body: part(bytes, start, length), end: end as usize })
}

/// The codes of known messages.
#[derive(Clone, Copy, Debug)]
pub struct MessageCode;

impl MessageCode {
    /// Asks for peers.
    pub const GET_PEERS: u8 = 1;
    /// Names peers.
    pub const PEERS: u8 = 2;
    /// Asks for modifiers.
    pub const MODIFIER_REQUEST: u8 = 22;
    /// Gives modifiers.
    pub const MODIFIER_RESPONSE: u8 = 33;
    /// Names modifiers.
    pub const INV: u8 = 55;
    /// Says which headers a peer has.
    pub const SYNC_INFO: u8 = 65;
}

/// The id of a modifier: a block, a transaction, a header.
pub type ModifierId = [u8; 32];

/// A modifier's id and bytes, as they are read and as they are written.
#[derive(Clone, Copy, PartialEq, Eq, Hash)]
#[non_exhaustive]
pub struct Payload<'a> {
    /// The modifier's id.
    pub id: &'a ModifierId,
    /// The modifier's bytes, as they are.
    pub bytes: &'a [u8],
}

impl<'a> Payload<'a> {
    /// The payload of an id and bytes.
    pub const fn new(id: &'a ModifierId, bytes: &'a [u8]) -> Payload<'a> {
        Payload { id, bytes }
    }
}

/// What a message's body holds. That of SyncInfo and of a message of another code is taken whole.
#[derive(Clone, PartialEq, Eq)]
#[non_exhaustive]
pub enum Message<'a> {
    /// Asks for peers; what its body holds is ignored.
    GetPeers,
    /// Names peers.
    #[non_exhaustive]
    Peers {
        /// How many of the entries have a bogus address.
        bogus: usize,
        /// The peers.
        entries: Entries<'a>,
    },
    /// Asks for modifiers.
    #[non_exhaustive]
    ModifierRequest {
        /// What kind of modifier.
        modifier_type: u8,
        /// Which ones.
        ids: &'a [ModifierId],
    },
    /// Gives modifiers.
    #[non_exhaustive]
    ModifierResponse {
        /// What kind of modifier.
        modifier_type: u8,
        /// The modifiers.
        payloads: Payloads<'a>,
    },
    /// Names modifiers.
    #[non_exhaustive]
    Inv {
        /// What kind of modifier.
        modifier_type: u8,
        /// Which ones.
        ids: &'a [ModifierId],
    },
    /// Says which headers a peer has.
    SyncInfo(&'a [u8]),
    /// A message of another code.
    Unknown(&'a [u8]),
}

impl<'a> Message<'a> {
    /// The message of a frame's code and body, a Peers message having at most `cap` entries.
    ///
    /// # Errors
    ///
    /// `Missing`, `LongVlq`, `OverLimit`, `NotUtf8`, `ManyItems`, `LongPayloads`.
    pub fn from_frame(
        code: u8,
        body: &'a [u8],
        cap: usize,
        network: Network,
    ) -> Result<Message<'a>, Error> {
        let [kind, count, bogus, first, _] = calls::from_frame(code, body, cap, network)?;
        Ok(Message::of(code, body, [kind, count, bogus, first]))
    }

    pub(crate) fn of(code: u8, body: &'a [u8], numbers: [u64; 4]) -> Message<'a> {
        let [modifier_type, count, bogus, at] = numbers.map(|n| n as usize);
        let modifier_type = modifier_type as u8;
        match code {
            MessageCode::GET_PEERS => Message::GetPeers,
            MessageCode::PEERS => {
                Message::Peers { bogus, entries: Entries { body, at, left: count } }
            }
            MessageCode::MODIFIER_REQUEST => {
                Message::ModifierRequest { modifier_type, ids: ids(body, at, count) }
            }
            MessageCode::MODIFIER_RESPONSE => Message::ModifierResponse {
                modifier_type,
                payloads: Payloads { body, at, total: 0, left: count },
            },
            MessageCode::INV => Message::Inv { modifier_type, ids: ids(body, at, count) },
            MessageCode::SYNC_INFO => Message::SyncInfo(body),
            _ => Message::Unknown(body),
        }
    }
}

/// So many ids from a place on.
fn ids(body: &[u8], at: usize, count: usize) -> &[ModifierId] {
    &body[at..].as_chunks().0[..count]
}

/// The entries of a Peers message.
#[derive(Clone)]
pub struct Entries<'a> {
    body: &'a [u8],
    at: usize,
    left: usize,
}

impl<'a> Iterator for Entries<'a> {
    type Item = Entry<'a>;

    fn next(&mut self) -> Option<Entry<'a>> {
        self.left = self.left.checked_sub(1)?;
        let entry = again(Entry::parse(self.body, self.at));
        self.at = entry.end();
        Some(entry)
    }

    fn size_hint(&self) -> (usize, Option<usize>) {
        (self.left, Some(self.left))
    }
}

impl ExactSizeIterator for Entries<'_> {}

impl std::iter::FusedIterator for Entries<'_> {}

/// The payloads of a ModifierResponse.
#[derive(Clone)]
pub struct Payloads<'a> {
    body: &'a [u8],
    at: usize,
    total: usize,
    left: usize,
}

impl<'a> Iterator for Payloads<'a> {
    type Item = Payload<'a>;

    fn next(&mut self) -> Option<Payload<'a>> {
        self.left = self.left.checked_sub(1)?;
        let [id, start, length, next, total] =
            again(calls::read_payload(self.body, self.at, self.total));
        (self.at, self.total) = (next as usize, total as usize);
        let id = &ids(self.body, id as usize, 1)[0];
        Some(Payload { id, bytes: part(self.body, start, length) })
    }

    fn size_hint(&self) -> (usize, Option<usize>) {
        (self.left, Some(self.left))
    }
}

impl ExactSizeIterator for Payloads<'_> {}

impl std::iter::FusedIterator for Payloads<'_> {}
