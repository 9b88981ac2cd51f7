//! What a message of a session holds, by index, as places in the session's bytes.

use crate::{calls, Error};
use std::ops::Range;

/// Where the parts of a Peers message's entry stand. The entry ends where its features do.
#[derive(Clone, Debug, PartialEq, Eq, Hash)]
#[non_exhaustive]
pub struct EntryPlaces {
    /// The agent's bytes.
    pub agent: Range<usize>,
    /// The name's bytes.
    pub name: Range<usize>,
    /// All features, each with its id and length.
    pub features: Range<usize>,
}

/// Where a modifier's id and bytes stand.
#[derive(Clone, Debug, PartialEq, Eq, Hash)]
#[non_exhaustive]
pub struct PayloadPlaces {
    /// The modifier's id.
    pub id: Range<usize>,
    /// The modifier's bytes.
    pub bytes: Range<usize>,
}

/// An entry of the Peers message whose body stands there in the session's bytes, with at most `cap` entries.
///
/// # Errors
///
/// `Outside` for a body or an index outside; of the body `Missing`, `LongVlq`, `OverLimit`, `NotUtf8`, `ManyItems`.
pub fn entry_in_stream(
    bytes: &[u8],
    body: Range<usize>,
    cap: usize,
    index: usize,
) -> Result<EntryPlaces, Error> {
    let r = calls::entry_in_stream(bytes, body, cap, index)?;
    Ok(EntryPlaces {
        agent: range(r[1], r[2]),
        name: range(r[6], r[7]),
        features: r[13] as usize..r[14] as usize,
    })
}

/// An id of the ModifierRequest or Inv message whose body stands there.
///
/// # Errors
///
/// `Outside` for a body or an index outside; of the body `Missing`, `LongVlq`, `OverLimit`, `ManyItems`.
pub fn id_in_stream(bytes: &[u8], body: Range<usize>, index: usize) -> Result<Range<usize>, Error> {
    let [id] = calls::id_in_stream(bytes, body, index)?;
    Ok(range(id, 32))
}

/// A payload of the ModifierResponse message whose body stands there.
///
/// # Errors
///
/// `Outside` for a body or an index outside; of the body `Missing`, `LongVlq`, `OverLimit`,
/// `ManyItems`, `LongPayloads`.
pub fn payload_in_stream(
    bytes: &[u8],
    body: Range<usize>,
    index: usize,
) -> Result<PayloadPlaces, Error> {
    let [id, start, length, _] = calls::payload_in_stream(bytes, body, index)?;
    Ok(PayloadPlaces { id: range(id, 32), bytes: range(start, length) })
}

fn range(start: u64, length: u64) -> Range<usize> {
    let start = start as usize;
    start..start + length as usize
}
