//! Reads and writes Ergo peer sessions with the proved codec Haspeljo.
//!
//! A session is a handshake and then messages. Reading borrows the bytes and copies none of them. Where
//! a session stops, the iterator's last item is the stop:
//!
//! ```
//! use haspeljo::{Item, Network, Session};
//!
//! let bytes = [
//!     0xac, 2, 2, b'a', b'b', 6, 0, 1, 0, 0, 0, // a handshake
//!     1, 0, 2, 4, 1, 0, 0, 0, 0, // GetPeers
//! ];
//! for item in Session::new(&bytes, Network::Mainnet, 64) {
//!     match item? {
//!         Item::Handshake { handshake, .. } => assert_eq!(handshake.entry.agent(), "ab"),
//!         Item::Message { code, .. } => assert_eq!(code, 1),
//!         _ => {}
//!     }
//! }
//! # Ok::<(), haspeljo::Stop>(())
//! ```
//!
//! A writer starts at a place of an output and answers the place after what it wrote. A refused
//! write changes no byte. [`Write`] is a call of a writer as a value, which says how many bytes it takes
//! and is appended to a `Vec`:
//!
//! ```
//! use haspeljo::{EntryValue, Network, Version, Write};
//!
//! let entry = EntryValue::new("ab", Version::new(6, 0, 1), "");
//! let mut out = vec![];
//! Write::Handshake { timestamp: 300, entry: &entry }.append(&mut out)?;
//! Write::GetPeers { network: Network::Mainnet }.append(&mut out)?;
//! assert_eq!(out.len(), 20);
//! # Ok::<(), haspeljo::Error>(())
//! ```

#![deny(missing_docs)]
#![deny(unsafe_op_in_unsafe_fn)]
#![deny(unsafe_code)]

mod addresses;
#[allow(unsafe_code)]
mod calls;
mod debug;
mod entries;
mod equal;
mod error;
mod messages;
mod places;
mod sessions;
mod sizes;
mod tables;
mod types;
mod values;
pub mod vlq;
mod write;
mod writers;

pub use addresses::{is_bogus, Address};
pub use calls::{blake2b256, encode, frame_check, is_utf8};
pub use calls::{write_get_peers, write_sync_info, write_unknown};
pub use entries::{Entry, Feature, Features, Handshake};
pub use error::{Error, Layer, Stop};
pub use messages::{decode, Entries, Frame, Message, MessageCode, ModifierId, Payload, Payloads};
pub use places::{entry_in_stream, id_in_stream, payload_in_stream};
pub use places::{EntryPlaces, PayloadPlaces};
pub use sessions::{Ending, Item, Session};
pub use types::{Network, ParseError, ProxyMode, Verdict, Version};
pub use values::{EntryValue, HandshakeConfig};
pub use write::Write;
pub use writers::{build, write_entry, write_handshake, write_inv, write_peers};
pub use writers::{write_modifier_request, write_modifier_response};

#[cfg(doctest)]
#[doc = include_str!("../README.md")]
struct Readme;

#[cfg(doctest)]
#[doc = include_str!("../tests/compile_fail.md")]
struct CompileFail;

/// What an accepted reading names lies in its bytes.
fn part(bytes: &[u8], start: u64, length: u64) -> &[u8] {
    &bytes[start as usize..][..length as usize]
}

/// A string of an accepted reading is UTF-8.
fn string(bytes: &[u8], start: u64, length: u64) -> &str {
    std::str::from_utf8(part(bytes, start, length)).expect("UTF-8 that was tested")
}

/// Bytes of an accepted reading are read again without refusal.
fn again<T>(result: Result<T, Error>) -> T {
    result.expect("bytes that were accepted before")
}

/// The refusal of a number that the library gave.
fn refusal(number: u64) -> Error {
    Error::try_from(number as u8).expect("a refusal number of 1 to 16")
}

/// The verdict of a number that the library gave.
fn verdict(number: u64) -> Verdict {
    Verdict::try_from(number as u8).expect("a verdict of 0 to 2")
}

/// The layer of a number that the library gave.
fn layer(number: u64) -> Layer {
    Layer::try_from(number as u8).expect("a layer of 1 to 3")
}
