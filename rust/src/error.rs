//! Refusals and stops.

use crate::types::{pad, ParseError};
use std::error;
use std::fmt;

/// Why a reading or a writing was refused: document 01's numbers 1 to 16 (docs/FORMAT.md). Shown as a sentence.
#[derive(Clone, Copy, Debug, PartialEq, Eq, PartialOrd, Ord, Hash)]
#[non_exhaustive]
#[repr(u8)]
pub enum Error {
    /// Bytes of a field are missing.
    Missing = 1,
    /// A VLQ does not end within ten bytes.
    LongVlq = 2,
    /// A length or count is above 16,388,608.
    OverLimit = 3,
    /// A string is not UTF-8.
    NotUtf8 = 4,
    /// A frame has fewer than 9 bytes.
    ShortFrame = 5,
    /// A frame does not begin with this network's magic.
    OtherMagic = 6,
    /// A body is longer than 16,388,608 bytes.
    LongBody = 7,
    /// Bytes of a frame's check or body are missing.
    ShortBody = 8,
    /// A frame's check does not match its body.
    OtherCheck = 9,
    /// A message has more than 400 items, or Peers more than the cap.
    ManyItems = 10,
    /// Payloads are together longer than their body.
    LongPayloads = 11,
    /// A place, part or index is outside.
    Outside = 12,
    /// A string has more than 255 bytes.
    LongString = 13,
    /// The output is too short.
    NoRoom = 14,
    /// An entry has more than 255 features, or an unknown message a known code.
    Unwritable = 15,
    /// A table has a broken row, or a number that does not fit its column or address. Of a value,
    /// an address has a flow label or a scope id, or a place is above 4,294,967,295.
    BadTable = 16,
}

impl Error {
    /// All of them, in the order of their numbers.
    pub const ALL: &[Error] = &[
        Error::Missing,
        Error::LongVlq,
        Error::OverLimit,
        Error::NotUtf8,
        Error::ShortFrame,
        Error::OtherMagic,
        Error::LongBody,
        Error::ShortBody,
        Error::OtherCheck,
        Error::ManyItems,
        Error::LongPayloads,
        Error::Outside,
        Error::LongString,
        Error::NoRoom,
        Error::Unwritable,
        Error::BadTable,
    ];

    /// Its number in document 01.
    pub const fn number(self) -> u8 {
        self as u8
    }

    fn sentence(self) -> &'static str {
        match self {
            Error::Missing => "bytes of a field are missing",
            Error::LongVlq => "a VLQ does not end within ten bytes",
            Error::OverLimit => "a length or count is above 16,388,608",
            Error::NotUtf8 => "a string is not UTF-8",
            Error::ShortFrame => "a frame has fewer than 9 bytes",
            Error::OtherMagic => "a frame does not begin with this network's magic",
            Error::LongBody => "a body is longer than 16,388,608 bytes",
            Error::ShortBody => "bytes of a frame's check or body are missing",
            Error::OtherCheck => "a frame's check does not match its body",
            Error::ManyItems => "a message has more items than allowed",
            Error::LongPayloads => "payloads are together longer than their body",
            Error::Outside => "a place, part or index is outside",
            Error::LongString => "a string has more than 255 bytes",
            Error::NoRoom => "the output is too short",
            Error::Unwritable => {
                "an entry has more than 255 features, or an unknown message a known code"
            }
            Error::BadTable => {
                "a table has a broken row, or a number that does not fit its column or address"
            }
        }
    }
}

impl fmt::Display for Error {
    fn fmt(&self, f: &mut fmt::Formatter<'_>) -> fmt::Result {
        f.pad(self.sentence())
    }
}

impl error::Error for Error {}

/// Its number in document 01.
impl From<Error> for u8 {
    fn from(error: Error) -> u8 {
        error.number()
    }
}

impl TryFrom<u8> for Error {
    type Error = ParseError;

    fn try_from(number: u8) -> Result<Error, ParseError> {
        let found = Error::ALL.iter().find(|error| error.number() == number);
        found.copied().ok_or(ParseError("a refusal's number is 1 to 16"))
    }
}

/// Where in an item a session stops. The numbers are those of the C header.
#[derive(Clone, Copy, Debug, PartialEq, Eq, PartialOrd, Ord, Hash)]
#[repr(u8)]
pub enum Layer {
    /// In the handshake.
    Handshake = 1,
    /// In a frame.
    Frame = 2,
    /// In the body of a frame that was accepted.
    Body = 3,
}

impl TryFrom<u8> for Layer {
    type Error = ParseError;

    fn try_from(number: u8) -> Result<Layer, ParseError> {
        match number {
            1 => Ok(Layer::Handshake),
            2 => Ok(Layer::Frame),
            3 => Ok(Layer::Body),
            _ => Err(ParseError("a layer's number is 1, 2 or 3")),
        }
    }
}

impl fmt::Display for Layer {
    fn fmt(&self, f: &mut fmt::Formatter<'_>) -> fmt::Result {
        f.pad(match self {
            Layer::Handshake => "handshake",
            Layer::Frame => "frame",
            Layer::Body => "body",
        })
    }
}

/// Why a session cannot be read on. Shown as layer and place; the source is the refusal.
#[derive(Clone, Copy, Debug, PartialEq, Eq, Hash)]
#[non_exhaustive]
pub struct Stop {
    /// Where in the item it stops.
    pub layer: Layer,
    /// What the item is refused with.
    pub error: Error,
    /// Where the item starts.
    pub start: usize,
}

impl Stop {
    /// Whether the bytes just end within the item, as where the line broke off.
    pub fn is_cut(&self) -> bool {
        match self.layer {
            Layer::Handshake => self.error == Error::Missing,
            Layer::Frame => matches!(self.error, Error::ShortFrame | Error::ShortBody),
            Layer::Body => false,
        }
    }
}

impl fmt::Display for Stop {
    fn fmt(&self, f: &mut fmt::Formatter<'_>) -> fmt::Result {
        pad(f, format_args!("stopped in the {} at {}", self.layer, self.start))
    }
}

impl error::Error for Stop {
    fn source(&self) -> Option<&(dyn error::Error + 'static)> {
        Some(&self.error)
    }
}

#[cfg(test)]
mod tests {
    use super::*;

    const LAYERS: [Layer; 3] = [Layer::Handshake, Layer::Frame, Layer::Body];

    #[test]
    fn which_stops_are_cuts() {
        let mut cuts = vec![];
        for layer in LAYERS {
            let stops = Error::ALL.iter().map(|error| Stop { layer, error: *error, start: 7 });
            cuts.extend(stops.filter(Stop::is_cut).map(|stop| (stop.layer, stop.error.number())));
        }
        assert_eq!(cuts, [(Layer::Handshake, 1), (Layer::Frame, 5), (Layer::Frame, 8)]);
    }

    #[test]
    fn stops_are_shown_padded() {
        let stop = Stop { layer: Layer::Body, error: Error::Missing, start: 11 };
        assert_eq!(stop.to_string(), "stopped in the body at 11");
        assert_eq!(format!("{stop:>28}|"), "   stopped in the body at 11|");
        let ending = crate::Ending::from(stop);
        assert_eq!(ending, crate::Ending::Stopped(stop));
        assert_eq!(format!("{ending:<28}|"), "stopped in the body at 11   |");
    }
}
