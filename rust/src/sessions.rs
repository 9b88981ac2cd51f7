//! The session walk.

use crate::{again, calls, layer, part, refusal, verdict};
use crate::{Error, Handshake, Message, Network, Stop, Verdict};
use std::fmt;
use std::iter::FusedIterator;
use std::ops::Range;

/// A handshake or a message of a session.
#[derive(Clone, PartialEq, Eq)]
#[non_exhaustive]
pub enum Item<'a> {
    /// The first item.
    #[non_exhaustive]
    Handshake {
        /// Its place in the session's bytes.
        start: usize,
        /// The place after it.
        end: usize,
        /// What it holds.
        handshake: Handshake<'a>,
        /// What `validate_peer` says of it.
        verdict: Verdict,
    },
    /// Any other item.
    #[non_exhaustive]
    Message {
        /// Its place in the session's bytes.
        start: usize,
        /// The place after it.
        end: usize,
        /// Which message it is, as in [`MessageCode`](crate::MessageCode).
        code: u8,
        /// Its frame's body.
        body: &'a [u8],
        /// What the body holds.
        message: Message<'a>,
    },
}

impl Item<'_> {
    /// Its place in the session's bytes.
    pub fn start(&self) -> usize {
        match *self {
            Item::Handshake { start, .. } | Item::Message { start, .. } => start,
        }
    }

    /// The place after it.
    pub fn end(&self) -> usize {
        match *self {
            Item::Handshake { end, .. } | Item::Message { end, .. } => end,
        }
    }

    /// Where the body of a message stands in the session's bytes: it ends where the message does.
    pub fn body_in_stream(&self) -> Option<Range<usize>> {
        match *self {
            Item::Handshake { .. } => None,
            Item::Message { end, body, .. } => Some(end - body.len()..end),
        }
    }
}

/// How a session ends.
#[derive(Clone, Copy, Debug, PartialEq, Eq, Hash)]
#[must_use]
pub enum Ending {
    /// With an item's end.
    Clean,
    /// Before all bytes are read.
    Stopped(Stop),
}

impl From<Stop> for Ending {
    fn from(stop: Stop) -> Ending {
        Ending::Stopped(stop)
    }
}

impl fmt::Display for Ending {
    fn fmt(&self, f: &mut fmt::Formatter<'_>) -> fmt::Result {
        match self {
            Ending::Clean => f.pad("clean"),
            Ending::Stopped(stop) => stop.fmt(f),
        }
    }
}

/// The reading of a session: an iterator over its items. Where the session stops, the stop comes
/// last, once, as an error.
#[derive(Clone)]
#[must_use = "a session is read as its items are taken"]
pub struct Session<'a> {
    bytes: &'a [u8],
    network: Network,
    cap: usize,
    place: usize,
    ending: Option<Ending>,
}

/// Where it stands, and none of the bytes.
impl fmt::Debug for Session<'_> {
    fn fmt(&self, f: &mut fmt::Formatter<'_>) -> fmt::Result {
        f.debug_struct("Session")
            .field("length", &self.bytes.len())
            .field("network", &self.network)
            .field("cap", &self.cap)
            .field("place", &self.place)
            .field("ending", &self.ending)
            .finish()
    }
}

impl<'a> Session<'a> {
    /// The session from its first byte on. A Peers message of it has at most `cap` entries.
    pub fn new(bytes: &'a [u8], network: Network, cap: usize) -> Session<'a> {
        Session { bytes, network, cap, place: 0, ending: None }
    }

    /// Goes on at a place that [`place`](Session::place) gave, over the same bytes and those that came
    /// after them, with the same network and cap. Nothing before the place is read again: the items
    /// up to there and what this gives are together the reading of all bytes (`CutAnywhere` and
    /// `LineGrows` of crates/walk/specs/Theorems.antt).
    ///
    /// # Errors
    ///
    /// `Outside` for a place past the end.
    pub fn resume(
        bytes: &'a [u8],
        network: Network,
        cap: usize,
        place: usize,
    ) -> Result<Session<'a>, Error> {
        if place > bytes.len() {
            return Err(Error::Outside);
        }
        Ok(Session { place, ..Session::new(bytes, network, cap) })
    }

    /// Where the next step begins: at first 0, then the end of the last item taken, after a stop the
    /// start of the item that is refused.
    pub fn place(&self) -> usize {
        self.place
    }

    /// How the session ends, after the items that were not yet taken.
    pub fn ending(&mut self) -> Ending {
        loop {
            match self.ending {
                None => _ = self.next(),
                Some(ending) => return ending,
            }
        }
    }

    fn handshake(&self, [start, end, number]: [u64; 3]) -> Item<'a> {
        Item::Handshake {
            start: start as usize,
            end: end as usize,
            handshake: again(Handshake::parse(self.bytes)),
            verdict: verdict(number),
        }
    }

    fn message(&self, [start, end, code, place, length]: [u64; 5], held: [u64; 4]) -> Item<'a> {
        let (code, body) = (code as u8, part(self.bytes, place, length));
        let message = Message::of(code, body, held);
        Item::Message { start: start as usize, end: end as usize, code, body, message }
    }
}

impl<'a> Iterator for Session<'a> {
    type Item = Result<Item<'a>, Stop>;

    fn next(&mut self) -> Option<Result<Item<'a>, Stop>> {
        if self.ending.is_some() {
            return None;
        }
        let item = match again(calls::step(self.bytes, self.network, self.cap, self.place)) {
            [1, start, end, verdict, ..] => self.handshake([start, end, verdict]),
            [2, start, end, code, place, length, held @ .., _] => {
                self.message([start, end, code, place, length], held)
            }
            [3, start, place, number, ..] => {
                let (layer, error) = (layer(place), refusal(number));
                let stop = Stop { layer, error, start: start as usize };
                self.ending = Some(stop.into());
                return Some(Err(stop));
            }
            _ => {
                self.ending = Some(Ending::Clean);
                return None;
            }
        };
        self.place = item.end();
        Some(Ok(item))
    }
}

impl FusedIterator for Session<'_> {}
