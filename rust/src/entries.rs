//! Entries and handshakes.

use crate::{again, calls, part, string, verdict, Address, Error, Network, Verdict, Version};

/// What a peer says of itself, in a handshake or in a Peers message. Two are equal if they say the same.
#[derive(Clone, Copy)]
pub struct Entry<'a> {
    bytes: &'a [u8],
    start: usize,
    agent: &'a str,
    version: Version,
    name: &'a str,
    address: Option<Address>,
    feature_count: usize,
    first_feature: usize,
    end: usize,
}

impl<'a> Entry<'a> {
    /// The entry at a place.
    ///
    /// # Errors
    ///
    /// `Outside`, `Missing`, `LongVlq`, `OverLimit`, `NotUtf8`.
    pub fn parse(bytes: &'a [u8], at: usize) -> Result<Entry<'a>, Error> {
        Ok(Entry::of(bytes, calls::parse_peer_entry(bytes, at)?))
    }

    /// The agent's length byte, right before the agent, is the entry's first byte.
    fn of(bytes: &'a [u8], r: [u64; 15]) -> Entry<'a> {
        Entry {
            bytes,
            start: r[1] as usize - 1,
            agent: string(bytes, r[1], r[2]),
            version: Version::new(r[3] as u8, r[4] as u8, r[5] as u8),
            name: string(bytes, r[6], r[7]),
            address: Address::of([r[8], r[9], r[10], r[11]]),
            feature_count: r[12] as usize,
            first_feature: r[13] as usize,
            end: r[14] as usize,
        }
    }

    /// The name of the peer's software. A peer may have put anything into it.
    pub fn agent(&self) -> &'a str {
        self.agent
    }

    /// The version of the peer's software.
    pub fn version(&self) -> Version {
        self.version
    }

    /// The name of the peer. A peer may have put anything into it.
    pub fn name(&self) -> &'a str {
        self.name
    }

    /// The address at which the peer says it is reached.
    pub fn address(&self) -> Option<Address> {
        self.address
    }

    /// The features, in the order of their bytes.
    pub fn features(&self) -> Features<'a> {
        Features { bytes: self.bytes, at: self.first_feature, left: self.feature_count }
    }

    /// What the first feature 4 gives, if that is a whole string.
    pub fn rest_api_url(&self) -> Option<&'a str> {
        let [found, start, length, _] = again(calls::rest_api_url(self.bytes, self.start));
        (found == 1).then(|| string(self.bytes, start, length))
    }

    /// What `validate_peer` says of it.
    pub fn verdict(&self, network: Network) -> Verdict {
        let [number, _] = again(calls::validate_entry(self.bytes, self.start, network));
        verdict(number)
    }

    /// Whether it has an address that is bogus on the network.
    pub fn is_bogus(&self, network: Network) -> bool {
        self.address.is_some_and(|address| address.is_bogus(network))
    }

    /// Its place in the bytes that were read: those of the session, or of the Peers message's body.
    pub fn start(&self) -> usize {
        self.start
    }

    /// The place after it in the bytes that were read.
    pub fn end(&self) -> usize {
        self.end
    }
}

/// A timestamp and an entry.
#[derive(Clone, Copy, Debug, PartialEq, Eq)]
#[non_exhaustive]
pub struct Handshake<'a> {
    /// When the peer sent it, in milliseconds since 1970.
    pub timestamp: u64,
    /// What the peer says of itself.
    pub entry: Entry<'a>,
}

impl<'a> Handshake<'a> {
    /// The handshake from the first byte on.
    ///
    /// # Errors
    ///
    /// `Missing`, `LongVlq`, `OverLimit`, `NotUtf8`.
    pub fn parse(bytes: &'a [u8]) -> Result<Handshake<'a>, Error> {
        let r = calls::parse(bytes)?;
        Ok(Handshake { timestamp: r[0], entry: Entry::of(bytes, r) })
    }

    /// How many bytes the handshake takes.
    ///
    /// # Errors
    ///
    /// `Missing`, `LongVlq`, `OverLimit`, `NotUtf8`.
    pub fn measure_size(bytes: &[u8]) -> Result<usize, Error> {
        let [size] = calls::measure_size(bytes)?;
        Ok(size as usize)
    }

    /// The verdict on the handshake from the first byte on.
    ///
    /// # Errors
    ///
    /// `Missing`, `LongVlq`, `OverLimit`, `NotUtf8`.
    pub fn validate_peer(bytes: &[u8], network: Network) -> Result<Verdict, Error> {
        let [number, _] = calls::validate_peer(bytes, network)?;
        Ok(verdict(number))
    }

    /// What `validate_peer` says of its entry.
    pub fn verdict(&self, network: Network) -> Verdict {
        self.entry.verdict(network)
    }
}

/// A feature of an entry, as it is read and as it is written.
#[derive(Clone, Copy, PartialEq, Eq, Hash)]
#[non_exhaustive]
pub struct Feature<'a> {
    /// Which feature: 3 is Session, 4 a REST API URL, 16 Mode.
    pub id: u8,
    /// Its bytes, as they are.
    pub body: &'a [u8],
}

impl<'a> Feature<'a> {
    /// The feature of an id and a body.
    pub const fn new(id: u8, body: &'a [u8]) -> Feature<'a> {
        Feature { id, body }
    }
}

/// The features of an entry, in the order of their bytes.
#[derive(Clone)]
pub struct Features<'a> {
    bytes: &'a [u8],
    at: usize,
    left: usize,
}

impl<'a> Iterator for Features<'a> {
    type Item = Feature<'a>;

    fn next(&mut self) -> Option<Feature<'a>> {
        self.left = self.left.checked_sub(1)?;
        let [id, start, length, next] = again(calls::read_feature(self.bytes, self.at));
        self.at = next as usize;
        Some(Feature { id: id as u8, body: part(self.bytes, start, length) })
    }

    fn size_hint(&self) -> (usize, Option<usize>) {
        (self.left, Some(self.left))
    }
}

impl ExactSizeIterator for Features<'_> {}

impl std::iter::FusedIterator for Features<'_> {}
