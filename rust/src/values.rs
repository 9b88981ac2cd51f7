//! What writers are given.

use crate::calls::Lent;
use crate::tables::{number, EntryRow, FeatureRow};
use crate::{addresses, Address, Entry, Error, Feature, Network, ProxyMode, Version};
use std::net::SocketAddr;
use std::ops::Range;

/// An entry to be written.
///
/// It is held as the library takes it: a row of numbers, a row of each feature, and the bytes that they name. So it is
/// laid out once, and written as often as one likes. Two are equal if they hold the same, in whatever order they were
/// given it.
///
/// Its address has no flow label and no scope id: an entry has no bytes for them, and a write of one is refused with
/// [`Error::BadTable`](crate::Error::BadTable).
#[derive(Clone, PartialEq, Eq, Hash)]
pub struct EntryValue {
    pub(crate) row: EntryRow,
    pub(crate) features: Vec<FeatureRow>,
    /// Agent, name, room for the address, then the features.
    pub(crate) buffer: Vec<u8>,
    pub(crate) address: Option<SocketAddr>,
    /// The numbers of a row are u32, and cut where the bytes are too many to be written. These never are.
    agent: Range<usize>,
    name: Range<usize>,
    bodies: Vec<Range<usize>>,
}

/// Most entries have fewer bytes.
const ROOM: usize = 128;

/// The longest address. Of a shorter one the rest is 0.
const ADDRESS_ROOM: usize = 16;

impl EntryValue {
    /// An entry without address and features: the name of the peer's software and its version, and the name of the
    /// peer. Each name has at most 255 bytes.
    pub fn new(agent: &str, version: Version, name: &str) -> EntryValue {
        let mut buffer = Vec::with_capacity(ROOM);
        let agent = put(&mut buffer, agent.as_bytes());
        let name = put(&mut buffer, name.as_bytes());
        put(&mut buffer, &[0; ADDRESS_ROOM]);
        let ([a, a_length], [n, n_length]) = (numbers(&agent), numbers(&name));
        let [major, minor, patch] = [version.major, version.minor, version.patch].map(u32::from);
        let row = [a, a_length, major, minor, patch, n, n_length, 0, 0, 0, 0, 0];
        EntryValue { row, features: vec![], buffer, address: None, agent, name, bodies: vec![] }
    }

    /// The entry with the address at which the peer is reached, or with none.
    #[must_use]
    pub fn with_address(mut self, address: impl Into<Option<SocketAddr>>) -> EntryValue {
        self.address = address.into();
        let place = self.name.end as u32;
        let room = &mut self.buffer[self.name.end..][..ADDRESS_ROOM];
        room.fill(0);
        let numbers = match self.address {
            None => [0; 3],
            Some(SocketAddr::V4(v4)) => {
                room[..4].copy_from_slice(&v4.ip().octets());
                [8, place, v4.port().into()]
            }
            Some(SocketAddr::V6(v6)) => {
                room.copy_from_slice(&v6.ip().octets());
                [20, place, v6.port().into()]
            }
        };
        self.row[7..10].copy_from_slice(&numbers);
        self
    }

    /// The entry with these features, at most 255, in their order, and no others.
    #[must_use]
    pub fn with_features<'a>(mut self, features: impl AsRef<[Feature<'a>]>) -> EntryValue {
        let features = features.as_ref();
        self.buffer.truncate(self.name.end + ADDRESS_ROOM);
        self.buffer.reserve(features.iter().map(|feature| feature.body.len()).sum());
        self.features = Vec::with_capacity(features.len());
        self.bodies = Vec::with_capacity(features.len());
        for feature in features {
            let body = put(&mut self.buffer, feature.body);
            let [place, length] = numbers(&body);
            self.features.push([feature.id.into(), place, length]);
            self.bodies.push(body);
        }
        self.row[11] = features.len() as u32;
        self
    }

    /// The name of the peer's software.
    pub fn agent(&self) -> &str {
        text(&self.buffer[self.agent.clone()])
    }

    /// The version of the peer's software.
    pub fn version(&self) -> Version {
        Version::new(self.row[2] as u8, self.row[3] as u8, self.row[4] as u8)
    }

    /// The name of the peer.
    pub fn name(&self) -> &str {
        text(&self.buffer[self.name.clone()])
    }

    /// The address at which the peer is reached.
    pub fn address(&self) -> Option<SocketAddr> {
        self.address
    }

    /// The features, in their order.
    pub fn features(&self) -> impl ExactSizeIterator<Item = Feature<'_>> + Clone {
        let rows = self.features.iter().zip(&self.bodies);
        rows.map(|(row, body)| Feature::new(row[0] as u8, &self.buffer[body.clone()]))
    }

    /// How long agent and name are.
    pub(crate) fn name_lengths(&self) -> [usize; 2] {
        [self.agent.len(), self.name.len()]
    }

    /// Its tables. No number of them is larger than the number of all bytes or of all features, which must be u32.
    #[inline]
    pub(crate) fn lent(&self) -> Result<Lent<'_>, Error> {
        addresses::writable(self.address)?;
        number(self.buffer.len())?;
        number(self.features.len())?;
        let features = self.features.as_flattened();
        Ok(Lent { entries: &self.row, features, buffer: &self.buffer })
    }
}

/// Puts bytes behind those that are there, and says where they stand.
fn put(buffer: &mut Vec<u8>, bytes: &[u8]) -> Range<usize> {
    let start = buffer.len();
    buffer.extend_from_slice(bytes);
    start..buffer.len()
}

/// The place and length of bytes as a row has them.
fn numbers(bytes: &Range<usize>) -> [u32; 2] {
    [bytes.start as u32, bytes.len() as u32]
}

/// A string that was given as one.
fn text(bytes: &[u8]) -> &str {
    std::str::from_utf8(bytes).expect("UTF-8 that was given as a string")
}

/// The value of an entry that was read.
impl From<&Entry<'_>> for EntryValue {
    fn from(entry: &Entry) -> EntryValue {
        EntryValue::new(entry.agent(), entry.version(), entry.name())
            .with_address(entry.address().and_then(Address::socket_addr))
            .with_features(entry.features().collect::<Vec<_>>())
    }
}

/// The value of an entry that was read.
impl From<Entry<'_>> for EntryValue {
    fn from(entry: Entry) -> EntryValue {
        EntryValue::from(&entry)
    }
}

/// What `build` makes a handshake from. The address is as in [`EntryValue`].
#[derive(Clone, Copy, PartialEq, Eq, Hash)]
#[non_exhaustive]
pub struct HandshakeConfig<'a> {
    /// The name of the peer's software, of at most 255 bytes.
    pub agent_name: &'a str,
    /// The name of the peer, of at most 255 bytes.
    pub peer_name: &'a str,
    /// The version of the peer's software.
    pub version: Version,
    /// The network whose magic the Session feature has.
    pub network: Network,
    /// What the Mode feature says of bootstrapping; `Full` at first.
    pub mode: ProxyMode,
    /// The address at which the peer is reached; none at first.
    pub declared_address: Option<SocketAddr>,
    /// The state type: 0 UTXO, 1 Digest; 0 at first.
    pub state_type_id: u8,
    /// Whether the peer verifies transactions; so at first.
    pub verifying: bool,
    /// How many blocks the peer keeps, -1 for all; -1 at first.
    pub blocks_to_keep: i32,
    /// When the handshake is sent, in milliseconds since 1970.
    pub timestamp: u64,
    /// The id in the Session feature.
    pub session_id: i64,
}

impl<'a> HandshakeConfig<'a> {
    /// The handshake of a full node that verifies and keeps all blocks, without an address.
    pub const fn new(
        agent_name: &'a str,
        peer_name: &'a str,
        version: Version,
        network: Network,
        timestamp: u64,
        session_id: i64,
    ) -> HandshakeConfig<'a> {
        HandshakeConfig {
            agent_name,
            peer_name,
            version,
            network,
            mode: ProxyMode::Full,
            declared_address: None,
            state_type_id: 0,
            verifying: true,
            blocks_to_keep: -1,
            timestamp,
            session_id,
        }
    }
}

#[cfg(test)]
mod tests {
    use super::*;

    const FEATURES: [Feature; 2] = [Feature::new(16, &[0, 1, 0, 1]), Feature::new(3, b"abc")];

    fn entry() -> EntryValue {
        EntryValue::new("ab", Version::new(6, 0, 1), "cde")
    }

    fn address(text: &str) -> SocketAddr {
        text.parse().unwrap()
    }

    #[test]
    fn what_is_replaced_leaves_nothing_behind() {
        let [v4, v6] = ["1.2.3.4:9030", "[2001:db8::1]:80"].map(address);
        let value = entry().with_address(v6).with_features([Feature::new(9, &[7; 300])]);
        let replaced = value.clone().with_features(FEATURES).with_address(v4);
        assert_eq!(replaced, entry().with_address(v4).with_features(FEATURES));
        assert_eq!(
            replaced.buffer,
            b"abcde\x01\x02\x03\x04\0\0\0\0\0\0\0\0\0\0\0\0\0\x01\0\x01abc"
        );
        assert_eq!(value.with_address(None).with_features([]), entry());
    }

    #[test]
    fn the_order_of_calls_does_not_matter() {
        let v4 = address("1.2.3.4:9030");
        let one = entry().with_address(v4).with_features(FEATURES);
        let other = entry().with_features(FEATURES).with_address(v4);
        assert_eq!(one, other);
        assert_eq!((one.row, one.features, one.buffer), (other.row, other.features, other.buffer));
    }

    /// What was given, wherever the numbers of the rows are cut.
    #[test]
    fn numbers_of_rows_that_are_cut() {
        let whole = entry().with_features(FEATURES);
        let mut cut = whole.clone();
        for column in [0, 1, 5, 6, 11] {
            cut.row[column] = 0;
        }
        cut.features.iter_mut().for_each(|row| row[1..].fill(0));
        assert_eq!((cut.agent(), cut.name()), ("ab", "cde"));
        assert_eq!(cut.name_lengths(), [2, 3]);
        assert!(cut.features().eq(FEATURES));
    }

    /// Where 2^32 bytes are moved from one string or body to the next, no number of a row tells.
    #[test]
    fn lengths_that_rows_do_not_tell() {
        let value = entry().with_features(FEATURES);
        let (mut names, mut bodies) = (value.clone(), value.clone());
        (names.agent.end, names.name.start) = (3, 3);
        (bodies.bodies[0].end, bodies.bodies[1].start) = (26, 26);
        for other in [names, bodies] {
            assert_eq!((other.row, &other.features), (value.row, &value.features));
            assert_eq!(other.buffer, value.buffer);
            assert_ne!(other, value);
        }
    }

    #[test]
    fn numbers_of_long_parts() {
        let long = 1 << 32;
        assert_eq!(numbers(&(5..long + 4)), [5, u32::MAX]);
        assert_eq!(numbers(&(5..long + 5)), [5, 0]);
        assert_eq!(number(long - 1), Ok(u32::MAX));
        assert_eq!(number(long), Err(Error::BadTable));
    }
}
