//! Rows of tables beside a buffer, which is how the library takes lists. A place is one in the buffer.

use crate::calls::Lent;
use crate::{addresses, EntryValue, Error, ModifierId, Payload};
use std::array;

/// Agent's place and length, three version numbers, name's place and length, address's length byte, place and port,
/// first feature's row and how many there are.
pub(crate) type EntryRow = [u32; 12];

/// Id, place and length.
pub(crate) type FeatureRow = [u32; 3];

/// A table's number is a u32. A larger one is refused as a broken row is.
pub(crate) fn number(n: usize) -> Result<u32, Error> {
    n.try_into().map_err(|_| Error::BadTable)
}

/// Lends the tables of entries, each of which is made once with room for all.
pub(crate) fn of_entries<T>(
    entries: &[EntryValue],
    lend: impl FnOnce(Lent) -> Result<T, Error>,
) -> Result<T, Error> {
    let features = number(entries.iter().map(|entry| entry.features.len()).sum())?;
    let bytes = number(entries.iter().map(|entry| entry.buffer.len()).sum())?;
    let mut features = Vec::with_capacity(features as usize);
    let mut buffer = Vec::with_capacity(bytes as usize);
    for entry in entries {
        addresses::writable(entry.address)?;
        let at = buffer.len() as u32;
        features
            .extend(entry.features.iter().map(|[id, place, length]| [*id, place + at, *length]));
        buffer.extend_from_slice(&entry.buffer);
    }
    let rows = rows(entries);
    lend(Lent { entries: rows.as_flattened(), features: features.as_flattened(), buffer: &buffer })
}

/// The rows of entries whose features and bytes stand one after the other.
fn rows(entries: &[EntryValue]) -> Vec<EntryRow> {
    let (mut first, mut at) = (0, 0);
    let rows = entries.iter().map(|entry| {
        let moved = [at, 0, 0, 0, 0, at, 0, 0, at, 0, first, 0];
        first += entry.features.len() as u32;
        at += entry.buffer.len() as u32;
        array::from_fn(|i| entry.row[i] + moved[i])
    });
    rows.collect()
}

/// Where so many ids stand, one after the other.
static ID_PLACES: [u32; 400] = {
    let mut places = [0; 400];
    let mut i = 0;
    while i < places.len() {
        places[i] = 32 * i as u32;
        i += 1;
    }
    places
};

/// Lends the table of ids and their bytes.
pub(crate) fn of_ids<T>(
    ids: &[ModifierId],
    lend: impl FnOnce(&[u32], &[u8]) -> Result<T, Error>,
) -> Result<T, Error> {
    let buffer = ids.as_flattened();
    match ID_PLACES.get(..ids.len()) {
        Some(table) => lend(table, buffer),
        None => {
            let table: Vec<u32> = (0..number(buffer.len())?).step_by(32).collect();
            lend(&table, buffer)
        }
    }
}

/// Lends the table of payloads, and a buffer of their ids and bytes.
pub(crate) fn of_payloads<T>(
    payloads: &[Payload],
    lend: impl FnOnce(&[u32], &[u8]) -> Result<T, Error>,
) -> Result<T, Error> {
    let sizes = payloads.iter().map(|payload| 32 + payload.bytes.len());
    let mut buffer = Vec::with_capacity(number(sizes.fold(0, usize::saturating_add))? as usize);
    let mut rows = Vec::with_capacity(payloads.len());
    for payload in payloads {
        let id = buffer.len() as u32;
        buffer.extend_from_slice(payload.id);
        buffer.extend_from_slice(payload.bytes);
        rows.push([id, id + 32, payload.bytes.len() as u32]);
    }
    lend(rows.as_flattened(), &buffer)
}

#[cfg(test)]
mod tests {
    use super::*;
    use crate::calls::{self, Listed};
    use crate::{write_entry, write_peers, Feature, Network, Version};
    use std::net::SocketAddr;

    fn entry(agent: &str) -> EntryValue {
        EntryValue::new(agent, Version::new(5, 0, 20), "node")
    }

    /// What a write of these tables answers, if it leaves the output as it was.
    fn refused(entries: &[u32], features: &[u32], buffer: &[u8]) -> Option<Error> {
        let mut out = [0x5a; 200];
        let lent = Lent { entries, features, buffer };
        let answers = [
            calls::write_entry(&mut out, 0, lent, 0),
            calls::write_handshake(&mut out, 0, 1, lent, 0),
            calls::write_peers(&mut out, 0, Network::Mainnet, 64, lent),
        ];
        assert_eq!(out, [0x5a; 200]);
        assert!(answers.iter().all(|answer| *answer == answers[0]));
        answers[0].err()
    }

    #[test]
    fn broken_rows_are_refused() {
        let value = entry("ergoref").with_features([Feature::new(16, &[0, 1, 0, 1])]);
        let Lent { entries, features, buffer } = value.lent().unwrap();
        assert_eq!(refused(&entries[..11], features, buffer), Some(Error::BadTable));
        assert_eq!(refused(entries, &features[..2], buffer), Some(Error::BadTable));
        for (column, number) in [(2, 256), (7, 7), (9, 65_536)] {
            let mut entries = entries.to_vec();
            entries[column] = number;
            assert_eq!(refused(&entries, features, buffer), Some(Error::BadTable));
        }
        assert_eq!(refused(entries, &[256, 0, 0], buffer), Some(Error::BadTable));
    }

    #[test]
    fn places_outside_are_refused() {
        let value = entry("ergoref").with_features([Feature::new(16, &[0, 1, 0, 1])]);
        let Lent { entries, features, buffer } = value.lent().unwrap();
        assert_eq!(refused(entries, features, &buffer[1..]), Some(Error::Outside));
        assert_eq!(refused(entries, &[], buffer), Some(Error::Outside));
    }

    #[test]
    fn rows_beside_ids_and_payloads() {
        let mut out = [0x5a; 200];
        let buffer = [7; 40];
        for (listed, table, error) in [
            (Listed::Inv, vec![9], Error::Outside),
            (Listed::ModifierRequest, vec![u32::MAX], Error::Outside),
            (Listed::ModifierResponse, vec![0, 32], Error::BadTable),
            (Listed::ModifierResponse, vec![0, 32, 9], Error::Outside),
        ] {
            let answer =
                calls::write_listed(&mut out, 0, Network::Mainnet, listed, 2, &table, &buffer);
            assert_eq!(answer, Err(error));
        }
        assert_eq!(out, [0x5a; 200]);
    }

    /// Values with and without each part, and with parts that replace others.
    fn values() -> Vec<EntryValue> {
        let features =
            [Feature::new(16, &[0, 1, 0, 1]), Feature::new(3, b""), Feature::new(4, b"abc")];
        let [v4, v6]: [SocketAddr; 2] =
            ["1.2.3.4:9030", "[2001:db8::1]:80"].map(|text| text.parse().unwrap());
        vec![
            entry(""),
            entry("a").with_address(v4),
            entry("ab").with_address(v6).with_features(features),
            entry("abc").with_features(features).with_address(v4),
            entry("abcd")
                .with_features(features)
                .with_features(&features[1..])
                .with_address(v4)
                .with_address(v6),
            entry("abcde").with_address(v4).with_address(None).with_features([]),
        ]
    }

    #[test]
    fn entries_in_one_table_are_those_written_alone() {
        let values = values();
        for count in 0..=values.len() {
            let entries = &values[..count];
            let (mut peers, mut alone) = ([0; 600], [0; 600]);
            let end = write_peers(&mut peers, 0, Network::Mainnet, 64, entries).unwrap();
            alone[13] = count as u8;
            let alone_end =
                entries.iter().fold(14, |at, value| write_entry(&mut alone, at, value).unwrap());
            assert_eq!(peers[13..end], alone[13..alone_end]);
        }
    }

    #[test]
    fn places_of_ids() {
        for count in [0, 1, 399, 400, 401, 1000] {
            let ids = vec![[7; 32]; count];
            let places: Vec<u32> = (0..count as u32).map(|i| 32 * i).collect();
            let same =
                of_ids(&ids, |table, buffer| Ok(table == places && buffer.len() == 32 * count));
            assert_eq!(same, Ok(true));
        }
    }
}
