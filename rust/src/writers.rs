//! Writers from values. Each starts at a place of an output and answers the place after what it
//! wrote; a refusal leaves the output as it was.

use crate::calls::{self, Listed};
use crate::{addresses, tables};
use crate::{EntryValue, Error, HandshakeConfig, ModifierId, Network, Payload};

/// Writes a handshake with the features Mode and Session.
///
/// # Errors
///
/// `BadTable`, `Outside`, `LongString`, `NoRoom`.
pub fn build(out: &mut [u8], at: usize, config: &HandshakeConfig) -> Result<usize, Error> {
    addresses::writable(config.declared_address)?;
    calls::build(out, at, config, addresses::numbers(config.declared_address))
}

/// Writes an entry.
///
/// # Errors
///
/// `BadTable`, `Outside`, `LongString`, `Unwritable`, `OverLimit`, `NoRoom`.
pub fn write_entry(out: &mut [u8], at: usize, entry: &EntryValue) -> Result<usize, Error> {
    calls::write_entry(out, at, entry.lent()?, 0)
}

/// Writes a handshake: a timestamp and an entry.
///
/// # Errors
///
/// `BadTable`, `Outside`, `LongString`, `Unwritable`, `OverLimit`, `NoRoom`.
#[inline]
pub fn write_handshake(
    out: &mut [u8],
    at: usize,
    timestamp: u64,
    entry: &EntryValue,
) -> Result<usize, Error> {
    calls::write_handshake(out, at, timestamp, entry.lent()?, 0)
}

/// Writes a Peers message of at most `cap` entries.
///
/// # Errors
///
/// `BadTable`, `Outside`, `LongString`, `Unwritable`, `OverLimit`, `ManyItems`, `LongBody`, `NoRoom`.
pub fn write_peers(
    out: &mut [u8],
    at: usize,
    network: Network,
    cap: usize,
    entries: &[EntryValue],
) -> Result<usize, Error> {
    tables::of_entries(entries, |lent| calls::write_peers(out, at, network, cap, lent))
}

/// Writes a ModifierRequest message of at most 400 ids.
///
/// # Errors
///
/// `BadTable`, `Outside`, `ManyItems`, `NoRoom`.
pub fn write_modifier_request(
    out: &mut [u8],
    at: usize,
    network: Network,
    modifier_type: u8,
    ids: &[ModifierId],
) -> Result<usize, Error> {
    let listed = Listed::ModifierRequest;
    tables::of_ids(ids, |table, buffer| {
        calls::write_listed(out, at, network, listed, modifier_type, table, buffer)
    })
}

/// Writes an Inv message of at most 400 ids.
///
/// # Errors
///
/// `BadTable`, `Outside`, `ManyItems`, `NoRoom`.
pub fn write_inv(
    out: &mut [u8],
    at: usize,
    network: Network,
    modifier_type: u8,
    ids: &[ModifierId],
) -> Result<usize, Error> {
    tables::of_ids(ids, |table, buffer| {
        calls::write_listed(out, at, network, Listed::Inv, modifier_type, table, buffer)
    })
}

/// Writes a ModifierResponse message of at most 400 payloads.
///
/// # Errors
///
/// `BadTable`, `Outside`, `OverLimit`, `ManyItems`, `LongBody`, `NoRoom`.
pub fn write_modifier_response(
    out: &mut [u8],
    at: usize,
    network: Network,
    modifier_type: u8,
    payloads: &[Payload],
) -> Result<usize, Error> {
    let listed = Listed::ModifierResponse;
    tables::of_payloads(payloads, |table, buffer| {
        calls::write_listed(out, at, network, listed, modifier_type, table, buffer)
    })
}

#[cfg(test)]
mod tests {
    use super::*;
    use crate::Version;

    const CONFIG: HandshakeConfig =
        HandshakeConfig::new("ergoref", "me", Version::new(6, 0, 1), Network::Mainnet, 1, 1);

    /// What `build` answers of these numbers of an address, in every output: 16 is asked first.
    fn built(address: (u8, u64, u64, u16)) -> Option<Error> {
        let mut out = [0x5a; 200];
        let error = calls::build(&mut out, 0, &CONFIG, address).err()?;
        for (at, room) in [(201, 200), (0, 0)] {
            let answer = calls::build(&mut out[..room], at, &CONFIG, address);
            assert_eq!(answer, Err(error));
        }
        assert_eq!(out, [0x5a; 200]);
        Some(error)
    }

    #[test]
    fn an_unknown_kind_of_address() {
        for kind in (0..=255).filter(|kind| ![0, 4, 6].contains(kind)) {
            assert_eq!(built((kind, 0, 0, 9030)), Some(Error::BadTable));
        }
    }

    #[test]
    fn an_ipv4_number_above_32_bits() {
        for high in [1 << 32, (1 << 32) + 1, u64::MAX] {
            assert_eq!(built((4, high, 0, 9030)), Some(Error::BadTable));
        }
        assert_eq!(built((4, (1 << 32) - 1, 0, 9030)), None);
    }

    #[test]
    fn an_ipv4_number_with_a_low_half() {
        for low in [1, u64::MAX] {
            assert_eq!(built((4, 0x0808_0808, low, 9030)), Some(Error::BadTable));
        }
    }

    #[test]
    fn numbers_beside_no_address() {
        let written = [(0, 0, 0, 0), (0, u64::MAX, u64::MAX, 9030)].map(|address| {
            let mut out = [0x5a; 200];
            (calls::build(&mut out, 0, &CONFIG, address).unwrap(), out)
        });
        assert_eq!(written[0], written[1]);
    }
}
