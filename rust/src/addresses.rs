//! Addresses of peers.

use crate::{calls, Error, Network};
use std::fmt;
use std::net::{
    AddrParseError, IpAddr, Ipv4Addr, Ipv6Addr, SocketAddr, SocketAddrV4, SocketAddrV6,
};
use std::str::FromStr;

/// The address that an entry declares. As text, as a `SocketAddr` is.
#[derive(Clone, Copy, Debug, PartialEq, Eq, PartialOrd, Ord, Hash)]
#[non_exhaustive]
pub enum Address {
    /// An IPv4 address and its port.
    V4(SocketAddrV4),
    /// An IPv6 address and its port. Flow label and scope id are 0 in what is read, since the bytes have
    /// neither. An address that was made from a `SocketAddr` keeps its own, and a write of it is refused.
    V6(SocketAddrV6),
}

impl Address {
    /// The address as the standard library has it, of the kinds that it has.
    pub const fn socket_addr(self) -> Option<SocketAddr> {
        match self {
            Address::V4(address) => Some(SocketAddr::V4(address)),
            Address::V6(address) => Some(SocketAddr::V6(address)),
        }
    }

    /// Whether no peer of the network can have it.
    pub fn is_bogus(self, network: Network) -> bool {
        self.socket_addr().is_some_and(|address| is_bogus(address.ip(), network))
    }

    /// An address from its kind (0 for none, 4 or 6), the high and the low half, and the port.
    pub(crate) fn of([kind, high, low, port]: [u64; 4]) -> Option<Address> {
        let ip = match kind {
            4 => IpAddr::V4(Ipv4Addr::from_bits(high as u32)),
            6 => IpAddr::V6(Ipv6Addr::from_bits((high as u128) << 64 | low as u128)),
            _ => return None,
        };
        Some(SocketAddr::new(ip, port as u16).into())
    }
}

impl From<SocketAddr> for Address {
    fn from(address: SocketAddr) -> Address {
        match address {
            SocketAddr::V4(address) => Address::V4(address),
            SocketAddr::V6(address) => Address::V6(address),
        }
    }
}

impl FromStr for Address {
    type Err = AddrParseError;

    fn from_str(text: &str) -> Result<Address, AddrParseError> {
        text.parse::<SocketAddr>().map(Address::from)
    }
}

impl fmt::Display for Address {
    fn fmt(&self, f: &mut fmt::Formatter<'_>) -> fmt::Result {
        match self {
            Address::V4(address) => address.fmt(f),
            Address::V6(address) => address.fmt(f),
        }
    }
}

/// Whether no peer of the network can have the address. On mainnet documentation space is such, 2001:db8::/32
/// and 3fff::/20.
pub fn is_bogus(address: IpAddr, network: Network) -> bool {
    match address {
        IpAddr::V4(ip) => calls::is_bogus_v4(ip.to_bits(), network),
        IpAddr::V6(ip) => {
            let (high, low) = halves(ip);
            calls::is_bogus_v6(high, low, network)
        }
    }
}

fn halves(ip: Ipv6Addr) -> (u64, u64) {
    ((ip.to_bits() >> 64) as u64, ip.to_bits() as u64)
}

/// A flow label or scope id, for which an entry has no bytes, is refused as a broken row is.
pub(crate) fn writable(address: Option<SocketAddr>) -> Result<(), Error> {
    match address {
        Some(SocketAddr::V6(address)) if (address.flowinfo(), address.scope_id()) != (0, 0) => {
            Err(Error::BadTable)
        }
        _ => Ok(()),
    }
}

/// The reverse of `Address::of`.
pub(crate) fn numbers(address: Option<SocketAddr>) -> (u8, u64, u64, u16) {
    let Some(address) = address else { return (0, 0, 0, 0) };
    match address.ip() {
        IpAddr::V4(ip) => (4, ip.to_bits().into(), 0, address.port()),
        IpAddr::V6(ip) => {
            let (high, low) = halves(ip);
            (6, high, low, address.port())
        }
    }
}
