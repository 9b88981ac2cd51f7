//! Networks, modes, versions, verdicts.

use std::error;
use std::fmt;
use std::str::FromStr;

/// A text or a number that stands for no value of the type that was asked for.
#[derive(Clone, Copy, Debug, PartialEq, Eq, Hash)]
pub struct ParseError(pub(crate) &'static str);

impl fmt::Display for ParseError {
    fn fmt(&self, f: &mut fmt::Formatter<'_>) -> fmt::Result {
        f.pad(self.0)
    }
}

impl error::Error for ParseError {}

/// Shows what is put together; where a width is asked for, as one text.
pub(crate) fn pad(f: &mut fmt::Formatter<'_>, text: fmt::Arguments<'_>) -> fmt::Result {
    match (f.width(), f.precision()) {
        (None, None) => f.write_fmt(text),
        _ => f.pad(&text.to_string()),
    }
}

/// The network whose magic begins each frame. As text, `mainnet` or `testnet`.
#[derive(Clone, Copy, Debug, PartialEq, Eq, PartialOrd, Ord, Hash)]
pub enum Network {
    /// Magic 1 0 2 4.
    Mainnet,
    /// Magic 2 3 2 3.
    Testnet,
}

impl fmt::Display for Network {
    fn fmt(&self, f: &mut fmt::Formatter<'_>) -> fmt::Result {
        f.pad(match self {
            Network::Mainnet => "mainnet",
            Network::Testnet => "testnet",
        })
    }
}

impl FromStr for Network {
    type Err = ParseError;

    fn from_str(text: &str) -> Result<Network, ParseError> {
        match text {
            "mainnet" => Ok(Network::Mainnet),
            "testnet" => Ok(Network::Testnet),
            _ => Err(ParseError("a network is mainnet or testnet")),
        }
    }
}

/// What a handshake's Mode feature says. As text, `full` or `light`.
#[derive(Clone, Copy, Debug, PartialEq, Eq, Hash)]
pub enum ProxyMode {
    /// A full node.
    Full,
    /// A node that was bootstrapped by NiPoPoW.
    Light,
}

impl fmt::Display for ProxyMode {
    fn fmt(&self, f: &mut fmt::Formatter<'_>) -> fmt::Result {
        f.pad(match self {
            ProxyMode::Full => "full",
            ProxyMode::Light => "light",
        })
    }
}

impl FromStr for ProxyMode {
    type Err = ParseError;

    fn from_str(text: &str) -> Result<ProxyMode, ParseError> {
        match text {
            "full" => Ok(ProxyMode::Full),
            "light" => Ok(ProxyMode::Light),
            _ => Err(ParseError("a mode is full or light")),
        }
    }
}

/// A version of a peer's software, ordered by major, minor, patch. As text, `6.0.1`.
#[derive(Clone, Copy, Debug, PartialEq, Eq, PartialOrd, Ord, Hash)]
pub struct Version {
    /// The first number.
    pub major: u8,
    /// The second number.
    pub minor: u8,
    /// The third number.
    pub patch: u8,
}

impl Version {
    /// The lowest version that is valid.
    pub const EIP37_MIN: Version = Version::new(4, 0, 100);

    /// The version of three numbers.
    pub const fn new(major: u8, minor: u8, patch: u8) -> Version {
        Version { major, minor, patch }
    }
}

impl fmt::Display for Version {
    fn fmt(&self, f: &mut fmt::Formatter<'_>) -> fmt::Result {
        pad(f, format_args!("{}.{}.{}", self.major, self.minor, self.patch))
    }
}

impl FromStr for Version {
    type Err = ParseError;

    fn from_str(text: &str) -> Result<Version, ParseError> {
        let mut numbers = text.split('.').map(version_number);
        match [numbers.next(), numbers.next(), numbers.next(), numbers.next()] {
            [Some(major), Some(minor), Some(patch), None] => {
                Ok(Version::new(major?, minor?, patch?))
            }
            _ => Err(NO_VERSION),
        }
    }
}

const NO_VERSION: ParseError = ParseError("a version is three numbers up to 255, as 6.0.1");

/// As it is shown: `u8` would take a sign and leading zeros too.
fn version_number(text: &str) -> Result<u8, ParseError> {
    match text.as_bytes() {
        [b'0'] | [b'1'..=b'9', ..] => text.parse().map_err(|_| NO_VERSION),
        _ => Err(NO_VERSION),
    }
}

/// What `validate_peer` says of an entry.
#[derive(Clone, Copy, Debug, PartialEq, Eq, PartialOrd, Ord, Hash)]
#[non_exhaustive]
#[repr(u8)]
pub enum Verdict {
    /// Nothing speaks against the peer.
    Valid = 0,
    /// The version is below 4.0.100.
    OldVersion = 1,
    /// The first Session feature does not begin with this network's magic.
    OtherNetwork = 2,
}

impl Verdict {
    /// Its number in document 01.
    pub const fn number(self) -> u8 {
        self as u8
    }
}

impl TryFrom<u8> for Verdict {
    type Error = ParseError;

    fn try_from(number: u8) -> Result<Verdict, ParseError> {
        match number {
            0 => Ok(Verdict::Valid),
            1 => Ok(Verdict::OldVersion),
            2 => Ok(Verdict::OtherNetwork),
            _ => Err(ParseError("a verdict's number is 0, 1 or 2")),
        }
    }
}

impl fmt::Display for Verdict {
    fn fmt(&self, f: &mut fmt::Formatter<'_>) -> fmt::Result {
        f.pad(match self {
            Verdict::Valid => "valid",
            Verdict::OldVersion => "version below 4.0.100",
            Verdict::OtherNetwork => "other network",
        })
    }
}
