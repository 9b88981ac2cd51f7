//! The arguments of `haspeljo report`.

use super::help;
use crate::names::Name;
use clap::builder::{PossibleValuesParser, TypedValueParser};
use clap::error::{Error, ErrorKind};
use clap::{Args, ValueHint};
use haspeljo::Network;
use std::ffi::{OsStr, OsString};
use std::fs::{self, Metadata};
use std::path::{Path, PathBuf};

/// Reports on captures: a line for each item of the session, then how it ends.
///
/// A capture holds the raw bytes that a peer sent in one session: a handshake, then messages. Of several captures the
/// reports stand in the order of their names, each below a line `==> NAME <==`.
#[derive(Args)]
#[command(after_help = help::short(), after_long_help = help::long())]
pub struct Arguments {
    /// Captures to report on; `-`, or none at all, is standard input.
    ///
    /// A file is mapped, not copied, unless it is short, so that it may have any length. Nobody may shorten or change it
    /// while it is read. Anything else, as a pipe, is read as it comes, no further than a stop that later bytes cannot
    /// change, and what came is kept in memory. Standard input can be named once.
    #[arg(value_name = "FILE", value_hint = ValueHint::FilePath)]
    files: Vec<OsString>,

    /// Reads the names of the captures from a list, one a line; `-` is standard input.
    ///
    /// The list is read bit by bit, so that it may have any length. A name `-` in it is that of a file.
    #[arg(long, value_name = "LIST", value_hint = ValueHint::FilePath, conflicts_with = "files")]
    files_from: Option<PathBuf>,

    /// In the list, names end with a zero byte, as `find -print0` prints them, not with a newline.
    #[arg(short = '0', long)]
    null: bool,

    /// The network: it decides the magic of frames, the verdicts, and which addresses are bogus.
    #[arg(long, value_name = "NETWORK", default_value = "mainnet", value_parser = network())]
    pub network: Network,

    /// How many entries a Peers message may have; one with more stops the session, with number 10.
    #[arg(long, value_name = "N", default_value_t = 64)]
    pub cap: usize,

    /// Adds a line for each entry of the handshake and of Peers messages: its address, its verdict.
    #[arg(long)]
    pub addresses: bool,

    /// Prints JSON objects, one a line: for each item, and for the ending.
    #[arg(long)]
    pub json: bool,

    /// Goes on as the capture grows; only one can be followed.
    ///
    /// Each item is printed as soon as its last byte is there; how the session ends, once no later byte can change it:
    /// at a stop that is no cut, or at the end of a pipe. A file may only grow: one that is renamed or replaced is not
    /// followed to its new name or bytes, and one that is cut shorter is an error if that is seen.
    #[arg(long, conflicts_with = "files_from")]
    pub follow: bool,
}

fn network() -> impl TypedValueParser<Value = Network> {
    PossibleValuesParser::new(["mainnet", "testnet"])
        .map(|name| name.parse().expect("the name of a network"))
}

/// The captures that are asked for.
pub enum Captures<'a> {
    One(Name),
    Several(&'a [OsString]),
    /// Those named in a list, a byte standing between the names.
    Listed(&'a Path, u8),
}

impl Arguments {
    /// Ends the program where the arguments do not go together.
    pub fn captures(&self) -> Captures<'_> {
        // Clap's `requires` would be passed over where a file is named, since that conflicts with a list.
        if self.null && self.files_from.is_none() {
            misused("-0 is for --files-from alone");
        }
        if self.files.iter().filter(|file| matches!(Name::of(file), Name::Stdin)).count() > 1 {
            misused("standard input can be named only once");
        }
        match (&self.files_from, &self.files[..]) {
            (Some(list), _) => Captures::Listed(list, if self.null { 0 } else { b'\n' }),
            (None, []) => Captures::One(Name::Stdin),
            (None, [file]) => Captures::One(Name::of(file)),
            (None, _) if self.follow => misused("one capture alone can be followed"),
            (None, files) => Captures::Several(files),
        }
    }
}

fn misused(text: &str) -> ! {
    <Error>::raw(ErrorKind::ArgumentConflict, format!("{text}\n")).exit()
}

impl Captures<'_> {
    /// How many bytes their files have, where that is known before they are read.
    pub fn length(&self) -> Option<u64> {
        let length =
            |name: &OsStr| fs::metadata(name).ok().filter(Metadata::is_file).map(|m| m.len());
        match self {
            Captures::One(Name::File(name)) => length(name),
            Captures::Several(files) => Some(files.iter().filter_map(|file| length(file)).sum()),
            Captures::One(Name::Stdin) | Captures::Listed(..) => None,
        }
    }
}
