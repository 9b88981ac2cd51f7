//! The names of captures: given one by one, or in a list.

use crate::standard;
use std::borrow::Cow;
use std::ffi::{OsStr, OsString};
use std::fmt;
use std::fs::File;
use std::io::{self, BufRead, BufReader};
use std::os::unix::ffi::OsStringExt;
use std::path::Path;

/// The argument that stands for standard input.
const STDIN: &str = "-";

#[derive(Clone, Debug)]
pub enum Name {
    Stdin,
    File(OsString),
}

impl Name {
    /// What an argument names.
    pub fn of(argument: &OsStr) -> Name {
        if argument == STDIN {
            Name::Stdin
        } else {
            Name::File(argument.into())
        }
    }

    pub fn open(&self) -> io::Result<File> {
        match self {
            Name::Stdin => standard::input(),
            Name::File(name) => File::open(name),
        }
    }

    pub fn as_os_str(&self) -> &OsStr {
        match self {
            Name::Stdin => OsStr::new(STDIN),
            Name::File(name) => name,
        }
    }
}

/// As complaints name it.
impl fmt::Display for Name {
    fn fmt(&self, f: &mut fmt::Formatter<'_>) -> fmt::Result {
        match self {
            Name::Stdin => f.write_str("standard input"),
            Name::File(name) => f.write_str(&shown(name)),
        }
    }
}

/// A name on one line: quoted and escaped where it could be taken for something else, or is not UTF-8.
pub fn shown(name: &OsStr) -> Cow<'_, str> {
    let misleads = |c: char| c.is_control() || is_bidirectional(c);
    match name.to_str() {
        Some(name) if !name.starts_with('"') && !name.chars().any(misleads) => name.into(),
        _ => format!("{name:?}").into(),
    }
}

/// A name as it is, or escaped where it is not UTF-8.
pub fn text(name: &OsStr) -> Cow<'_, str> {
    name.to_str().map(Cow::from).unwrap_or_else(|| {
        let quoted = format!("{name:?}");
        quoted[1..quoted.len() - 1].to_string().into()
    })
}

/// Whether a character turns the direction in which those around it are shown.
fn is_bidirectional(c: char) -> bool {
    matches!(c, '\u{61c}' | '\u{200e}' | '\u{200f}' | '\u{202a}'..='\u{202e}' | '\u{2066}'..='\u{2069}')
}

/// That a list cannot be read on.
pub struct Unread {
    pub list: Name,
    pub error: io::Error,
}

/// The names in a list, each read once it is asked for. Empty ones are passed over.
pub fn listed(
    list: &Path,
    delimiter: u8,
) -> io::Result<impl Iterator<Item = Result<Name, Unread>>> {
    let list = Name::of(list.as_os_str());
    let mut names = BufReader::new(list.open()?).split(delimiter);
    let mut failed = false;
    let next = move || {
        let name = (!failed)
            .then(|| names.find(|name| !matches!(name, Ok(name) if name.is_empty())))??;
        failed = name.is_err();
        Some(match name {
            Ok(name) => Ok(Name::File(OsString::from_vec(name))),
            Err(error) => Err(Unread { list: list.clone(), error }),
        })
    };
    Ok(std::iter::from_fn(next))
}
