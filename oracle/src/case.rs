//! A case: the arguments of one call, as some numbers and then bytes.

use std::fmt::Write;

/// The most numbers that a function takes.
pub const WORDS: usize = 16;

/// The most bytes of a case that a report shows.
const SHOWN: usize = 1024;

/// The arguments that are numbers, in order (unused ones are 0), and the argument that is bytes.
/// A negative number is its two's complement.
#[derive(Clone, Debug, Default, PartialEq, Eq)]
pub struct Case {
    pub words: [u64; WORDS],
    pub bytes: Vec<u8>,
}

impl Case {
    pub fn new(words: &[u64], bytes: &[u8]) -> Case {
        let mut case = Case::default();
        case.set(words, bytes);
        case
    }

    pub fn set(&mut self, words: &[u64], bytes: &[u8]) {
        self.words = [0; WORDS];
        self.words[..words.len()].copy_from_slice(words);
        self.bytes.clear();
        self.bytes.extend_from_slice(bytes);
    }

    pub fn word(&self, i: usize) -> u64 {
        self.words[i]
    }

    pub fn place(&self, i: usize) -> usize {
        self.words[i] as usize
    }

    /// How a file of cases holds it: each of the first `words` numbers as eight bytes,
    /// little-endian, then the bytes.
    pub fn layout(&self, words: usize) -> Vec<u8> {
        let mut out: Vec<u8> = self.words[..words].iter().flat_map(|w| w.to_le_bytes()).collect();
        out.extend_from_slice(&self.bytes);
        out
    }

    /// How a report shows it: the first `words` numbers in decimal, then the bytes in hex. Of very
    /// long bytes it shows the first, and how many there are.
    pub fn shown(&self, words: usize) -> String {
        let mut out = String::new();
        for w in &self.words[..words] {
            write!(out, "{w} ").unwrap();
        }
        match self.bytes.len() {
            0..=SHOWN => out + &hex(&self.bytes),
            n => out + &hex(&self.bytes[..SHOWN]) + &format!(".. ({n} bytes)"),
        }
    }

    /// The reverse of `shown`, of bytes that it shows whole; none where the text is something else.
    pub fn parse(text: &[String], words: usize) -> Option<Case> {
        let (bytes, numbers) = text.split_last()?;
        if numbers.len() != words {
            return None;
        }
        let numbers: Option<Vec<u64>> = numbers.iter().map(|w| w.parse().ok()).collect();
        Some(Case::new(&numbers?, &unhex(bytes)?))
    }

    /// Short cases come before long ones.
    pub fn is_smaller(&self, than: &Case) -> bool {
        let key = |c: &Case| (c.bytes.len(), c.words, c.bytes.clone());
        key(self) < key(than)
    }
}

/// Tables of u32 and then a buffer, as the bytes of one case: before each table its length, all
/// numbers as four bytes, little-endian.
pub fn laid(tables: &[&[u32]], buffer: &[u8]) -> Vec<u8> {
    let mut bytes = vec![];
    for table in tables {
        bytes.extend((table.len() as u32).to_le_bytes());
        bytes.extend(table.iter().flat_map(|n| n.to_le_bytes()));
    }
    bytes.extend_from_slice(buffer);
    bytes
}

/// The reverse of `laid`, of any bytes: a table has as many of its numbers as are there.
pub fn tables<const N: usize>(mut bytes: &[u8]) -> ([Vec<u32>; N], &[u8]) {
    let tables = std::array::from_fn(|_| match bytes.split_first_chunk() {
        Some((length, rest)) => {
            let length = (u32::from_le_bytes(*length) as usize).min(rest.len() / 4);
            let (table, rest) = rest.split_at(4 * length);
            bytes = rest;
            let numbers = table.chunks(4).map(|n| n.try_into().expect("four bytes"));
            numbers.map(u32::from_le_bytes).collect()
        }
        None => vec![],
    });
    (tables, bytes)
}

/// Strings of bytes and then others, as the bytes of one case: before each its length as four bytes,
/// little-endian.
pub fn joined(strings: &[&[u8]], others: &[u8]) -> Vec<u8> {
    let mut bytes = vec![];
    for string in strings {
        bytes.extend((string.len() as u32).to_le_bytes());
        bytes.extend_from_slice(string);
    }
    bytes.extend_from_slice(others);
    bytes
}

/// The reverse of `joined`, of any bytes: a string has as many of its bytes as are there.
pub fn strings<const N: usize>(mut bytes: &[u8]) -> ([&[u8]; N], &[u8]) {
    let strings = std::array::from_fn(|_| match bytes.split_first_chunk() {
        Some((length, rest)) => {
            let (string, rest) =
                rest.split_at((u32::from_le_bytes(*length) as usize).min(rest.len()));
            bytes = rest;
            string
        }
        None => &[],
    });
    (strings, bytes)
}

/// Bytes in hex; no bytes are `-`.
pub fn hex(bytes: &[u8]) -> String {
    if bytes.is_empty() {
        return "-".into();
    }
    bytes.iter().fold(String::new(), |mut out, b| {
        write!(out, "{b:02x}").unwrap();
        out
    })
}

pub fn unhex(text: &str) -> Option<Vec<u8>> {
    if text == "-" {
        return Some(vec![]);
    }
    if !text.is_ascii() || !text.len().is_multiple_of(2) {
        return None;
    }
    (0..text.len()).step_by(2).map(|i| u8::from_str_radix(&text[i..i + 2], 16).ok()).collect()
}

#[cfg(test)]
mod tests {
    use super::*;

    #[test]
    fn tables_come_back_as_they_were_laid() {
        let bytes = laid(&[&[1, 2, 0xffff_ffff], &[]], &[7, 8, 9]);
        assert_eq!(tables::<2>(&bytes), ([vec![1, 2, 0xffff_ffff], vec![]], &[7, 8, 9][..]));
        assert_eq!(tables::<1>(&bytes[..13]), ([vec![1, 2]], &[0xff][..]));
        assert_eq!(tables::<2>(&[1, 2]), ([vec![], vec![]], &[1, 2][..]));
    }

    #[test]
    fn strings_come_back_as_they_were_joined() {
        let bytes = joined(&[b"ab", b""], &[7]);
        assert_eq!(strings::<2>(&bytes), ([&b"ab"[..], b""], &[7][..]));
        assert_eq!(strings::<1>(&bytes[..5]), ([&b"a"[..]], &[][..]));
    }
}
