//! The cases of a file.

use haspeljo::Network;

/// A case's function, and its arguments that are not yet taken.
pub struct Case<'a> {
    pub function: u8,
    pub input: &'a [u8],
}

impl<'a> Case<'a> {
    /// The next argument that is a number.
    pub fn word(&mut self) -> u64 {
        let (word, rest) = self.input.split_first_chunk().unwrap();
        self.input = rest;
        u64::from_le_bytes(*word)
    }

    /// The next argument, a place, a count or an index.
    pub fn size(&mut self) -> usize {
        self.word() as usize
    }

    pub fn byte(&mut self) -> u8 {
        self.word() as u8
    }

    /// The next string, behind its length.
    pub fn string(&mut self) -> &'a [u8] {
        let (length, rest) = self.input.split_first_chunk().unwrap();
        let (string, rest) = rest.split_at(u32::from_le_bytes(*length) as usize);
        self.input = rest;
        string
    }

    pub fn network(&mut self) -> Network {
        match self.word() {
            0 => Network::Testnet,
            _ => Network::Mainnet,
        }
    }
}

/// The cases of a file: function, length of the input in two bytes, input.
pub fn cases(mut bytes: &[u8]) -> Vec<Case<'_>> {
    let mut cases = vec![];
    while let [function, low, high, rest @ ..] = bytes {
        let (input, rest) = rest.split_at(u16::from_le_bytes([*low, *high]).into());
        cases.push(Case { function: *function, input });
        bytes = rest;
    }
    assert!(bytes.is_empty());
    cases
}

pub fn hex(bytes: &[u8]) -> String {
    match bytes {
        [] => "-".into(),
        _ => bytes.iter().map(|byte| format!("{byte:02x}")).collect(),
    }
}
