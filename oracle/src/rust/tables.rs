//! Tables of u32 beside a lent buffer, as document 01 lays them out: what their rows mean to the
//! Rust, and document 01's questions about them. The Rust's writers take values and refuse nothing.

use super::LIMIT;
use crate::case::tables;
use p2p::transport::handshake::{Feature, PeerSpec};
use p2p::types::Version;
use std::net::{IpAddr, Ipv4Addr, Ipv6Addr, SocketAddr};

/// The numbers of a row of each table.
pub const ENTRY: usize = 12;
pub const FEATURE: usize = 3;
pub const PAYLOAD: usize = 3;

/// The entries and features of a call, and the buffer.
pub struct Lent<'a> {
    pub entries: Vec<u32>,
    pub features: Vec<u32>,
    pub buffer: &'a [u8],
}

/// A row of the table of entries.
#[derive(Clone, Copy)]
pub struct EntryRow<'a>(&'a [u32]);

impl<'a> Lent<'a> {
    pub fn of(bytes: &'a [u8]) -> Lent<'a> {
        let ([entries, features], buffer) = tables(bytes);
        Lent { entries, features, buffer }
    }

    pub fn rows(&self) -> Vec<EntryRow<'_>> {
        self.entries.chunks_exact(ENTRY).map(EntryRow).collect()
    }

    /// 16, over every row.
    pub fn is_whole(&self) -> bool {
        self.entries.len().is_multiple_of(ENTRY)
            && self.features.len().is_multiple_of(FEATURE)
            && self.rows().iter().all(|row| row.has_numbers())
            && self.features.chunks(FEATURE).all(|row| row[0] < 256)
    }

    /// 12, of the rows that are written.
    pub fn is_inside(&self, rows: &[EntryRow]) -> bool {
        rows.iter().all(|row| {
            let [first, count] = [row.0[10] as usize, row.0[11] as usize];
            row.parts().iter().all(|[at, length]| is_part(self.buffer, *at, *length))
                && first + count <= self.features.len() / FEATURE
                && self.own(row).all(|feature| is_part(self.buffer, feature[1], feature[2]))
        })
    }

    /// 13, 4, 15 and 3, each over all rows before the next; the rows are whole and inside.
    pub fn refusal(&self, rows: &[EntryRow]) -> Option<u8> {
        let strings = rows.iter().flat_map(|row| [row.agent(), row.name()]);
        let strings: Vec<_> = strings.map(|[at, length]| part(self.buffer, at, length)).collect();
        if let Some(number) = refused_text(&strings) {
            return Some(number);
        }
        if rows.iter().any(|row| row.0[11] > 255) {
            return Some(15);
        }
        let long = |row| self.own(row).any(|feature| feature[2] as u64 > LIMIT);
        rows.iter().any(long).then_some(3)
    }

    /// The feature rows of an entry's row.
    fn own(&self, row: &EntryRow) -> impl Iterator<Item = &[u32]> {
        let [first, count] = [row.0[10] as usize, row.0[11] as usize];
        self.features.chunks_exact(FEATURE).skip(first).take(count)
    }

    /// What a row means, where no question is answered "no".
    pub fn spec(&self, row: &EntryRow) -> PeerSpec {
        let text = |[at, length]: [u32; 2]| {
            String::from_utf8(part(self.buffer, at, length).to_vec()).expect("UTF-8")
        };
        let feature = |row: &[u32]| Feature {
            id: row[0] as u8,
            body: part(self.buffer, row[1], row[2]).to_vec(),
        };
        let version = [row.0[2], row.0[3], row.0[4]].map(|n| n as u8);
        PeerSpec {
            agent: text(row.agent()),
            version: Version::new(version[0], version[1], version[2]),
            name: text(row.name()),
            address: self.address(row),
            features: self.own(row).map(feature).collect(),
        }
    }

    fn address(&self, row: &EntryRow) -> Option<SocketAddr> {
        let ip: IpAddr = match row.0[7] {
            8 => Ipv4Addr::from(self.array::<4>(row.0[8])).into(),
            20 => Ipv6Addr::from(self.array::<16>(row.0[8])).into(),
            _ => return None,
        };
        Some(SocketAddr::new(ip, row.0[9] as u16))
    }

    fn array<const N: usize>(&self, at: u32) -> [u8; N] {
        part(self.buffer, at, N as u32).try_into().expect("an address")
    }
}

impl EntryRow<'_> {
    fn agent(&self) -> [u32; 2] {
        [self.0[0], self.0[1]]
    }

    fn name(&self) -> [u32; 2] {
        [self.0[5], self.0[6]]
    }

    /// The parts of the buffer that a row names; without an address its place is unread.
    fn parts(&self) -> Vec<[u32; 2]> {
        let mut parts = vec![self.agent(), self.name()];
        if self.0[7] != 0 {
            parts.push([self.0[8], self.0[7] - 4]);
        }
        parts
    }

    fn has_numbers(&self) -> bool {
        let [major, minor, patch, length, port] =
            [self.0[2], self.0[3], self.0[4], self.0[7], self.0[9]];
        [major, minor, patch].iter().all(|n| *n < 256)
            && [0, 8, 20].contains(&length)
            && port < 65536
    }
}

/// 13 and 4, each over all strings before the next.
pub fn refused_text(strings: &[&[u8]]) -> Option<u8> {
    if strings.iter().any(|string| string.len() > 255) {
        return Some(13);
    }
    strings.iter().any(|string| std::str::from_utf8(string).is_err()).then_some(4)
}

pub fn is_part(buffer: &[u8], at: u32, length: u32) -> bool {
    at as u64 + length as u64 <= buffer.len() as u64
}

pub fn part(buffer: &[u8], at: u32, length: u32) -> &[u8] {
    &buffer[at as usize..][..length as usize]
}
