//! Cases for the writers that take tables of u32 beside a buffer: rows right and wrong, and outputs
//! with and without room. A case's first two numbers are the place and the length of the output.

use super::addresses::{near_v4, near_v6};
use super::fields::{feature_body, version};
use super::numbers::edge_number;
use super::text;
use super::writers::output;
use crate::answer::{Answer, Expected};
use crate::case::{laid, Case};
use crate::kinds::{brief, damage, networks, Kind};
use crate::rng::Rng;
use crate::rust::builds::Config;
use crate::rust::tables::{ENTRY, FEATURE};
use crate::rust::writers::Output;
use crate::rust::LIMIT;

/// Makes a case; its output has no bounds yet.
type Make = fn(&mut Rng) -> Case;

/// What the Rust writes, or document 01 refuses.
pub type Writer = fn(&Case) -> Expected;

/// Random cases, each with an output made for it, and some with several.
fn bounded(count: u64, writer: Writer, make: Make) -> Vec<Kind> {
    vec![
        Kind::random("boundary", count, move |rng, visit| {
            let mut case = make(rng);
            bound(rng, writer, &mut case);
            visit(&case);
        }),
        // Rooms around what the writing takes, from a few places.
        Kind::random("outputs", count / 2, move |rng, visit| {
            let mut case = make(rng);
            let Ok(length) = written(writer, &case) else { return visit(&case) };
            for place in [0, 1, 7] {
                for room in [length - 1, length, length + 1].map(|room| place + room) {
                    case.words[..2].copy_from_slice(&[place, room]);
                    visit(&case);
                }
            }
        }),
    ]
}

/// The same, and damaged ones.
fn of_writer(count: u64, writer: Writer, make: Make) -> Vec<Kind> {
    let mut kinds = bounded(count, writer, make);
    kinds.push(Kind::random("damaged", count / 4, move |rng, visit| {
        let mut case = brief(rng, make, |case| case);
        bound(rng, writer, &mut case);
        damage(rng, &case, 0..case.bytes.len(), visit);
    }));
    kinds
}

/// Cases with outputs that have just enough room, some more, and too little; and others, at limits and
/// past them, with just enough room.
fn edges(writer: Writer, list: &[Case], others: &[Case]) -> Kind {
    let with = |case: &Case, at, room| {
        let mut case = case.clone();
        case.words[..2].copy_from_slice(&[at, room]);
        case
    };
    let rooms = list.iter().flat_map(|case| {
        let n = written(writer, case).unwrap_or(40);
        [(0, n), (3, n + 5), (2, n + 1), (n + 1, n)].map(|(at, room)| with(case, at, room))
    });
    let enough = others.iter().map(|case| with(case, 1, written(writer, case).unwrap_or(40) + 1));
    Kind::edges(rooms.chain(enough).collect())
}

/// Gives a case an output for what it writes.
fn bound(rng: &mut Rng, writer: Writer, case: &mut Case) {
    let length = written(writer, case).unwrap_or(40);
    case.words[..2].copy_from_slice(&output(rng, length));
}

/// How many bytes a case writes into an output that has room, or the number of its refusal.
pub fn written(writer: Writer, case: &Case) -> Result<u64, u8> {
    let mut roomy = case.clone();
    roomy.words[..2].copy_from_slice(&[0, u64::MAX]);
    match writer(&roomy).answer() {
        Answer::Reached(_, end) => Ok(*end),
        Answer::Refused(number) => Err(*number),
        other => unreachable!("{other} of a writer"),
    }
}

// ---- entries

/// An entry of a table: its row as the third number.
pub fn entries(count: u64, writer: Writer) -> Vec<Kind> {
    let mut kinds = of_writer(count, writer, entry);
    let tables = documented().laid();
    let list = [0, 1, 2, 3].map(|row| Case::new(&[0, 0, row, 300 << (20 * row)], &tables));
    let others: Vec<Case> =
        changed().iter().map(|tables| Case::new(&[0, 0, 0, 1], &tables.laid())).collect();
    kinds.extend([edges(writer, &list, &others), long_features(&[0, 300, 0, 0], 0)]);
    kinds
}

/// One row of some, and a timestamp.
pub fn entry(rng: &mut Rng) -> Case {
    let mut tables = Tables::random(rng, 3);
    tables.spoil_at_times(rng);
    let rows = (tables.entries.len() / ENTRY) as u64;
    let row = match rng.below(16) {
        0 => rng.pick(&[rows, rows + 1, 1 << 32, u64::MAX]),
        _ => rng.below(rows.max(1)),
    };
    let timestamp = if rng.below(2) == 0 { edge_number(rng) } else { rng.number() };
    Case::new(&[0, 0, row, timestamp], &tables.laid())
}

/// An entry with all that it may have, one with nothing, and one with an IPv6 address; the features
/// 16, 3 and one that is in all of them.
fn documented() -> Tables {
    let buffer = b"ergoref\x01\x02\x03\x04\x00\x01\x00\x01\x01\x00\x02\x04\x05";
    let entries = [
        [0, 7, 6, 0, 1, 4, 3, 8, 7, 9030, 0, 3],
        [0, 0, 4, 0, 100, 20, 0, 0, u32::MAX, 0, 2, 1],
        [1, 3, 255, 254, 253, 2, 2, 20, 4, 65535, 1, 2],
    ];
    Tables {
        entries: entries.concat(),
        features: vec![16, 11, 4, 3, 15, 5, 200, 20, 0],
        buffer: buffer.to_vec(),
    }
}

/// These tables with a number of the first row, of its features or of another row changed, so that it
/// is at a limit or past it.
fn changed() -> Vec<Tables> {
    let entry = |at: usize, number| {
        let mut tables = documented();
        tables.entries[at] = number;
        tables
    };
    let feature = |at: usize, number| {
        let mut tables = documented();
        tables.features[at] = number;
        tables
    };
    let mut list = vec![];
    // 16: a number in each column that has a limit, also of a row that isn't written, and rows that aren't whole.
    list.extend(
        [(2, 256), (15, 256), (4, 256), (7, 7), (7, 12), (9, 65536), (33, 65536)]
            .map(|(at, n)| entry(at, n)),
    );
    list.push(feature(3, 256));
    let mut short = documented();
    short.entries.pop();
    list.push(short);
    let mut short = documented();
    short.features.push(0);
    list.push(short);
    // 12: each part, and the feature rows.
    list.extend(
        [(0, 14), (1, 21), (5, 18), (8, 17), (10, 1), (11, 4), (8, u32::MAX)]
            .map(|(at, n)| entry(at, n)),
    );
    list.push(feature(4, 16));
    // 13 and 4, of the agent and of the name.
    for (column, string) in [(0, [b'a'; 256]), (5, [b'a'; 256])] {
        for length in [255, 256] {
            let mut tables = documented();
            tables.entries[column..column + 2].copy_from_slice(&[20, length]);
            tables.buffer.extend(string);
            list.push(tables);
        }
    }
    for column in [0, 5] {
        let mut tables = documented();
        tables.entries[column..column + 2].copy_from_slice(&[20, 2]);
        tables.buffer.extend([b'a', 0xc3]);
        list.push(tables);
    }
    // 15
    for count in [255, 256] {
        let mut tables = documented();
        tables.entries[10..12].copy_from_slice(&[3, count]);
        tables.features.extend([7, 0, 0].repeat(256));
        list.push(tables);
    }
    list
}

/// Entries for Peers: network and cap as third and fourth number.
pub fn peers(count: u64, writer: Writer) -> Vec<Kind> {
    let kinds = of_writer(count, writer, entry_list);
    let mut kinds: Vec<Kind> = kinds.into_iter().map(|kind| networks(kind, 2)).collect();
    let tables = documented().laid();
    let cap = |mainnet, cap| Case::new(&[0, 0, mainnet, cap], &tables);
    let none = Case::new(&[0, 0, 0, 0], &laid(&[&[], &[]], &[]));
    let mut others = vec![cap(1, 2)];
    others.extend(changed().iter().map(|tables| Case::new(&[0, 0, 1, 64], &tables.laid())));
    let edges = edges(writer, &[cap(1, 3), cap(0, 64), none], &others);
    kinds.extend([edges, long_features(&[0, 300, 1, 64], 13)]);
    kinds
}

/// A few entries, and a cap.
pub fn entry_list(rng: &mut Rng) -> Case {
    let mut tables = Tables::random(rng, 5);
    tables.spoil_at_times(rng);
    let rows = (tables.entries.len() / ENTRY) as u64;
    let cap = if rng.below(4) == 0 { (rows + rng.below(3)).saturating_sub(1) } else { 64 };
    Case::new(&[0, 0, 0, cap], &tables.laid())
}

/// An entry with one feature whose length is at the limit, past it, or such that the entry is as
/// long as a body may be; the output has room and `more` for one of them.
fn long_features(words: &'static [u64], more: u64) -> Kind {
    // A count, two empty strings, three version bytes, a flag, a count, an id and a length.
    const AROUND: u64 = 1 + 7 + 1 + 4;
    Kind::every("long", 5, move |i, case| {
        let length = [LIMIT + 1, LIMIT, LIMIT - AROUND + 1, LIMIT - AROUND, LIMIT][i as usize];
        case.set(words, &long_feature(length));
        if i > 2 {
            case.words[1] = length + AROUND + more;
        }
    })
}

/// An entry with one feature of so many bytes.
pub fn long_feature(length: u64) -> Vec<u8> {
    let entry = [0, 0, 4, 0, 100, 0, 0, 0, 0, 0, 0, 1];
    laid(&[&entry, &[5, 0, length as u32]], &vec![b'a'; length as usize])
}

/// The tables and the buffer of a case.
struct Tables {
    entries: Vec<u32>,
    features: Vec<u32>,
    buffer: Vec<u8>,
}

impl Tables {
    /// Up to `most` entries that are right, rarely none, with rows that belong to none.
    fn random(rng: &mut Rng, most: u64) -> Tables {
        let mut tables = Tables { entries: vec![], features: vec![], buffer: vec![] };
        let count = if rng.below(16) == 0 { 0 } else { 1 + rng.below(most) };
        for _ in 0..count {
            tables.entry(rng);
        }
        for _ in 0..rng.below(3) {
            tables.features.extend([rng.byte().into(), rng.u64() as u32, rng.u64() as u32]);
        }
        tables
    }

    fn laid(&self) -> Vec<u8> {
        laid(&[&self.entries, &self.features], &self.buffer)
    }

    fn entry(&mut self, rng: &mut Rng) {
        let agent = self.string(rng);
        let mut numbers = vec![];
        version(rng, &mut numbers);
        let name = self.string(rng);
        let length = rng.pick(&[0, 8, 8, 20]);
        let address = match length {
            8 => {
                let address = near_v4(rng).to_be_bytes();
                self.put(rng, &address)[0]
            }
            20 => {
                let address = near_v6(rng).to_be_bytes();
                self.put(rng, &address)[0]
            }
            _ => rng.u64() as u32,
        };
        let port = rng.below(65536) as u32;
        let [first, count] = self.feature_rows(rng);
        self.entries.extend(agent);
        self.entries.extend(numbers.iter().map(|n| *n as u32));
        self.entries.extend(name);
        self.entries.extend([length, address, port, first, count]);
    }

    fn string(&mut self, rng: &mut Rng) -> [u32; 2] {
        let length = if rng.below(16) == 0 { rng.pick(&text::LENGTHS) } else { rng.below(12) };
        let mut string = vec![];
        text::text(rng, &mut string, length);
        self.put(rng, &string)
    }

    /// New rows, or rows that are there.
    fn feature_rows(&mut self, rng: &mut Rng) -> [u32; 2] {
        let rows = (self.features.len() / FEATURE) as u64;
        if rows > 0 && rng.below(4) == 0 {
            let first = rng.below(rows + 1);
            return [first as u32, rng.below(rows - first + 1) as u32];
        }
        let count = match rng.below(64) {
            0 => rng.pick(&[127, 254, 255]),
            _ => rng.below(4),
        };
        for _ in 0..count {
            let (id, body) = feature_body(rng, 20);
            let [at, length] = self.put(rng, &body);
            self.features.extend([id.into(), at, length]);
        }
        [rows as u32, count as u32]
    }

    /// Puts bytes into the buffer, at times after others: their place and length.
    fn put(&mut self, rng: &mut Rng, bytes: &[u8]) -> [u32; 2] {
        let before = rng.below(8).saturating_sub(5);
        rng.append(&mut self.buffer, before);
        let at = self.buffer.len() as u32;
        self.buffer.extend_from_slice(bytes);
        [at, bytes.len() as u32]
    }

    /// In a third of the tables, makes one to three things wrong.
    fn spoil_at_times(&mut self, rng: &mut Rng) {
        let wrong = rng.below(9).saturating_sub(5);
        for _ in 0..wrong {
            self.spoil(rng);
        }
    }

    fn spoil(&mut self, rng: &mut Rng) {
        let rows = (self.entries.len() / ENTRY) as u64;
        if rows == 0 {
            return self.entries.push(0);
        }
        let row = ENTRY * rng.below(rows) as usize;
        match rng.below(12) {
            0 => self.entries.truncate(rng.below(self.entries.len() as u64) as usize),
            1 => self.features.push(rng.byte().into()),
            2 => self.entries[row + 2 + rng.below(3) as usize] += 256,
            3 => self.entries[row + 7] = rng.pick(&[1, 4, 7, 9, 12, 24, u32::MAX]),
            4 => self.entries[row + 9] += 65536,
            5 if self.features.len() >= FEATURE => self.features[0] += 256,
            6 | 7 => {
                let column = rng.pick(&[0, 1, 5, 6, 8, 10, 11]);
                self.entries[row + column] = far(rng, self.buffer.len() as u32);
            }
            8 if self.features.len() >= FEATURE => {
                let column = rng.pick(&[1, 2]);
                self.features[column] = far(rng, self.buffer.len() as u32);
            }
            9 => {
                let long = self.put(rng, &[b'a'; 260]);
                let column = rng.pick(&[0, 5]);
                self.entries[row + column] = long[0];
                self.entries[row + column + 1] = 255 + rng.below(3) as u32;
            }
            10 => {
                let wrong = self.put(rng, &[b'a', 0xc3]);
                let column = rng.pick(&[0, 5]);
                self.entries[row + column..row + column + 2].copy_from_slice(&wrong);
            }
            _ => {
                let first = self.features.len() / FEATURE;
                self.features.extend([7, 0, 0].repeat(257));
                self.entries[row + 10] = first as u32;
                self.entries[row + 11] = 255 + rng.below(3) as u32;
            }
        }
    }
}

/// A place or length around that of the buffer, or so large that sums with it wrap.
fn far(rng: &mut Rng, length: u32) -> u32 {
    match rng.below(4) {
        0 => u32::MAX - rng.below(3) as u32,
        1 => length,
        2 => length + 1 + rng.below(4) as u32,
        _ => rng.u64() as u32,
    }
}

// ---- ids and payloads

/// Ids: network and type byte as third and fourth number.
pub fn ids(count: u64, writer: Writer) -> Vec<Kind> {
    let kinds = of_writer(count, writer, id_list);
    let mut kinds: Vec<Kind> = kinds.into_iter().map(|kind| networks(kind, 2)).collect();
    let list: [&[u32]; 3] = [&[], &[0], &[8, 0]];
    let others: [&[u32]; 3] = [&[9], &[u32::MAX], &[3; 401]];
    kinds.push(edges(writer, &on_both(&list.map(listed)), &others.map(listed)));
    kinds
}

/// Cases on both networks.
fn on_both(list: &[Case]) -> Vec<Case> {
    let both = list.iter().flat_map(|case| {
        [0, 1].map(|mainnet| {
            let mut case = case.clone();
            case.words[2] = mainnet;
            case
        })
    });
    both.collect()
}

/// A table beside a buffer of forty different bytes.
fn listed(table: &[u32]) -> Case {
    let buffer: Vec<u8> = (0..40).map(|i| 7 * i + 1).collect();
    Case::new(&[0, 0, 1, 2], &laid(&[table], &buffer))
}

/// A few ids, and a type byte.
pub fn id_list(rng: &mut Rng) -> Case {
    let mut buffer = vec![];
    let length = 32 + rng.below(80);
    rng.append(&mut buffer, length);
    let mut places: Vec<u32> = (0..items(rng)).map(|_| place(rng, length as u32, 32)).collect();
    misplace(rng, &mut places, length as u32);
    Case::new(&[0, 0, 0, rng.byte().into()], &laid(&[&places], &buffer))
}

/// Payloads: network and type byte as third and fourth number.
pub fn payloads(count: u64, writer: Writer) -> Vec<Kind> {
    let kinds = of_writer(count, writer, payload_list);
    let mut kinds: Vec<Kind> = kinds.into_iter().map(|kind| networks(kind, 2)).collect();
    let list: [&[u32]; 3] = [&[], &[0, 32, 8], &[8, 40, 0, 0, 0, 40]];
    let others: [&[u32]; 4] = [&[0, 33, 8], &[9, 0, 1], &[0, 0], &[3; 3 * 401]];
    let edges = edges(writer, &on_both(&list.map(listed)), &others.map(listed));
    kinds.extend([edges, long_payloads()]);
    kinds
}

/// A few payloads, and a type byte.
pub fn payload_list(rng: &mut Rng) -> Case {
    let mut buffer = vec![];
    let length = 32 + rng.below(80);
    rng.append(&mut buffer, length);
    let mut table = vec![];
    for _ in 0..items(rng) {
        let size = rng.below(length + 1) as u32;
        table.extend([place(rng, length as u32, 32), place(rng, length as u32, size), size]);
    }
    misplace(rng, &mut table, length as u32);
    if rng.below(16) == 0 {
        table.truncate(rng.below(table.len() as u64 + 1) as usize);
    }
    Case::new(&[0, 0, 0, rng.byte().into()], &laid(&[&table], &buffer))
}

/// How many ids or payloads: few, or around 400.
fn items(rng: &mut Rng) -> u64 {
    match rng.below(64) {
        0 => rng.pick(&[127, 128, 399, 400, 401]),
        _ => rng.below(5),
    }
}

/// The place of a part of some length in a buffer.
fn place(rng: &mut Rng, buffer: u32, length: u32) -> u32 {
    rng.below((buffer - length + 1).into()) as u32
}

/// At times, makes one number of a table too large for the buffer, or just so.
fn misplace(rng: &mut Rng, table: &mut [u32], buffer: u32) {
    if !table.is_empty() && rng.below(6) == 0 {
        let at = rng.below(table.len() as u64) as usize;
        table[at] =
            if rng.below(2) == 0 { buffer - 31 - rng.below(2) as u32 } else { far(rng, buffer) };
    }
}

/// Payloads at the limit and past it, and such that the body is as long as it may be.
fn long_payloads() -> Kind {
    // A type byte, a count, an id and a length.
    const AROUND: u64 = 2 + 32 + 4;
    Kind::every("long", 6, |i, case| {
        let length = [LIMIT + 1, LIMIT, LIMIT - AROUND + 1, LIMIT - AROUND, LIMIT - AROUND, 50_000];
        let length = length[i as usize];
        let room = if i == 4 { LIMIT + 13 } else { 300 };
        case.set(&[0, room, 1, 7], &long_payload(length, if i == 5 { 400 } else { 1 }));
    })
}

/// So many payloads of so many bytes.
pub fn long_payload(length: u64, count: usize) -> Vec<u8> {
    laid(&[&[0, 0, length as u32].repeat(count)], &vec![b'a'; length as usize])
}

// ---- bodies as they are

/// Bodies: network and code as third and fourth number.
pub fn bodies(count: u64, writer: Writer) -> Vec<Kind> {
    let kinds = of_writer(count, writer, body);
    let mut kinds: Vec<Kind> = kinds.into_iter().map(|kind| networks(kind, 2)).collect();
    let list: [&[u8]; 4] = [&[], &[0], &[1, 2, 3], &[255; 130]];
    let list = list.map(|body| Case::new(&[0, 0, 1, 77], body));
    let known = [1, 2, 22, 33, 55, 65].map(|code| Case::new(&[0, 0, 1, code], &[9, 8]));
    kinds.push(edges(writer, &on_both(&list), &known));
    kinds.push(Kind::every("codes", 256 * 4, |i, case| {
        case.set(&[0, 13 + i % 2, i % 2, i / 4], &[7][..i as usize / 2 % 2]);
    }));
    kinds.push(Kind::every("long", 4, |i, case| {
        let code = [77, 65][i as usize / 2];
        case.set(&[0, LIMIT + 13, 1, code], &vec![b'a'; (LIMIT + i % 2) as usize]);
    }));
    kinds
}

/// A body, and a code.
pub fn body(rng: &mut Rng) -> Case {
    let mut body = vec![];
    let length = match rng.below(4) {
        0 => rng.below(300),
        1 => 126 + rng.below(6),
        _ => rng.below(8),
    };
    rng.append(&mut body, length);
    let code = if rng.below(4) == 0 { rng.pick(&[1, 2, 22, 33, 55, 65]) } else { rng.byte() };
    Case::new(&[0, 0, 0, code.into()], &body)
}

// ---- build

/// Handshakes that the Rust has built, some of them with other numbers than it took, and strings
/// that it doesn't take.
pub fn builds(count: u64, writer: Writer) -> Vec<Kind> {
    let nowhere = Output { at: 0, room: 0 };
    let cases = |configs: Vec<Config>| -> Vec<Case> {
        configs.iter().map(|config| config.case(nowhere, &[])).collect()
    };
    let mut kinds = vec![edges(writer, &cases(vec![example()]), &cases(configs()))];
    kinds.extend(bounded(count, writer, |rng| {
        let config = config(rng);
        let nowhere = Output { at: 0, room: 0 };
        let known = config.is_address()
            && config.agent.len() <= 255
            && config.name.len() <= 255
            && std::str::from_utf8(&config.agent).is_ok()
            && std::str::from_utf8(&config.name).is_ok();
        if known && rng.below(4) > 0 {
            let (config, built) = config.built();
            return config.case(nowhere, &built);
        }
        config.case(nowhere, &[])
    }));
    kinds
}

fn example() -> Config {
    Config {
        mainnet: 1,
        light: 0,
        state_type: 3,
        verifying: 1,
        blocks_to_keep: -1,
        version: [4, 0, 100],
        address: [0, 0, 0, 0],
        timestamp: 300,
        session_id: -2,
        agent: b"ergoref".to_vec(),
        name: b"me".to_vec(),
    }
}

/// No address, IPv4 and IPv6 in both modes on both networks, numbers at the ends of their types, and
/// what is refused.
fn configs() -> Vec<Config> {
    let config = example();
    let [v4, v6] =
        [[4, 0x0102_0304, 0, 9030], [6, 0x2001_0db8_0102_0304, 0x0506_0708_090a_0b0c, 9030]];
    let with = |address| Config { address, ..config.clone() };
    let testnet = |config: Config| Config { mainnet: 0, light: 1, verifying: 0, ..config };
    let mut list = vec![config.clone(), with(v4), with(v6)];
    list.extend([testnet(config.clone()), testnet(with(v4)), testnet(with(v6))]);
    list.extend(
        [[0, u64::MAX, u64::MAX, 1], [4, u32::MAX.into(), 0, 65535], [6, 0, u64::MAX, 0]].map(with),
    );
    let [most, least] = [(i32::MAX, i64::MAX), (i32::MIN, i64::MIN)];
    list.extend([(most, u64::MAX), (least, 0)].map(|((blocks_to_keep, session_id), timestamp)| {
        Config {
            blocks_to_keep,
            session_id,
            timestamp,
            state_type: 255,
            version: [255, 254, 253],
            ..config.clone()
        }
    }));
    // 16
    list.extend([1, 3, 5, 255].map(|kind| with([kind, 0, 0, 0])));
    list.extend([[4, 1 << 32, 0, 9030], [4, u64::MAX, 0, 9030], [4, 1, 1, 9030]].map(with));
    // 13 and 4
    for string in [vec![b'a'; 255], vec![b'a'; 256], b"a\xc3".to_vec()] {
        list.push(Config { agent: string.clone(), ..config.clone() });
        list.push(Config { name: string, ..config.clone() });
    }
    list
}

pub fn config(rng: &mut Rng) -> Config {
    let mut numbers = vec![];
    version(rng, &mut numbers);
    let address = match rng.below(3) {
        0 => [rng.pick(&[0, 0, 0, 5, 255]), rng.number(), rng.number(), rng.below(65536)],
        1 => {
            let more = rng.pick(&[0, 0, 0, 0, 0, 0, 0, 1 << 32]);
            [4, u64::from(near_v4(rng)) + more, rng.below(16) / 15, rng.below(65536)]
        }
        _ => {
            let address = near_v6(rng);
            [6, (address >> 64) as u64, address as u64, rng.below(65536)]
        }
    };
    Config {
        mainnet: rng.pick(&[0, 1, 1, 2, 255]),
        light: rng.pick(&[0, 1, 1, 255]),
        state_type: if rng.below(2) == 0 { rng.byte() } else { rng.below(2) as u8 },
        verifying: rng.pick(&[0, 1, 1, 2]),
        blocks_to_keep: number(rng) as i32,
        version: numbers.try_into().expect("three numbers"),
        address,
        timestamp: number(rng),
        session_id: number(rng) as i64,
        agent: string(rng),
        name: string(rng),
    }
}

fn number(rng: &mut Rng) -> u64 {
    let number = if rng.below(2) == 0 { edge_number(rng) } else { rng.number() };
    if rng.below(2) == 0 {
        number.wrapping_neg()
    } else {
        number
    }
}

/// Mostly a string that a handshake may have.
fn string(rng: &mut Rng) -> Vec<u8> {
    let mut string = vec![];
    match rng.below(16) {
        0 => text::string(rng, &mut string),
        kind => {
            let length = if kind == 1 { 250 + rng.below(10) } else { rng.below(20) };
            text::text(rng, &mut string, length);
        }
    }
    string
}
