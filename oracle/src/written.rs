//! Written sessions: lists of our writes on one output, and how the Rust reads what they leave.

use crate::answer::{Answer, Expected, Value};
use crate::case::Case;
use crate::cases::lists::{List, Setting, Write};
use crate::cases::tables;
use crate::ours::writers::Put;
use crate::ours::{self, Guarded};
use crate::rng::Rng;
use crate::rust::items::{self, Item};
use crate::rust::writers::{self, Output};
use crate::rust::{self, builds};
use std::fmt;
use std::ops::Range;

pub struct Writer {
    pub name: &'static str,
    pub make: fn(&mut Rng, Setting) -> Case,
    /// What the Rust writes, or document 01 refuses.
    pub expected: fn(&Case) -> Expected,
    put: Put,
    /// The values that an accepted case gives.
    given: fn(&Case) -> Item,
}

/// The writers of handshakes.
pub const HANDSHAKES: Range<usize> = 0..2;

pub static WRITERS: [Writer; 9] = [
    Writer {
        name: "write_handshake",
        make: |rng, _| tables::entry(rng),
        expected: writers::write_handshake,
        put: ours::builds::write_handshake,
        given: items::given_handshake,
    },
    Writer {
        name: "build",
        make: |rng, setting| {
            let nowhere = Output { at: 0, room: 0 };
            on_network(tables::config(rng).case(nowhere, &[]), setting)
        },
        expected: builds::build,
        put: ours::builds::build,
        given: items::given_build,
    },
    Writer {
        name: "write_get_peers",
        make: |_, setting| on_network(Case::default(), setting),
        expected: writers::write_get_peers,
        put: ours::writers::write_get_peers,
        given: |_| Item::GetPeers,
    },
    Writer {
        name: "write_peers",
        make: |rng, setting| {
            let mut case = on_network(tables::entry_list(rng), setting);
            case.words[3] = setting.cap;
            case
        },
        expected: writers::write_peers,
        put: ours::writers::write_peers,
        given: items::given_peers,
    },
    Writer {
        name: "write_modifier_request",
        make: |rng, setting| on_network(tables::id_list(rng), setting),
        expected: writers::write_modifier_request,
        put: ours::writers::write_modifier_request,
        given: |case| items::given_message(writers::modifier_request(case)),
    },
    Writer {
        name: "write_modifier_response",
        make: |rng, setting| on_network(tables::payload_list(rng), setting),
        expected: writers::write_modifier_response,
        put: ours::writers::write_modifier_response,
        given: |case| items::given_message(writers::modifier_response(case)),
    },
    Writer {
        name: "write_inv",
        make: |rng, setting| on_network(tables::id_list(rng), setting),
        expected: writers::write_inv,
        put: ours::writers::write_inv,
        given: |case| items::given_message(writers::inv(case)),
    },
    Writer {
        name: "write_sync_info",
        make: |rng, setting| on_network(tables::body(rng), setting),
        expected: writers::write_sync_info,
        put: ours::writers::write_sync_info,
        given: |case| items::given_message(writers::sync_info(case)),
    },
    Writer {
        name: "write_unknown",
        make: |rng, setting| on_network(tables::body(rng), setting),
        expected: writers::write_unknown,
        put: ours::writers::write_unknown,
        given: |case| items::given_message(writers::unknown(case)),
    },
];

/// A case with the network of the session as its third number.
fn on_network(mut case: Case, setting: Setting) -> Case {
    case.words[2] = setting.mainnet.into();
    case
}

/// Writes a list into an output of random bytes, and lets the Rust read what it leaves: whether a
/// document says a part of the walk. An error says what differed.
pub fn compare(list: &List, rng: &mut Rng) -> Result<bool, String> {
    let (session, given) = written(list, rng)?;
    read(&session, list.setting, &given)
}

/// Calls our writers one after the other, each from where the last accepted one ended: the session's
/// bytes, and what was given to the accepted ones.
fn written(list: &List, rng: &mut Rng) -> Result<(Vec<u8>, Vec<Item>), String> {
    let mut out = Guarded::filled(list.room as usize, |_| rng.byte());
    let (mut at, mut given) = (0, vec![]);
    for (i, write) in list.writes.iter().enumerate() {
        if let Some(end) = call(&mut out, at, write).map_err(|what| format!("write {i}, {what}"))? {
            at = end;
            given.push((WRITERS[write.writer].given)(&write.case));
        }
    }
    Ok((out.output()[..at].to_vec(), given))
}

/// One write from a place: its end if it was accepted.
fn call(out: &mut Guarded, at: usize, write: &Write) -> Result<Option<usize>, String> {
    let Writer { name, put, .. } = &WRITERS[write.writer];
    let answer = out.write(at, |out, r| put(&write.case, out, at, r));
    match (&answer, write.outcome) {
        (Answer::Reached(_, end), Ok(expected)) if *end == expected => Ok(Some(*end as usize)),
        (Answer::Refused(number), Err(expected)) if *number == expected => Ok(None),
        (_, Ok(end)) => Err(format!("{name} must end at {end}: {answer}")),
        (_, Err(number)) => Err(format!("{name} must be refused with {number}: {answer}")),
    }
}

/// The Rust's reading must be what was given, and our walk the Rust's.
fn read(s: &[u8], Setting { mainnet, cap }: Setting, given: &[Item]) -> Result<bool, String> {
    let (items, ending) = rust::sessions::items(s, mainnet, cap);
    if let Some(i) = (0..items.len().max(given.len())).find(|i| items.get(*i) != given.get(*i)) {
        let [given, read] = [given.get(i), items.get(i)].map(|item| format!("{item:?}"));
        let count = items.len();
        let parted = parted(&given, &read);
        return Err(format!("item {i}, given and read: {parted}; {count} items, then {ending}"));
    }
    if ending != Value::Word("end") {
        return Err(format!("after {} items: {ending}", items.len()));
    }
    let expected = rust::sessions::walk(s, mainnet, cap);
    let ours = ours::sessions::walk(s, mainnet, cap as usize);
    if *expected.answer() != ours {
        let [expected, ours] = [expected.answer(), &ours].map(|walk| walk.to_string());
        return Err(format!("the walks, the Rust's and ours: {}", parted(&expected, &ours)));
    }
    Ok(expected.is_document())
}

/// Two texts from shortly before they part.
fn parted(one: &str, other: &str) -> String {
    let same = one.chars().zip(other.chars()).take_while(|(a, b)| a == b).count();
    let shown =
        |text: &str| -> String { text.chars().skip(same.saturating_sub(60)).take(160).collect() };
    format!("{} | {}", shown(one), shown(other))
}

/// Every refusal number of a writer.
const NUMBERS: [u8; 9] = [3, 4, 7, 10, 12, 13, 14, 15, 16];

/// What the lists of a run held.
#[derive(Default)]
pub struct Tally {
    /// Refusals before the handshake, and outputs that the last write filled.
    early: u64,
    full: u64,
    /// By writer: how many were accepted, and how many refused with each of `NUMBERS`.
    accepted: [u64; WRITERS.len()],
    refused: [[u64; NUMBERS.len()]; WRITERS.len()],
}

impl Tally {
    pub fn count(&mut self, list: &List) {
        let mut at = 0;
        for Write { writer, outcome, .. } in &list.writes {
            match outcome {
                Ok(end) => {
                    self.accepted[*writer] += 1;
                    at = *end;
                }
                Err(number) => {
                    let column =
                        NUMBERS.iter().position(|n| n == number).expect("a writer's number");
                    self.refused[*writer][column] += 1;
                    self.early += (at == 0) as u64;
                }
            }
        }
        self.full += (at == list.room) as u64;
    }

    /// The writers of which none was accepted, and the numbers with which none was refused.
    pub fn missing(&self) -> Vec<String> {
        let names = WRITERS.iter().zip(self.accepted).filter(|(_, n)| *n == 0);
        let numbers = NUMBERS.iter().enumerate().filter(|(i, _)| self.column(*i) == 0);
        let names = names.map(|(writer, _)| writer.name.to_string());
        names.chain(numbers.map(|(_, number)| number.to_string())).collect()
    }

    fn column(&self, i: usize) -> u64 {
        self.refused.iter().map(|row| row[i]).sum()
    }
}

impl fmt::Display for Tally {
    fn fmt(&self, f: &mut fmt::Formatter) -> fmt::Result {
        let accepted: u64 = self.accepted.iter().sum();
        let refused: u64 = self.refused.iter().flatten().sum();
        let writes = accepted + refused;
        writeln!(f, "{writes} writes: {accepted} accepted, {refused} refused")?;
        writeln!(f, "{} refused before the handshake", self.early)?;
        writeln!(f, "{} outputs full at the end", self.full)?;
        write!(f, "{:24}{:>9}", "", "accepted")?;
        NUMBERS.iter().try_for_each(|number| write!(f, "{number:>8}"))?;
        for (i, writer) in WRITERS.iter().enumerate() {
            write!(f, "\n{:24}{:>9}", writer.name, self.accepted[i])?;
            self.refused[i].iter().try_for_each(|n| write!(f, "{n:>8}"))?;
        }
        Ok(())
    }
}

#[cfg(test)]
mod tests {
    use super::*;
    use crate::cases::lists::list;

    /// A list with some accepted messages, its session and what was given.
    fn session() -> (List, Vec<u8>, Vec<Item>) {
        let mut rng = Rng::new(1, 0, 0);
        loop {
            let list = list(&mut rng, 1);
            let (session, given) = written(&list, &mut rng).expect("no difference");
            if given.len() > 3 {
                return (list, session, given);
            }
        }
    }

    #[test]
    fn a_session_reads_as_it_was_given_and_not_otherwise() {
        let (List { setting, .. }, session, mut given) = session();
        assert!(read(&session, setting, &given).is_ok());
        assert!(read(&session[..session.len() - 1], setting, &given).is_err());
        assert!(read(&[&session[..], &[0]].concat(), setting, &given).is_err());
        assert!(read(&session, setting, &given[1..]).is_err());
        assert!(read(&session, setting, &given[..given.len() - 1]).is_err());
        let Item::Handshake { timestamp, .. } = &mut given[0] else { panic!("no handshake") };
        *timestamp ^= 1;
        assert!(read(&session, setting, &given).is_err());
    }

    #[test]
    fn another_outcome_differs() {
        let (mut list, _, _) = session();
        for i in 0..list.writes.len() {
            let outcome = list.writes[i].outcome;
            list.writes[i].outcome = outcome.map(|end| end + 1).map_err(|number| number + 1);
            assert!(written(&list, &mut Rng::new(1, 0, 0)).is_err());
            list.writes[i].outcome = outcome;
        }
    }
}
