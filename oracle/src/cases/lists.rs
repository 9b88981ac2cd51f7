//! Lists of writes on one output: a handshake and messages of every kind, with writes that are refused
//! anywhere among them, and with room for all or for some.

use super::tables::{long_feature, long_payload, written};
use crate::case::Case;
use crate::rng::Rng;
use crate::rust::LIMIT;
use crate::written::{HANDSHAKES, WRITERS};
use std::ops::Range;

/// What a session is written for, and read with.
#[derive(Clone, Copy)]
pub struct Setting {
    pub mainnet: u8,
    pub cap: u64,
}

/// A list in which exactly one handshake is to be accepted, before any message is.
pub struct List {
    pub setting: Setting,
    /// The length of the output.
    pub room: u64,
    pub writes: Vec<Write>,
}

pub struct Write {
    /// The index of its writer.
    pub writer: usize,
    pub case: Case,
    /// Where it must end, or the number of its refusal.
    pub outcome: Outcome,
}

pub type Outcome = Result<u64, u8>;

/// Every so many lists there is a write of more than 16 MB.
const LONG: u64 = 2_500;

pub fn list(rng: &mut Rng, index: u64) -> List {
    let mainnet = rng.pick(&[0, 0, 0, 1, 1, 2, 255]);
    let setting = Setting { mainnet, cap: rng.pick(&[64, 64, 64, 4, 2, 0]) };
    let mut writes = candidates(rng, setting);
    if index.is_multiple_of(LONG) {
        let place = rng.below(writes.len() as u64 + 1) as usize;
        writes.insert(place, long(index / LONG, setting));
    }
    loop {
        let room = room(rng, &writes);
        let outcomes = outcomes(&writes, room);
        if accepted(&outcomes).next().is_some() {
            let writes = writes.into_iter().zip(outcomes);
            let kept =
                writes.filter_map(|(write, outcome)| Some(Write { outcome: outcome?, ..write }));
            return List { setting, room, writes: kept.collect() };
        }
    }
}

/// Writes of which some handshake is refused at most for want of room. The outcome of each is that
/// from place 0 of an output with room.
fn candidates(rng: &mut Rng, setting: Setting) -> Vec<Write> {
    let mut writes: Vec<Write> =
        (0..rng.below(3)).map(|_| any(rng, setting, 0..WRITERS.len())).collect();
    loop {
        writes.push(any(rng, setting, HANDSHAKES));
        if writes.last().is_some_and(|handshake| handshake.outcome.is_ok()) {
            break;
        }
    }
    writes.extend((0..rng.below(16)).map(|_| any(rng, setting, 0..WRITERS.len())));
    writes
}

/// A write by one of these writers.
fn any(rng: &mut Rng, setting: Setting, writers: Range<usize>) -> Write {
    let writer = writers.start + rng.below(writers.len() as u64) as usize;
    alone(writer, (WRITERS[writer].make)(rng, setting))
}

fn alone(writer: usize, case: Case) -> Write {
    let outcome = written(WRITERS[writer].expected, &case);
    Write { writer, case, outcome }
}

/// A write of more than 16 MB: of refusal 3 or 7, or accepted where there is room.
fn long(number: u64, Setting { mainnet, cap }: Setting) -> Write {
    let mainnet = mainnet.into();
    let body = |length| vec![b'a'; length as usize];
    let (name, numbers, bytes) = match number % 5 {
        0 => ("write_modifier_response", [mainnet, 7], long_payload(LIMIT + 1, 1)),
        1 => ("write_sync_info", [mainnet, 0], body(LIMIT + 1)),
        2 => ("write_handshake", [0, 300], long_feature(LIMIT + 1)),
        3 => ("write_peers", [mainnet, cap], long_feature(LIMIT)),
        _ => ("write_unknown", [mainnet, 77], body(LIMIT)),
    };
    let writer = WRITERS.iter().position(|writer| writer.name == name).expect("a writer");
    alone(writer, Case::new(&[0, 0, numbers[0], numbers[1]], &bytes))
}

/// What becomes of each write in an output of so many bytes; none of one that has no place in the
/// list, a message that would be accepted before the handshake or a second handshake.
fn outcomes(writes: &[Write], room: u64) -> Vec<Option<Outcome>> {
    let mut at = 0;
    let outcome = |write: &Write| match write.outcome {
        Ok(length) if length > room - at => Some(Err(14)),
        Ok(_) if HANDSHAKES.contains(&write.writer) != (at == 0) => None,
        Ok(length) => {
            at += length;
            Some(Ok(at))
        }
        Err(number) => Some(Err(number)),
    };
    writes.iter().map(outcome).collect()
}

/// The end of each accepted write.
fn accepted(outcomes: &[Option<Outcome>]) -> impl Iterator<Item = u64> + '_ {
    outcomes.iter().flatten().filter_map(|outcome| outcome.ok())
}

/// The length of an output: with room for all that the list may write, just enough, or less.
fn room(rng: &mut Rng, writes: &[Write]) -> u64 {
    let ends: Vec<u64> = accepted(&outcomes(writes, u64::MAX)).collect();
    let lengths: Vec<u64> = writes.iter().filter_map(|write| write.outcome.ok()).collect();
    let all = ends[ends.len() - 1];
    match rng.below(8) {
        0 => all + rng.below(2000),
        1 => all + rng.below(40),
        2 | 3 => all,
        4 => rng.pick(&ends),
        5 => rng.pick(&ends) + rng.below(30),
        6 => rng.pick(&lengths) + rng.below(3),
        _ => rng.below(all),
    }
}

#[cfg(test)]
mod tests {
    use super::*;

    #[test]
    fn one_handshake_is_accepted_and_before_any_message() {
        let mut rng = Rng::new(1, 0, 0);
        for _ in 0..2000 {
            let list = list(&mut rng, 1);
            let accepted = list.writes.iter().filter(|write| write.outcome.is_ok());
            let handshakes: Vec<bool> =
                accepted.map(|write| HANDSHAKES.contains(&write.writer)).collect();
            assert!(handshakes[0] && !handshakes[1..].contains(&true));
        }
    }
}
