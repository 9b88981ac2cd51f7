//! Kinds of cases, and those that several functions share.

use crate::case::Case;
use crate::rng::Rng;
use std::ops::Range;

/// Takes the cases of a kind one by one.
pub type Visit<'a> = &'a mut dyn FnMut(&Case);

/// Appends bytes that a function takes whole, or that miss it narrowly.
pub type Input = fn(&mut Rng, &mut Vec<u8>);

/// Makes the case of a number.
type Nth = Box<dyn Fn(u64, &mut Case)>;

/// Makes one or several random cases.
type Make = Box<dyn Fn(&mut Rng, Visit)>;

pub enum Cases {
    /// Each of so many cases.
    Every(u64, Nth),
    /// About so many random cases.
    Random(u64, Make),
}

pub struct Kind {
    pub name: &'static str,
    pub cases: Cases,
}

/// The name of the kind that `Kind::edges` makes.
pub const EDGES: &str = "edges";

/// Lists up to this length are gone through whole at every scale.
const WHOLE: u64 = 100_000;

impl Kind {
    pub fn every(name: &'static str, total: u64, nth: impl Fn(u64, &mut Case) + 'static) -> Kind {
        Kind { name, cases: Cases::Every(total, Box::new(nth)) }
    }

    pub fn random(
        name: &'static str,
        count: u64,
        make: impl Fn(&mut Rng, Visit) + 'static,
    ) -> Kind {
        Kind { name, cases: Cases::Random(count, Box::new(make)) }
    }

    /// The boundaries of a function, one by one.
    pub fn edges(list: Vec<Case>) -> Kind {
        Kind::every(EDGES, list.len() as u64, move |i, case| case.clone_from(&list[i as usize]))
    }

    /// Goes through the cases. Below scale 1 a long list of every case is thinned out evenly.
    pub fn visit(&self, rng: &mut Rng, scale: f64, visit: Visit) {
        match &self.cases {
            Cases::Every(total, nth) => {
                let count = ((*total as f64 * scale) as u64).clamp(WHOLE.min(*total), *total);
                let mut case = Case::default();
                for i in 0..count {
                    nth((i as u128 * *total as u128 / count as u128) as u64, &mut case);
                    visit(&case);
                }
            }
            Cases::Random(count, make) => {
                let count = (*count as f64 * scale).ceil() as u64;
                let mut done = 0;
                while done < count {
                    make(rng, &mut |case| {
                        done += 1;
                        visit(case);
                    });
                }
            }
        }
    }

    /// One case of the kind.
    pub fn sample(&self, rng: &mut Rng) -> Case {
        match &self.cases {
            Cases::Every(total, nth) => {
                let mut case = Case::default();
                nth(rng.below(*total), &mut case);
                case
            }
            Cases::Random(_, make) => {
                let mut made = vec![];
                make(rng, &mut |case| made.push(case.clone()));
                made.swap_remove(rng.below(made.len() as u64) as usize)
            }
        }
    }
}

/// Each case of a kind several times, with each number of some as its number at `slot`.
pub fn with<const N: usize>(kind: Kind, slot: usize, numbers: fn(&Case) -> [u64; N]) -> Kind {
    let cases = match kind.cases {
        Cases::Every(total, nth) => {
            let each = move |i: u64, case: &mut Case| {
                nth(i / N as u64, case);
                case.words[slot] = numbers(case)[i as usize % N];
            };
            Cases::Every(total * N as u64, Box::new(each))
        }
        Cases::Random(count, make) => {
            let each = move |rng: &mut Rng, visit: Visit| {
                make(rng, &mut |case| {
                    let mut copy = case.clone();
                    for number in numbers(case) {
                        copy.words[slot] = number;
                        visit(&copy);
                    }
                })
            };
            Cases::Random(count, Box::new(each))
        }
    };
    Kind { name: kind.name, cases }
}

/// Each case of a kind, changed.
pub fn changed(kind: Kind, change: fn(&mut Case)) -> Kind {
    let cases = match kind.cases {
        Cases::Every(total, nth) => {
            let each = move |i: u64, case: &mut Case| {
                *case = Case::default();
                nth(i, case);
                change(case);
            };
            Cases::Every(total, Box::new(each))
        }
        Cases::Random(count, make) => {
            let each = move |rng: &mut Rng, visit: Visit| {
                make(rng, &mut |case| {
                    let mut copy = case.clone();
                    change(&mut copy);
                    visit(&copy);
                })
            };
            Cases::Random(count, Box::new(each))
        }
    };
    Kind { name: kind.name, cases }
}

/// Each case of a kind on both networks; mainnet is any number but 0.
pub fn networks(kind: Kind, slot: usize) -> Kind {
    with(kind, slot, |case| [0, [1, 1, 2, 255][case.bytes.len() % 4]])
}

/// Every input of at most `longest` bytes, at place 0.
pub fn short(longest: u32) -> Kind {
    let total = (0..=longest).map(|n| 256u64.pow(n)).sum();
    Kind::every("short", total, |i, case| {
        case.words[0] = 0;
        case.bytes.clear();
        let (mut rest, mut length) = (i, 0);
        while rest >= 256u64.pow(length) {
            rest -= 256u64.pow(length);
            length += 1;
        }
        case.bytes.extend_from_slice(&rest.to_be_bytes()[8 - length as usize..]);
    })
}

/// The kinds of a function that takes bytes alone.
pub fn of_bytes(longest: u32, count: u64, edges: Vec<Case>, input: Input) -> Vec<Kind> {
    shared(longest, count, edges, alone, input)
}

/// The kinds of a reader, which takes a place in bytes.
pub fn of_reader(longest: u32, count: u64, edges: Vec<Case>, input: Input) -> Vec<Kind> {
    let mut kinds = shared(longest, count, edges, surrounded, input);
    kinds.push(Kind::random("places", count / 4, move |rng, visit| {
        let (mut case, _) = surrounded(rng, input);
        for place in places(rng, case.bytes.len() as u64) {
            case.words[0] = place;
            visit(&case);
        }
    }));
    kinds
}

/// Makes a case of an input, with its place as the first number, and says where the input stands.
type Laid = fn(&mut Rng, Input) -> (Case, Range<usize>);

fn shared(longest: u32, count: u64, edges: Vec<Case>, laid: Laid, input: Input) -> Vec<Kind> {
    vec![
        Kind::edges(edges),
        short(longest),
        Kind::random("boundary", count, move |rng, visit| visit(&laid(rng, input).0)),
        Kind::random("damaged", count / 2, move |rng, visit| {
            let (case, range) = brief(rng, |rng| laid(rng, input), |(case, _)| case);
            damage(rng, &case, range, visit);
        }),
        Kind::random("random", count / 4, |rng, visit| {
            let mut case = Case::default();
            let length = rng.below(24);
            rng.append(&mut case.bytes, length);
            case.words[0] = rng.below(length + 1);
            visit(&case);
        }),
    ]
}

/// An input with nothing around it.
fn alone(rng: &mut Rng, input: Input) -> (Case, Range<usize>) {
    let mut case = Case::default();
    input(rng, &mut case.bytes);
    let end = case.bytes.len();
    (case, 0..end)
}

/// An input with bytes before and after it.
fn surrounded(rng: &mut Rng, input: Input) -> (Case, Range<usize>) {
    let mut case = Case::default();
    case.words[0] = rng.below(9);
    rng.append(&mut case.bytes, case.words[0]);
    input(rng, &mut case.bytes);
    let end = case.bytes.len();
    let after = rng.below(9);
    rng.append(&mut case.bytes, after);
    let start = case.place(0);
    (case, start..end)
}

/// Places for bytes of some length: inside, at the end, past it.
pub fn places(rng: &mut Rng, length: u64) -> [u64; 6] {
    let past = length + 2 + rng.below(100);
    [rng.below(length + 1), length, length + 1, past, past << 32, u64::MAX - rng.below(2)]
}

/// The longest case of which all damaged copies are made, so that many cases have some.
const BRIEF: usize = 400;

/// Makes one of the brief ones.
pub fn brief<T>(rng: &mut Rng, make: impl Fn(&mut Rng) -> T, case: impl Fn(&T) -> &Case) -> T {
    loop {
        let made = make(rng);
        if case(&made).bytes.len() <= BRIEF {
            return made;
        }
    }
}

/// Copies of a case with one thing wrong in a range of its bytes: cut at each byte, each byte
/// changed, a byte inserted at each place.
pub fn damage(rng: &mut Rng, case: &Case, range: Range<usize>, visit: Visit) {
    let mut copy = case.clone();
    for i in range.start..=range.end {
        copy.set(&case.words, &case.bytes[..i]);
        visit(&copy);
    }
    for i in range.clone() {
        copy.set(&case.words, &case.bytes);
        copy.bytes[i] ^=
            if rng.below(2) == 0 { 1 << rng.below(8) } else { 1 + rng.below(255) as u8 };
        visit(&copy);
    }
    for i in range.start..=range.end {
        copy.set(&case.words, &case.bytes);
        copy.bytes.insert(i, rng.byte());
        visit(&copy);
    }
}
