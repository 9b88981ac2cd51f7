//! Calls both sides on the cases of a kind and counts what they answer.

use crate::answer::{Answer, Expected, Value};
use crate::case::Case;
use crate::functions::Function;
use crate::rng::Rng;

/// A case on which our answer is not the one expected.
pub struct Difference {
    pub case: Case,
    pub expected: Expected,
    pub ours: Answer,
}

/// The counts of one kind of cases, or of several.
pub struct Tally {
    /// Our answer is the Rust's.
    pub agreed: u64,
    /// The Rust cannot say; our answer is document 01's.
    pub not_comparable: u64,
    pub differed: u64,
    /// Of those that differed, the one with the shortest input.
    pub smallest: Option<Difference>,
    /// How many cases were to be accepted, and how many of these with the answer true.
    pub accepted: u64,
    pub yes: u64,
    /// How many cases were to be refused with each number.
    pub refused: [u64; 256],
}

impl Default for Tally {
    fn default() -> Tally {
        Tally {
            agreed: 0,
            not_comparable: 0,
            differed: 0,
            smallest: None,
            accepted: 0,
            yes: 0,
            refused: [0; 256],
        }
    }
}

impl Tally {
    fn count(&mut self, case: &Case, expected: Expected, ours: Answer) {
        match expected.answer() {
            Answer::Refused(number) => self.refused[*number as usize] += 1,
            answer => {
                self.accepted += 1;
                self.yes += (*answer == Answer::Is(Value::Truth(true))) as u64;
            }
        }
        match &expected {
            Expected::Rust(answer) if *answer == ours => self.agreed += 1,
            Expected::Document(answer) if *answer == ours => self.not_comparable += 1,
            _ => {
                self.differed += 1;
                self.keep(Difference { case: case.clone(), expected, ours });
            }
        }
    }

    fn keep(&mut self, new: Difference) {
        if self.smallest.as_ref().is_none_or(|old| new.case.is_smaller(&old.case)) {
            self.smallest = Some(new);
        }
    }

    pub fn add(&mut self, other: Tally) {
        self.agreed += other.agreed;
        self.not_comparable += other.not_comparable;
        self.differed += other.differed;
        self.accepted += other.accepted;
        self.yes += other.yes;
        self.refused.iter_mut().zip(other.refused).for_each(|(sum, n)| *sum += n);
        if let Some(difference) = other.smallest {
            self.keep(difference);
        }
    }
}

/// Runs the kind of that index of a function.
pub fn run(f: &Function, kind: usize, seed: u64, scale: f64) -> Tally {
    let mut tally = Tally::default();
    let mut rng = Rng::new(seed, f.number, kind);
    f.kinds[kind].visit(&mut rng, scale, &mut |case| {
        tally.count(case, (f.expected)(case), (f.ours)(case));
    });
    tally
}

#[cfg(test)]
mod tests {
    use super::*;
    use crate::kinds::short;

    /// Says how long the bytes are, which the Rust side says of none or one byte only.
    fn length(case: &Case) -> Expected {
        let answer = Answer::Is(Value::Unsigned(case.bytes.len() as u64));
        if case.bytes.len() < 2 {
            Expected::Rust(answer)
        } else {
            Expected::Document(answer)
        }
    }

    fn compared(ours: fn(&Case) -> Answer) -> Tally {
        let f = Function {
            number: 0,
            name: "length",
            words: &[],
            told: &[],
            untold: &[],
            expected: length,
            ours,
            kinds: vec![short(2)],
        };
        run(&f, 0, 1, 1.0)
    }

    #[test]
    fn equal_answers_are_counted_by_who_gives_them() {
        let tally = compared(|case| length(case).answer().clone());
        assert_eq!((tally.agreed, tally.not_comparable, tally.differed), (257, 65536, 0));
        assert!(tally.smallest.is_none());
    }

    #[test]
    fn the_smallest_difference_is_kept() {
        let tally = compared(|case| match case.bytes[..] {
            [_, 7] | [9] | [8] => Answer::Refused(1),
            _ => length(case).answer().clone(),
        });
        assert_eq!((tally.agreed, tally.not_comparable, tally.differed), (255, 65280, 258));
        let smallest = tally.smallest.expect("a difference");
        assert_eq!(smallest.case.bytes, [8]);
        assert_eq!(smallest.ours, Answer::Refused(1));
    }
}
