//! A row: one piece of work, done by our side and by others.

use crate::clock::median;
use blake2::PORTABLE;
use std::sync::atomic::Ordering;

pub struct Side {
    pub name: &'static str,
    /// Our time may be at most so much of this side's.
    pub bound: Option<f64>,
    pub run: Box<dyn FnMut()>,
}

impl Side {
    pub fn new(name: &'static str, bound: Option<f64>, run: impl FnMut() + 'static) -> Side {
        Side { name, bound, run: Box::new(run) }
    }
}

pub struct Row {
    pub name: &'static str,
    /// How many MiB a round goes through, of sessions that must take the same time for each MiB.
    pub mib: Option<f64>,
    /// Ours first.
    pub sides: Vec<Side>,
}

/// Where the Rust allocates and neither side hashes, ours may take half of its time, but for the writing of a handshake.
pub const HALF: f64 = 0.5;

/// The first step of a session: a handshake that is read twice takes more.
pub const ONE_READING: f64 = 0.3;

/// Elsewhere, as much as the Rust.
pub const WHOLE: f64 = 1.0;

impl Row {
    pub fn new(name: &'static str, sides: Vec<Side>) -> Row {
        Row { name, mib: None, sides }
    }

    /// A row of the Rust that hashes nothing.
    pub fn plain(
        name: &'static str,
        bound: f64,
        ours: impl FnMut() + 'static,
        rust: impl FnMut() + 'static,
    ) -> Row {
        Row::new(
            name,
            vec![Side::new("ours", None, ours), Side::new("the Rust", Some(bound), rust)],
        )
    }

    /// A row of the Rust that hashes. The Rust's own hash crate is portable code and no package of Debian's; blake2-rfc
    /// stands for it and counts. The Rust over blake2b_simd, which has vector instructions, is timed beside it.
    pub fn hashing(
        name: &'static str,
        ours: impl FnMut() + 'static,
        rust: impl FnMut() + Clone + 'static,
    ) -> Row {
        let mut portable = rust.clone();
        let portable = move || {
            PORTABLE.store(true, Ordering::Relaxed);
            portable();
            PORTABLE.store(false, Ordering::Relaxed);
        };
        let ours = Side::new("ours", None, ours);
        let others = [
            Side::new("the Rust", Some(WHOLE), portable),
            Side::new("over blake2b_simd", None, rust),
        ];
        Row::new(name, [ours].into_iter().chain(others).collect())
    }

    /// The row with our side named so.
    pub fn named(mut self, ours: &'static str) -> Row {
        self.sides[0].name = ours;
        self
    }

    /// Prints the medians of the samples: what passed its bound.
    pub fn report(&self, samples: &[Vec<f64>]) -> Vec<String> {
        let mut above = vec![];
        println!("{}:", self.name);
        println!("  {:<18} {:8.3} ms", self.sides[0].name, time(samples, 0));
        for (i, side) in self.sides.iter().enumerate().skip(1) {
            let ratio = median(samples.iter().map(|sample| sample[0] / sample[i]).collect());
            let ratio = rounded(ratio);
            let mut line = format!("{} to it {ratio:.2}", self.sides[0].name);
            if let Some(bound) = side.bound {
                line += &format!(", at most {bound:.2}");
                if ratio > bound {
                    above.push(format!("{}, {}: {line}", self.name, side.name));
                    line += ": above";
                }
            }
            println!("  {:<18} {:8.3} ms, {line}", side.name, time(samples, i));
        }
        above
    }
}

/// To two decimals, as a ratio is held against its bound, so that equal code does not fail by the clock's noise.
pub fn rounded(ratio: f64) -> f64 {
    (ratio * 100.0).round() / 100.0
}

/// The median of a side's times.
pub fn time(samples: &[Vec<f64>], side: usize) -> f64 {
    median(samples.iter().map(|sample| sample[side]).collect())
}
