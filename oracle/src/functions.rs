//! The table of the functions that are compared: one row each, with its oracle, our function and
//! its cases. Rows stand in groups.

mod builds;
mod entries;
mod leaves;
mod messages;
mod sessions;
mod writers;

use crate::answer::{Answer, Expected};
use crate::case::Case;
use crate::kinds::Kind;

pub struct Function {
    /// Its number in a file of cases; numbers are never given anew.
    pub number: u8,
    pub name: &'static str,
    /// The arguments that are numbers, in order; an argument that is bytes comes after them.
    pub words: &'static [&'static str],
    /// The refusal numbers that the Rust can tell.
    pub told: &'static [u8],
    /// The refusal numbers that document 01 alone can tell.
    pub untold: &'static [u8],
    pub expected: fn(&Case) -> Expected,
    pub ours: fn(&Case) -> Answer,
    pub kinds: Vec<Kind>,
}

/// The rows of each group.
pub fn groups() -> Vec<(&'static str, Vec<Function>)> {
    vec![
        ("leaves", leaves::rows()),
        ("entries", entries::rows()),
        ("messages", messages::rows()),
        ("sessions", sessions::rows()),
        ("writers", writers::rows()),
        ("builds", builds::rows()),
    ]
}

pub fn table() -> Vec<Function> {
    groups().into_iter().flat_map(|(_, rows)| rows).collect()
}

/// The function of a name, or all of the group of a name.
pub fn named(name: &str) -> Vec<Function> {
    let mut rows = vec![];
    for (group, functions) in groups() {
        rows.extend(functions.into_iter().filter(|f| group == name || f.name == name));
    }
    rows
}

/// A function that refuses nothing.
fn total(
    number: u8,
    name: &'static str,
    words: &'static [&'static str],
    expected: fn(&Case) -> Expected,
    ours: fn(&Case) -> Answer,
    kinds: Vec<Kind>,
) -> Function {
    Function { number, name, words, told: &[], untold: &[], expected, ours, kinds }
}
