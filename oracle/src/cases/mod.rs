//! Cases for each group of functions.

pub mod addresses;
pub mod entries;
pub mod fields;
pub mod frames;
pub mod hashes;
pub mod lists;
pub mod messages;
pub mod numbers;
pub mod parts;
pub mod sessions;
pub mod tables;
pub mod text;
pub mod writers;

use crate::case::{unhex, Case};

/// Cases at place 0, from their bytes in hex.
pub fn at_start(list: &[&str]) -> Vec<Case> {
    list.iter().map(|text| Case::new(&[0], &unhex(text).expect("hex"))).collect()
}
