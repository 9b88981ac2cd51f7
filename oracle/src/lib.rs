//! The oracle: the ported Rust, unchanged, and our proved library in one process, and cases to
//! compare them on. `functions` is the table of everything that is compared.

pub mod answer;
pub mod case;
pub mod cases;
pub mod compare;
pub mod functions;
pub mod hashes;
pub mod kinds;
pub mod ours;
pub mod rng;
pub mod rust;
pub mod written;
