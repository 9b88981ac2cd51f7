//! Writers of single values, entries and whole frames.

use super::Function;
use crate::answer::Answer;
use crate::case::Case;
use crate::cases::tables::{self, Writer};
use crate::cases::writers;
use crate::kinds::Kind;
use crate::ours::writers::on_case;
use crate::{ours, rust};

pub fn rows() -> Vec<Function> {
    let mut rows = of_values();
    rows.extend(of_tables());
    rows
}

fn of_values() -> Vec<Function> {
    vec![
        Function {
            number: 6,
            name: "write_vlq",
            words: &["place", "room", "value"],
            told: &[],
            untold: &[12, 14],
            expected: |c| rust::write_vlq(c.word(1), c.word(0), c.word(2)),
            ours: |c| ours::write_vlq(c.place(1), c.place(0), c.word(2)),
            kinds: writers::vlq(),
        },
        Function {
            number: 7,
            name: "write_short_string",
            words: &["place", "room"],
            told: &[],
            untold: &[4, 12, 13, 14],
            expected: |c| rust::write_short_string(c.word(1), c.word(0), &c.bytes),
            ours: |c| ours::write_short_string(c.place(1), c.place(0), &c.bytes),
            kinds: writers::short_string(),
        },
        Function {
            number: 8,
            name: "write_part",
            words: &["place", "room"],
            told: &[],
            untold: &[12, 14],
            expected: |c| rust::write_part(c.word(1), c.word(0), &c.bytes),
            ours: |c| ours::write_part(c.place(1), c.place(0), &c.bytes),
            kinds: writers::part(),
        },
    ]
}

fn of_tables() -> Vec<Function> {
    vec![
        writer(
            35,
            "write_entry",
            &["place", "room", "row"],
            &[3, 4, 12, 13, 14, 15, 16],
            rust::writers::write_entry,
            |c| on_case(c, ours::writers::write_entry),
            tables::entries,
        ),
        writer(
            38,
            "encode",
            &["place", "room", "mainnet", "code"],
            &[7, 12, 14],
            rust::writers::encode,
            |c| on_case(c, ours::writers::encode),
            tables::bodies,
        ),
        writer(
            39,
            "write_get_peers",
            &["place", "room", "mainnet"],
            &[12, 14],
            rust::writers::write_get_peers,
            |c| on_case(c, ours::writers::write_get_peers),
            tables::bodies,
        ),
        writer(
            40,
            "write_peers",
            &["place", "room", "mainnet", "cap"],
            &[3, 4, 7, 10, 12, 13, 14, 15, 16],
            rust::writers::write_peers,
            |c| on_case(c, ours::writers::write_peers),
            tables::peers,
        ),
        writer(
            41,
            "write_modifier_request",
            &["place", "room", "mainnet", "type"],
            &[10, 12, 14],
            rust::writers::write_modifier_request,
            |c| on_case(c, ours::writers::write_modifier_request),
            tables::ids,
        ),
        writer(
            42,
            "write_modifier_response",
            &["place", "room", "mainnet", "type"],
            &[3, 7, 10, 12, 14, 16],
            rust::writers::write_modifier_response,
            |c| on_case(c, ours::writers::write_modifier_response),
            tables::payloads,
        ),
        writer(
            43,
            "write_inv",
            &["place", "room", "mainnet", "type"],
            &[10, 12, 14],
            rust::writers::write_inv,
            |c| on_case(c, ours::writers::write_inv),
            tables::ids,
        ),
        writer(
            44,
            "write_sync_info",
            &["place", "room", "mainnet"],
            &[7, 12, 14],
            rust::writers::write_sync_info,
            |c| on_case(c, ours::writers::write_sync_info),
            tables::bodies,
        ),
        writer(
            45,
            "write_unknown",
            &["place", "room", "mainnet", "code"],
            &[7, 12, 14, 15],
            rust::writers::write_unknown,
            |c| on_case(c, ours::writers::write_unknown),
            tables::bodies,
        ),
    ]
}

/// A writer: the Rust refuses nothing.
pub fn writer(
    number: u8,
    name: &'static str,
    words: &'static [&'static str],
    untold: &'static [u8],
    expected: Writer,
    ours: fn(&Case) -> Answer,
    kinds: fn(u64, Writer) -> Vec<Kind>,
) -> Function {
    let kinds = kinds(1_000_000, expected);
    Function { number, name, words, told: &[], untold, expected, ours, kinds }
}
