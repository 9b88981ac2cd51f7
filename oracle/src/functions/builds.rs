//! Writers of handshakes.

use super::writers::writer;
use super::Function;
use crate::cases::tables;
use crate::ours::writers::on_case;
use crate::{ours, rust};

pub fn rows() -> Vec<Function> {
    vec![
        writer(
            36,
            "write_handshake",
            &["place", "room", "row", "timestamp"],
            &[3, 4, 12, 13, 14, 15, 16],
            rust::writers::write_handshake,
            |c| on_case(c, ours::builds::write_handshake),
            tables::entries,
        ),
        writer(
            37,
            "build",
            &[
                "place",
                "room",
                "mainnet",
                "light",
                "state",
                "verifying",
                "blocks",
                "major",
                "minor",
                "patch",
                "kind",
                "high",
                "low",
                "port",
                "timestamp",
                "session",
            ],
            &[4, 12, 13, 14, 16],
            rust::builds::build,
            |c| on_case(c, ours::builds::build),
            tables::builds,
        ),
    ]
}
