//! The command line. The help, the manual pages and the completions are made from these definitions and those of each
//! command's arguments.

use crate::commands::{completions, report};
use clap::{Parser, Subcommand};

/// Reads captures of Ergo peer sessions and reports on them.
///
/// A capture holds the raw bytes that a peer sent in one session: a handshake, then messages.
#[derive(Parser)]
#[command(name = "haspeljo", version, arg_required_else_help = true, max_term_width = 100)]
pub struct Cli {
    #[command(subcommand)]
    pub command: Command,
}

#[derive(Subcommand)]
pub enum Command {
    Report(report::Arguments),
    Completions(completions::Arguments),
}
