//! The commands: a file or a folder for each, with its arguments and what it does.

pub mod completions;
pub mod report;

use crate::cli::Command;
use crate::status::Status;
use std::io;

/// Does what a command asks. An error is one of standard output.
pub fn run(command: Command) -> io::Result<Status> {
    match command {
        Command::Report(arguments) => report::run(&arguments),
        Command::Completions(arguments) => completions::run(&arguments),
    }
}
