//! `haspeljo completions`.

use crate::cli::Cli;
use crate::standard;
use crate::status::Status;
use clap::{Args, CommandFactory};
use clap_complete::{generate, Shell};
use std::io::{self, Write};

/// Prints a shell's completions for this program.
#[derive(Args)]
pub struct Arguments {
    /// The shell.
    shell: Shell,
}

pub fn run(arguments: &Arguments) -> io::Result<Status> {
    let mut script = vec![];
    generate(arguments.shell, &mut Cli::command(), "haspeljo", &mut script);
    standard::output()?.write_all(&script)?;
    Ok(Status::Clean)
}
