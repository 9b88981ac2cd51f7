//! The program `haspeljo`: reports on captures of Ergo peer sessions.

#![deny(unsafe_code)]

mod cli;
mod commands;
mod input;
mod names;
mod numbers;
mod output;
mod progress;
mod standard;
mod status;

use clap::Parser;
use cli::Cli;
use std::process::ExitCode;

fn main() -> ExitCode {
    let ended = commands::run(Cli::parse().command);
    ended.unwrap_or_else(|error| status::output_failed(&error)).into()
}
