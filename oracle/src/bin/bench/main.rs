//! Measures our functions against others in one run, and fails where ours passes a bound.

mod clock;
mod memory;
mod readings;
mod report;
mod rows;
mod through;
mod values;
mod writings;

use report::Report;
use rows::Row;
use std::hint::black_box;
use std::os::unix::process::CommandExt;
use std::process::{Command, ExitCode};
use std::{env, iter};

/// The median of so many samples counts.
const SAMPLES: usize = 7;

/// The rounds of a sample are taken in so many passes over all samples: what slows the machine for some seconds is in a
/// few rounds of each, and not in all rounds of one.
const PASSES: usize = 5;

/// The largest time per MiB of sessions may be so much of the smallest.
const GROWTH: f64 = 1.15;

/// What Cargo sets for the comparison (`.cargo/config.toml`).
const MALLOC: &str = "MALLOC_MMAP_THRESHOLD_";

fn main() -> ExitCode {
    if env::var_os(MALLOC).is_some() {
        return again();
    }
    let mut rows: Vec<Row> =
        [readings::rows(), writings::rows(), through::rows()].into_iter().flatten().collect();
    let mut beside = Report::new();
    let samples = samples(&mut rows, &mut beside);
    let mut above: Vec<String> =
        rows.iter().zip(&samples).flat_map(|(row, samples)| row.report(samples)).collect();
    above.extend(growth(&rows, &samples));
    above.extend(beside.print().err());
    above.extend(memory::resident().err());
    above.extend(memory::symbols().err());
    println!();
    for line in &above {
        println!("FAILED: {line}");
    }
    if above.is_empty() {
        println!("all within the bounds");
        ExitCode::SUCCESS
    } else {
        ExitCode::FAILURE
    }
}

/// Starts anew without the setting, under which the Rust would take its longer Vecs from the kernel
/// each time.
fn again() -> ExitCode {
    let program = env::current_exe().expect("the program's path");
    let error = Command::new(program).env_remove(MALLOC).exec();
    println!("the program does not start anew: {error}");
    ExitCode::FAILURE
}

/// Of each row its samples, each at another place of the stack: at some places a row is slower by a tenth.
fn samples(rows: &mut [Row], beside: &mut Report) -> Vec<Vec<Vec<f64>>> {
    let unmeasured = |row: &Row| vec![vec![f64::INFINITY; row.sides.len()]; SAMPLES];
    let mut samples: Vec<_> = rows.iter().map(unmeasured).collect();
    for _ in 0..PASSES {
        for turn in 0..SAMPLES {
            for (row, samples) in iter::zip(rows.iter_mut(), &mut samples) {
                deeper(turn, &mut || clock::lower(&mut samples[turn], row));
            }
        }
        beside.lower();
    }
    samples
}

/// Runs so many frames further down the stack.
#[inline(never)]
fn deeper(frames: usize, run: &mut dyn FnMut()) {
    let frame = black_box([0u8; 272]);
    if frames == 0 {
        run();
    } else {
        deeper(frames - 1, run);
    }
    black_box(frame);
}

/// Prints our time per MiB of the sessions of several lengths: what failed.
fn growth(rows: &[Row], samples: &[Vec<Vec<f64>>]) -> Option<String> {
    println!("time per MiB:");
    let mut times = vec![];
    for (row, samples) in rows.iter().zip(samples) {
        let Some(mib) = row.mib else { continue };
        let time = rows::time(samples, 0) / mib;
        println!("  {:<18} {time:8.3} ms", row.name);
        times.push(time);
    }
    let largest = times.iter().copied().fold(0.0, f64::max);
    let smallest = times.iter().copied().fold(f64::INFINITY, f64::min);
    let ratio = largest / smallest;
    println!("  largest to smallest {ratio:.2}, at most {GROWTH:.2}");
    (ratio > GROWTH).then(|| format!("time per MiB of sessions: largest to smallest {ratio:.2}"))
}
