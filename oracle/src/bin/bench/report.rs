//! The program `haspeljo` on a session of 64 MiB, beside the library's walk over the same bytes.

use crate::values::{self, ENTRIES, MAINNET};
use crate::{clock, rows};
use oracle::ours;
use std::fs::{self, File};
use std::path::{Path, PathBuf};
use std::process::Command;
use std::{env, io, process};

/// Where Cargo puts the program unless `HASPELJO` says otherwise, seen from the oracle folder.
const DEFAULT: &str = "../cli/target/release/haspeljo";

/// The report may take so much of the walk's time.
const BOUND: f64 = 1.1;

pub struct Report {
    program: PathBuf,
    folder: PathBuf,
    session: Vec<u8>,
    /// The fastest times of the walk and of the program.
    fastest: io::Result<[f64; 2]>,
}

impl Report {
    pub fn new() -> Report {
        let path = env::var("HASPELJO").unwrap_or(DEFAULT.into());
        let program = Path::new(env!("CARGO_MANIFEST_DIR")).join(path);
        let folder = env::temp_dir().join(format!("haspeljo-bench-{}", process::id()));
        let session = values::session(64 << 20).bytes;
        let written =
            fs::create_dir_all(&folder).and_then(|()| fs::write(folder.join("capture"), &session));
        Report { program, folder, session, fastest: written.map(|()| [f64::INFINITY; 2]) }
    }

    /// Makes both times the fastest of themselves and a few rounds.
    pub fn lower(&mut self) {
        for _ in 0..clock::ROUNDS {
            let Ok([walk, report]) = self.fastest else { return };
            self.fastest = self.round().map(|round| [walk.min(round[0]), report.min(round[1])]);
        }
    }

    fn round(&self) -> io::Result<[f64; 2]> {
        let start = clock::thread();
        let items = ours::sessions::items(&self.session, MAINNET, ENTRIES);
        let walk = clock::thread() - start;
        let start = clock::children();
        let lines = self.lines()?;
        if lines != items + 1 {
            return Err(io::Error::other("its report has another number of lines"));
        }
        Ok([walk, clock::children() - start])
    }

    /// How many lines the program's report has.
    fn lines(&self) -> io::Result<u64> {
        let report = self.folder.join("report");
        let mut command = Command::new(&self.program);
        command.arg("report").arg(self.folder.join("capture")).stdout(File::create(&report)?);
        let status = command.status()?;
        if !status.success() {
            return Err(io::Error::other(format!("{status}")));
        }
        Ok(fs::read_to_string(report)?.lines().count() as u64)
    }

    /// Prints both times, or says what failed.
    pub fn print(&self) -> Result<(), String> {
        let times = self.fastest.as_ref();
        let [walk, report] =
            times.map_err(|e| format!("haspeljo at {}: {e}", self.program.display()))?;
        let ratio = rows::rounded(report / walk);
        println!("haspeljo report of a session of 64 MiB: {report:.3} ms");
        println!("  the walk alone {walk:.3} ms, the report to it {ratio:.2}, at most {BOUND:.2}");
        if ratio > BOUND {
            return Err(format!("haspeljo report: {ratio:.2} of the walk, at most {BOUND:.2}"));
        }
        Ok(())
    }
}

impl Drop for Report {
    fn drop(&mut self) {
        _ = fs::remove_dir_all(&self.folder);
    }
}
