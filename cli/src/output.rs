//! Standard output, on which the reports of several captures stand in the order of the captures, whichever ends first.
//!
//! The captures are numbered from 0 in the order in which they are taken up. The first that is not done writes through.
//! The others keep their lines until their turn comes: each has some room of its own and takes more from a common room,
//! and waits where that is used up. Where nothing can be written any more the program ends at once.

use crate::progress::Progress;
use crate::standard;
use crate::status::{output_failed, say};
use std::collections::BTreeMap;
use std::fs::File;
use std::io::{self, BufWriter, IsTerminal, Write};
use std::mem::take;
use std::process::exit;
use std::sync::{Condvar, Mutex, MutexGuard};
use std::thread::panicking;

/// About so many bytes are written at once.
const BLOCK: usize = 64 << 10;

/// A report's own room, and what it takes from the common room at once.
const OWN: usize = 1 << 20;

/// The common room.
const COMMON: usize = 64 << 20;

/// What a report that is done takes beside its lines.
const DONE: usize = 256;

const NO_PANIC: &str = "no report has panicked";

pub struct Turns<'a> {
    progress: &'a Progress,
    /// Whether somebody may look at the lines as they come.
    terminal: bool,
    state: Mutex<State>,
    changed: Condvar,
}

struct State {
    out: BufWriter<File>,
    /// The first report that is not done.
    turn: usize,
    /// Later ones that are.
    done: BTreeMap<usize, Done>,
    /// How much of the common room is taken.
    taken: usize,
    /// How many reports wait.
    waiting: usize,
    /// Whether a report was never closed.
    panicked: bool,
}

/// The last lines of a report, and a line for standard error.
struct Done {
    lines: Vec<u8>,
    complaint: Option<String>,
}

impl Done {
    fn size(&self) -> usize {
        DONE + self.lines.capacity()
    }
}

impl<'a> Turns<'a> {
    pub fn new(progress: &'a Progress) -> io::Result<Turns<'a>> {
        let out = standard::output()?;
        let terminal = out.is_terminal();
        let state = State {
            out: BufWriter::with_capacity(BLOCK, out),
            turn: 0,
            done: BTreeMap::new(),
            taken: 0,
            waiting: 0,
            panicked: false,
        };
        Ok(Turns { progress, terminal, state: Mutex::new(state), changed: Condvar::new() })
    }

    /// Where the report of a number goes. It must be closed: the later ones wait for that.
    pub fn report(&self, number: usize) -> Output<'_> {
        Output { turns: self, number, lines: vec![], mine: number == 0, taken: 0 }
    }

    /// Waits until a condition holds.
    fn wait(&self, ready: impl Fn(&State) -> bool) -> MutexGuard<'_, State> {
        let mut state = self.lock();
        let waiting = |state: &mut State| !state.panicked && !ready(state);
        state.waiting += 1;
        let mut state = self.changed.wait_while(state, waiting).expect(NO_PANIC);
        state.waiting -= 1;
        assert!(!state.panicked, "another report has panicked");
        state
    }

    fn lock(&self) -> MutexGuard<'_, State> {
        self.state.lock().expect(NO_PANIC)
    }

    /// Changes the state, and tells those who wait.
    fn change(
        &self,
        mut state: MutexGuard<'_, State>,
        change: impl FnOnce(&mut State) -> io::Result<()>,
    ) {
        change(&mut state).unwrap_or_else(|error| self.fail(&error));
        if state.waiting > 0 {
            self.changed.notify_all();
        }
    }

    /// Ends the program, whatever its other threads wait for.
    fn fail(&self, error: &io::Error) -> ! {
        self.progress.clear();
        exit(output_failed(error) as i32)
    }
}

impl State {
    /// Writes the reports that are done, up to one that is not.
    fn write_done(&mut self, progress: &Progress) -> io::Result<()> {
        while let Some(done) = self.done.remove(&self.turn) {
            self.turn += 1;
            self.taken -= done.size();
            self.out.write_all(&done.lines)?;
            if let Some(line) = done.complaint {
                self.out.flush()?;
                progress.aside(|| say(line));
            }
        }
        self.out.flush()
    }
}

/// Where one report goes.
pub struct Output<'a> {
    turns: &'a Turns<'a>,
    number: usize,
    lines: Vec<u8>,
    /// Whether its turn is known to have come.
    mine: bool,
    /// What it has taken of the common room.
    taken: usize,
}

impl Output<'_> {
    /// The lines that are not yet written, to which others are appended. `settle` comes after it.
    pub fn lines(&mut self) -> &mut Vec<u8> {
        &mut self.lines
    }

    /// Writes the lines, or takes more room for them, where there are many. A terminal gets them at once.
    pub fn settle(&mut self) {
        if self.turns.terminal && self.turns.lock().turn == self.number {
            self.flush();
        } else if self.lines.len() >= if self.mine { BLOCK } else { OWN + self.taken } {
            self.make_room();
        }
    }

    /// Ends the report, with a line for standard error if there is one.
    pub fn close(mut self, complaint: Option<String>) {
        let done = Done { lines: take(&mut self.lines), complaint };
        let (turns, number, taken, size) = (self.turns, self.number, self.taken, done.size());
        let fits = |state: &State| state.turn == number || state.taken - taken + size <= COMMON;
        turns.change(turns.wait(fits), |state| {
            state.taken = state.taken - taken + size;
            state.done.insert(number, done);
            state.write_done(turns.progress)
        });
    }

    /// Ends the program, since nothing can be written any more.
    pub fn fail(&self, error: &io::Error) -> ! {
        self.turns.fail(error)
    }

    /// Writes the lines once the turn has come.
    pub fn flush(&mut self) {
        let (number, taken) = (self.number, take(&mut self.taken));
        self.mine = true;
        let state = self.turns.wait(|state| state.turn == number);
        self.turns.change(state, |state| {
            state.taken -= taken;
            state.out.write_all(&self.lines)?;
            state.out.flush()
        });
        self.lines.clear();
    }

    /// Makes room for more lines, by writing those that are there if the turn has come.
    fn make_room(&mut self) {
        let number = self.number;
        let ready = |state: &State| state.turn == number || state.taken + OWN <= COMMON;
        let mut state = self.turns.wait(ready);
        if state.turn == number {
            drop(state);
            return self.flush();
        }
        state.taken += OWN;
        self.taken += OWN;
    }
}

/// A report that panics is never closed: those who wait for it must not.
impl Drop for Output<'_> {
    fn drop(&mut self) {
        if let (true, Ok(mut state)) = (panicking(), self.turns.state.lock()) {
            state.panicked = true;
            self.turns.changed.notify_all();
        }
    }
}

#[cfg(test)]
mod tests {
    use super::*;
    use std::thread;

    #[test]
    fn nobody_waits_for_a_report_that_panics() {
        let progress = Progress::none();
        let turns = Turns::new(&progress).unwrap();
        thread::scope(|scope| {
            let later = scope.spawn(|| turns.report(1).flush());
            let first = scope.spawn(|| {
                let _report = turns.report(0);
                panic!("as a test asks");
            });
            assert!(first.join().is_err());
            assert!(later.join().is_err());
        });
    }
}
