//! `haspeljo report`.

mod args;
mod help;
mod json;
mod lines;
mod plain;
mod walk;

pub use args::Arguments;

use crate::input::Input;
use crate::names::{listed, Name, Unread};
use crate::output::{Output, Turns};
use crate::progress::Progress;
use crate::status::{complain, complaint, reason, Status};
use args::Captures;
use lines::Lines;
use rayon::iter::{ParallelBridge, ParallelIterator};
use std::io;
use walk::walk;

/// An error is one of standard output.
pub fn run(arguments: &Arguments) -> io::Result<Status> {
    let captures = arguments.captures();
    let progress =
        if arguments.follow { Progress::none() } else { Progress::new(|| captures.length()) };
    let turns = Turns::new(&progress)?;
    let names = !matches!(captures, Captures::One(_));
    let reports = Reports { arguments, turns: &turns, progress: &progress, names };
    let status = match captures {
        Captures::One(name) => reports.one(0, Ok(name)),
        Captures::Several(files) => reports.all(files.iter().map(|file| Ok(Name::of(file)))),
        Captures::Listed(list, delimiter) => match listed(list, delimiter) {
            Ok(names) => reports.all(names),
            Err(error) => complain(Name::of(list.as_os_str()), &error),
        },
    };
    progress.clear();
    Ok(status)
}

/// The reports of a run.
struct Reports<'a> {
    arguments: &'a Arguments,
    turns: &'a Turns<'a>,
    progress: &'a Progress,
    /// Whether the captures' names are shown.
    names: bool,
}

impl Reports<'_> {
    /// Of all captures, one on each core at a time. They are taken up in their order, so that the one whose turn it is
    /// to be written is always at work, and no other waits for ever.
    fn all(&self, names: impl Iterator<Item = Result<Name, Unread>> + Send) -> Status {
        names
            .enumerate()
            .par_bridge()
            .map(|(number, name)| self.one(number, name))
            .reduce(|| Status::Clean, Status::max)
    }

    /// Of one capture, or of the list in place of one that it should have named.
    fn one(&self, number: usize, name: Result<Name, Unread>) -> Status {
        let mut out = self.turns.report(number);
        let (status, complaint) = match name {
            Ok(name) => self.capture(&name, &mut out),
            Err(Unread { list, error }) => (Status::Unread, Some(complaint(list, &error))),
        };
        self.progress.add_file();
        out.close(complaint);
        status
    }

    /// Of one capture, with a line for standard error where it cannot be read.
    fn capture(&self, name: &Name, out: &mut Output) -> (Status, Option<String>) {
        let mut lines = Lines::new(self.arguments, name.as_os_str(), out);
        match self.report(name, &mut lines) {
            Ok(status) => (status, None),
            Err(error) => {
                lines.unread(&reason(&error));
                (Status::Unread, Some(complaint(name, &error)))
            }
        }
    }

    fn report(&self, name: &Name, lines: &mut Lines) -> io::Result<Status> {
        let mut input = Input::new(name.open()?, self.arguments.follow)?;
        if self.names {
            lines.name(name.as_os_str());
        }
        walk(&mut input, lines, self.arguments, self.progress)
    }
}
