//! The walk over a capture.

use super::args::Arguments;
use super::lines::Lines;
use crate::input::Input;
use crate::progress::Progress;
use crate::status::Status;
use haspeljo::{Ending, Session};
use std::io;

/// A file is mapped anew after so many bytes. So it keeps little memory, however long it is.
const STRETCH: usize = 16 << 20;

/// Prints the items of a session and how it ends; of one that may grow, once no later byte can change that.
pub fn walk(
    input: &mut Input,
    lines: &mut Lines,
    arguments: &Arguments,
    progress: &Progress,
) -> io::Result<Status> {
    let mut place = 0;
    loop {
        let (next, ending) = stretch(input.bytes(), place, lines, arguments);
        progress.add_bytes(next - place);
        place = next;
        let Some(ending) = ending else {
            input.renew()?;
            continue;
        };
        if may_go_on(&ending) && grow(input, lines, arguments.follow)? {
            continue;
        }
        lines.ending(&ending, input.bytes().len());
        return Ok(status(&ending));
    }
}

/// Waits for more bytes: whether there may be some. What is followed has its lines written before.
fn grow(input: &mut Input, lines: &mut Lines, follow: bool) -> io::Result<bool> {
    if follow {
        lines.out.flush();
    } else if !input.is_pipe() {
        return Ok(false);
    }
    input.wait().unwrap_or_else(|error| lines.out.fail(&error));
    input.grow()
}

/// Prints the items from a place on, a stretch of them: where it stands then, and how the session ends if it does.
fn stretch(
    bytes: &[u8],
    place: usize,
    lines: &mut Lines,
    arguments: &Arguments,
) -> (usize, Option<Ending>) {
    let mut session = Session::resume(bytes, arguments.network, arguments.cap, place)
        .expect("a place inside, since no bytes were lost");
    while session.place() - place < STRETCH {
        let ending = match session.next() {
            Some(Ok(item)) => {
                lines.item(&item);
                continue;
            }
            Some(Err(stop)) => Ending::Stopped(stop),
            None => Ending::Clean,
        };
        return (session.place(), Some(ending));
    }
    (session.place(), None)
}

/// Whether bytes that are still to come may change the ending.
fn may_go_on(ending: &Ending) -> bool {
    matches!(status(ending), Status::Clean | Status::Cut)
}

fn status(ending: &Ending) -> Status {
    match ending {
        Ending::Clean => Status::Clean,
        Ending::Stopped(stop) if stop.is_cut() => Status::Cut,
        Ending::Stopped(_) => Status::Stopped,
    }
}
