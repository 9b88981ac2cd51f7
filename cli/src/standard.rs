//! Standard input and standard output.

use rustix::io::{poll, Errno, PollFd, PollFlags};
use std::fs::{self, File};
use std::io;
use std::os::fd::AsFd;
use std::sync::atomic::{AtomicBool, Ordering::Relaxed};
use std::time::Duration;

static INPUT_CLOSED: AtomicBool = AtomicBool::new(false);
static OUTPUT_CLOSED: AtomicBool = AtomicBool::new(false);

/// The Rust runtime opens a closed descriptor on /dev/null, before `main` begins: nothing would be read as a capture
/// without bytes, and reports would be lost. After that it is like one that was given on /dev/null, as by Python's
/// DEVNULL, so this looks before the runtime does.
// SAFETY: that section holds functions like this, which are called once. It asks the file system, and uses nothing that
// the runtime would have to set up.
#[used]
#[allow(unsafe_code)]
#[link_section = ".init_array"]
static LOOK: extern "C" fn() = look;

extern "C" fn look() {
    for (number, closed) in [(0, &INPUT_CLOSED), (1, &OUTPUT_CLOSED)] {
        let exists = |path: &str| fs::symlink_metadata(path).is_ok();
        let open = exists(&format!("/proc/self/fd/{number}"));
        // Where /proc is not there nothing is known.
        closed.store(!open && exists("/proc/self/fd"), Relaxed);
    }
}

pub fn input() -> io::Result<File> {
    own(io::stdin(), &INPUT_CLOSED)
}

pub fn output() -> io::Result<File> {
    own(io::stdout(), &OUTPUT_CLOSED)
}

fn own(standard: impl AsFd, closed: &AtomicBool) -> io::Result<File> {
    if closed.load(Relaxed) {
        return Err(Errno::BADF.into());
    }
    Ok(standard.as_fd().try_clone_to_owned()?.into())
}

/// Waits until a pipe has bytes or ends, or until some time is over. An error is that nobody reads standard output.
pub fn wait(pipe: Option<&File>, time: Option<Duration>) -> io::Result<()> {
    let time = time.map_or(-1, |time| time.as_millis() as i32);
    let output = io::stdout();
    let mut looked = vec![PollFd::new(&output, PollFlags::empty())];
    looked.extend(pipe.map(|pipe| PollFd::new(pipe, PollFlags::IN)));
    while let Err(error) = poll(&mut looked, time) {
        if error != Errno::INTR {
            return Err(error.into());
        }
    }
    if looked[0].revents().intersects(PollFlags::ERR | PollFlags::HUP) {
        return Err(io::ErrorKind::BrokenPipe.into());
    }
    Ok(())
}
