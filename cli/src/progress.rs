//! A progress bar on standard error, for what takes longer than a moment.

use indicatif::{ProgressBar, ProgressDrawTarget, ProgressStyle};
use std::io::{self, IsTerminal};
use std::sync::atomic::{AtomicUsize, Ordering};
use std::sync::Once;
use std::time::{Duration, Instant};

/// What takes no longer has no bar.
const MOMENT: Duration = Duration::from_secs(1);

const OF_ALL: &str = "{bytes} of {total_bytes} [{wide_bar}] {bytes_per_sec}, {eta} left{msg}";
const SO_FAR: &str = "{bytes}, {bytes_per_sec}{msg}";

/// None where nobody would see it.
pub struct Progress(Option<Bar>);

struct Bar {
    bar: ProgressBar,
    begun: Instant,
    shown: Once,
    files: AtomicUsize,
}

impl Progress {
    /// A bar of so many bytes, if that is known. Where the report itself goes to a terminal it shows how far it is, and
    /// a bar would stand between its lines.
    pub fn new(total: impl FnOnce() -> Option<u64>) -> Progress {
        let seen = io::stderr().is_terminal() && !io::stdout().is_terminal();
        Progress(seen.then(|| Bar::new(total())))
    }

    pub fn none() -> Progress {
        Progress(None)
    }

    pub fn add_bytes(&self, bytes: usize) {
        let Progress(Some(bar)) = self else { return };
        bar.bar.inc(bytes as u64);
        bar.show();
    }

    pub fn add_file(&self) {
        let Progress(Some(bar)) = self else { return };
        let files = bar.files.fetch_add(1, Ordering::Relaxed) + 1;
        bar.bar.set_message(format!(", {files} done"));
        bar.show();
    }

    /// Writes something else to standard error.
    pub fn aside(&self, write: impl FnOnce()) {
        match self {
            Progress(Some(bar)) => bar.bar.suspend(write),
            Progress(None) => write(),
        }
    }

    pub fn clear(&self) {
        let Progress(Some(bar)) = self else { return };
        bar.bar.finish_and_clear();
    }
}

impl Bar {
    fn new(total: Option<u64>) -> Bar {
        let (length, template) = total.map_or((0, SO_FAR), |total| (total, OF_ALL));
        let bar = ProgressBar::with_draw_target(Some(length), ProgressDrawTarget::hidden());
        bar.set_style(ProgressStyle::with_template(template).expect("a template"));
        Bar { bar, begun: Instant::now(), shown: Once::new(), files: AtomicUsize::new(0) }
    }

    fn show(&self) {
        if !self.shown.is_completed() && self.begun.elapsed() >= MOMENT {
            self.shown.call_once(|| self.bar.set_draw_target(ProgressDrawTarget::stderr()));
        }
    }
}
