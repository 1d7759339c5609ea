//! How far long work has come, on standard error where that is a terminal.

use std::fs;
use std::io::{self, Write};
use std::os::unix::fs::{FileTypeExt, MetadataExt};
use std::time::{Duration, Instant};

/// Work that is done sooner shows nothing.
const QUIET: Duration = Duration::from_secs(1);

/// The line is not written more often than this.
const PAUSE: Duration = Duration::from_millis(200);

/// One piece of work; its line is wiped when this is dropped.
pub struct Progress {
    what: String,
    total: u64,
    done: u64,
    next: Option<Instant>,
    shown: bool,
}

impl Progress {
    /// Work on so many bytes, or on 0 where their number is not known.
    pub fn new(what: String, total: u64) -> Progress {
        let terminal = is_terminal("/dev/stderr");
        Progress {
            what,
            total,
            done: 0,
            next: terminal.then(|| Instant::now() + QUIET),
            shown: false,
        }
    }

    /// The same for work that prints as it goes: on a terminal what it prints shows how far it has come, and a line between would be in its way.
    pub fn of_printing(what: String, total: u64) -> Progress {
        let mut progress = Progress::new(what, total);
        if is_terminal("/dev/stdout") {
            progress.next = None;
        }
        progress
    }

    /// So many bytes more are done.
    pub fn add(&mut self, bytes: usize) {
        self.done += bytes as u64;
        let now = Instant::now();
        if self.next.map_or(false, |next| next <= now) {
            self.next = Some(now + PAUSE);
            self.shown = true;
            let _ = write!(io::stderr(), "\rhods: {}: {}\x1b[K", self.what, self.part());
        }
    }

    /// Wipes the line, in front of a message or at the end.
    pub fn wipe(&mut self) {
        if self.shown {
            self.shown = false;
            let _ = write!(io::stderr(), "\r\x1b[K");
        }
    }

    fn part(&self) -> String {
        match self.total {
            0 => format!("{} MB", self.done / 1_000_000),
            total => format!("{} %", u128::from(self.done) * 100 / u128::from(total)),
        }
    }
}

impl Drop for Progress {
    fn drop(&mut self) {
        self.wipe();
    }
}

/// Whether a file is a terminal: a character device other than /dev/null. The standard library can tell only from Rust 1.70 on.
fn is_terminal(path: &str) -> bool {
    let device = |path| {
        let about = fs::metadata(path).ok()?;
        about.file_type().is_char_device().then(|| about.rdev())
    };
    device(path).map_or(false, |found| Some(found) != device("/dev/null"))
}
