//! Streams in turn, as many at a time as there are cores, and the progress on standard error.

use std::ffi::{OsStr, OsString};
use std::io::{self, IsTerminal, Write};
use std::sync::atomic::{AtomicUsize, Ordering};
use std::sync::{Mutex, PoisonError};
use std::thread;

/// What came of each name, in their order. Every worker has a number of its own.
pub fn take<T: Send>(
    names: &[OsString],
    work: impl Fn(usize, &OsStr) -> Result<T, String> + Sync,
) -> Vec<Result<T, String>> {
    let cores = thread::available_parallelism().map_or(1, usize::from);
    let next = AtomicUsize::new(0);
    let progress = Progress::new(names.len());
    let found = Mutex::new(Vec::with_capacity(names.len()));
    let lock = || found.lock().unwrap_or_else(PoisonError::into_inner);
    thread::scope(|scope| {
        for worker in 0..cores.min(names.len()) {
            let (work, next, progress, lock) = (&work, &next, &progress, &lock);
            scope.spawn(move || {
                loop {
                    let place = next.fetch_add(1, Ordering::Relaxed);
                    let Some(name) = names.get(place) else { break };
                    let came = work(worker, name);
                    let mut found = lock();
                    found.push((place, came));
                    progress.tell(found.len(), name);
                }
            });
        }
    });
    progress.end();
    let mut found = found.into_inner().unwrap_or_else(PoisonError::into_inner);
    found.sort_by_key(|(place, _)| *place);
    found.into_iter().map(|(_, came)| came).collect()
}

/// One line that is rewritten on a terminal, and plain lines elsewhere.
struct Progress {
    all: usize,
    terminal: bool,
}

impl Progress {
    fn new(all: usize) -> Progress {
        let terminal = io::stderr().is_terminal();
        Progress { all, terminal }
    }

    fn tell(&self, done: usize, name: &OsStr) {
        let shown: String = name.to_string_lossy().replace(char::is_control, "?");
        let said = format!("{done}/{} {shown}", self.all);
        self.write(&if self.terminal {
            format!("\r\x1b[K{said}")
        } else {
            format!("{said}\n")
        });
    }

    fn end(&self) {
        if self.terminal {
            self.write("\n");
        }
    }

    /// Progress that nobody can read is no reason to stop.
    fn write(&self, text: &str) {
        let _ = io::stderr().write_all(text.as_bytes());
    }
}
