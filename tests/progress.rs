//! How far a run is, on standard error. Standard output has only the lines that are recorded.

use std::io::Write;
use std::sync::Mutex;
use std::sync::atomic::{AtomicU64, Ordering};
use std::time::{Duration, Instant};

/// The least time between two lines, and before the first.
const EVERY: Duration = Duration::from_secs(5);

/// When the last line was written; before the first, when the first part began.
static WRITTEN: Mutex<Option<Instant>> = Mutex::new(None);

/// A part of a run, of so many items.
pub struct Progress {
    part: String,
    items: &'static str,
    /// None where it is not known beforehand.
    whole: Option<u64>,
    done: AtomicU64,
}

impl Progress {
    pub fn new(part: &str, whole: impl Into<Option<u64>>, items: &'static str) -> Self {
        if let Ok(mut written) = WRITTEN.lock() {
            written.get_or_insert_with(Instant::now);
        }
        Progress { part: part.into(), items, whole: whole.into(), done: AtomicU64::new(0) }
    }

    /// So many more items are done.
    pub fn add(&self, count: u64) {
        let done = self.done.fetch_add(count, Ordering::Relaxed) + count;
        // Where another thread writes, this one need not.
        let Ok(mut written) = WRITTEN.try_lock() else { return };
        if written.is_some_and(|written| written.elapsed() >= EVERY) {
            *written = Some(Instant::now());
            let whole = self.whole.map_or(String::new(), |whole| format!(" of {whole}"));
            // Where nobody can read it, the run goes on.
            let _ = writeln!(std::io::stderr(), "{}: {done}{whole} {}", self.part, self.items);
        }
    }
}
