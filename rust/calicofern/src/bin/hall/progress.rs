//! Progress on standard error.

use std::io::{self, Write};
use std::sync::atomic::{AtomicU64, Ordering};
use std::sync::mpsc::{channel, RecvTimeoutError};
use std::thread;
use std::time::{Duration, Instant};

/// A line on standard error. Whether anybody reads it makes no difference to the work.
pub fn note(line: &str) {
    let _ = writeln!(io::stderr(), "hall: {line}");
}

/// How far some work has come.
pub struct Progress {
    done: AtomicU64,
    total: u64,
}

impl Progress {
    /// So many more of the total are done.
    pub fn add(&self, more: u64) {
        self.done.fetch_add(more, Ordering::Relaxed);
    }

    /// `, 40 %`; nothing where the end is not known.
    fn part(&self) -> String {
        match (self.done.load(Ordering::Relaxed).saturating_mul(100)).checked_div(self.total) {
            Some(percent) => format!(", {} %", percent.min(100)),
            None => String::new(),
        }
    }
}

/// Does some work whose end is not known. Where it takes more than a second, a line on standard error says each second what is being done and for how long.
pub fn during<T>(what: &str, work: impl FnOnce() -> T) -> T {
    of(what, 0, |_| work())
}

/// The same for work of so many parts, which says how many are done: each line has the percentage too.
pub fn of<T>(what: &str, total: u64, work: impl FnOnce(&Progress) -> T) -> T {
    let progress = Progress { done: AtomicU64::new(0), total };
    thread::scope(|scope| {
        let (done, wait) = channel::<()>();
        let progress = &progress;
        // where no thread is to be had the work is done all the same
        let _ = thread::Builder::new().stack_size(1 << 16).spawn_scoped(scope, move || {
            let start = Instant::now();
            while wait.recv_timeout(Duration::from_secs(1)) == Err(RecvTimeoutError::Timeout) {
                note(&format!("{what}, {} s{}", start.elapsed().as_secs(), progress.part()));
            }
        });
        let result = work(progress);
        // the thread ends when the sender goes
        drop(done);
        result
    })
}

#[cfg(test)]
mod tests {
    use super::*;

    #[test]
    fn a_part_of_a_known_end() {
        let part = |done: u64, total: u64| Progress { done: AtomicU64::new(done), total }.part();
        assert_eq!((part(0, 3), part(1, 3), part(3, 3)), (", 0 %".to_string(), ", 33 %".to_string(), ", 100 %".to_string()));
        assert_eq!((part(5, 0), part(4, 3)), (String::new(), ", 100 %".to_string()));
    }

    #[test]
    fn the_work_gives_its_result() {
        assert_eq!(during("nothing", || 7), 7);
        assert_eq!(
            of("counting", 2, |progress| {
                progress.add(2);
                8
            }),
            8
        );
    }
}
