//! A line on a terminal for work that takes longer than half a second.

use crate::say;
use std::io::{self, IsTerminal};
use std::sync::atomic::{AtomicU64, AtomicUsize, Ordering};
use std::sync::mpsc::{self, RecvTimeoutError};
use std::sync::{Mutex, PoisonError};
use std::thread;
use std::time::{Duration, Instant};

/// The progress of the work.
pub struct Progress<'a> {
    /// What the parts are called, and their shares of the work.
    what: &'static str,
    costs: &'a [u64],
    start: Instant,
    done: AtomicUsize,
    /// What the parts that are done cost, and how many milliseconds had gone by then.
    spent: AtomicU64,
    time: AtomicU64,
    /// Whether the line is on the terminal.
    shown: Mutex<bool>,
}

impl Progress<'_> {
    /// A part is done.
    pub fn done(&self, part: usize) {
        self.done.fetch_add(1, Ordering::Relaxed);
        self.spent.fetch_add(self.costs[part], Ordering::Relaxed);
        self.time.store(self.start.elapsed().as_millis() as u64, Ordering::Relaxed);
    }

    /// Removes the line and prints something; the next tick shows the line again.
    pub fn above<T>(&self, print: impl FnOnce() -> T) -> T {
        let mut shown = self.shown.lock().unwrap_or_else(PoisonError::into_inner);
        clear(&mut shown);
        print()
    }

    fn line(&self) -> String {
        let (spent, time) = (self.spent.load(Ordering::Relaxed), Duration::from_millis(self.time.load(Ordering::Relaxed)));
        let (total, elapsed) = (self.costs.iter().sum(), self.start.elapsed());
        line(self.what, self.done.load(Ordering::Relaxed), self.costs.len(), elapsed, estimate(spent, time, total, elapsed))
    }

    /// Shows the line four times a second, and removes it at the end.
    fn tick(&self, wait: &mpsc::Receiver<()>) {
        while wait.recv_timeout(Duration::from_millis(250)) == Err(RecvTimeoutError::Timeout) {
            if self.start.elapsed() >= Duration::from_millis(500) {
                let mut shown = self.shown.lock().unwrap_or_else(PoisonError::into_inner);
                say::tell(&format!("\r{}\x1b[K", self.line()));
                *shown = true;
            }
        }
        clear(&mut self.shown.lock().unwrap_or_else(PoisonError::into_inner));
    }
}

fn clear(shown: &mut bool) {
    if *shown {
        say::tell("\r\x1b[K");
    }
    *shown = false;
}

/// Do `work`, which reports when a part is done, and show the progress on standard error. `costs` are the shares of the parts.
pub fn show(what: &'static str, costs: &[u64], quiet: bool, work: impl FnOnce(&Progress)) {
    let progress = Progress {
        what,
        costs,
        start: Instant::now(),
        done: AtomicUsize::new(0),
        spent: AtomicU64::new(0),
        time: AtomicU64::new(0),
        shown: Mutex::new(false),
    };
    if quiet || !io::stderr().is_terminal() {
        return work(&progress);
    }
    let (finished, wait) = mpsc::channel::<()>();
    thread::scope(|scope| {
        let _ = thread::Builder::new().spawn_scoped(scope, || {
            let wait = wait;
            progress.tick(&wait);
        });
        work(&progress);
        drop(finished);
    });
}

/// How many are done, the time, and the time that the rest will take.
fn line(what: &str, done: usize, parts: usize, time: Duration, left: Duration) -> String {
    let left = if left.is_zero() { "soon done".to_owned() } else { format!("about {:.1} s left", left.as_secs_f64()) };
    let parts = if parts == 1 { String::new() } else { format!("{done} of {parts} {what} done, ") };
    format!("building: {parts}{:.1} s, {left}", time.as_secs_f64())
}

/// The time left after `elapsed`: what is done took `time`, and the rest goes at that rate; before a part is done, at that of a common machine.
fn estimate(spent: u64, time: Duration, total: u64, elapsed: Duration) -> Duration {
    const COMMON: f64 = 1e-8;
    let rate = if spent > 0 { time.as_secs_f64() / spent as f64 } else { COMMON };
    Duration::from_secs_f64((rate * total as f64 - elapsed.as_secs_f64()).clamp(0.0, 1e6))
}

#[cfg(test)]
mod tests {
    use super::{estimate, line};
    use std::time::Duration;

    #[test]
    fn estimates() {
        let second = Duration::from_secs(1);
        assert_eq!(estimate(100, second, 400, second), 3 * second);
        assert_eq!(estimate(100, second, 400, 3 * second), second);
        assert_eq!(estimate(100, second, 400, 5 * second), Duration::ZERO);
        assert_eq!(estimate(0, Duration::ZERO, 300_000_000, second), 2 * second);
        assert_eq!(line("trees", 2, 6, second, 3 * second), "building: 2 of 6 trees done, 1.0 s, about 3.0 s left");
        assert_eq!(line("books", 5, 6, second, Duration::ZERO), "building: 5 of 6 books done, 1.0 s, soon done");
        assert_eq!(line("trees", 0, 1, second, 3 * second), "building: 1.0 s, about 3.0 s left");
    }
}
