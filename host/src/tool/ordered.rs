//! Work on several items at a time, whose results are taken in the items' order.

use std::any::Any;
use std::collections::BTreeMap;
use std::panic::{catch_unwind, resume_unwind, AssertUnwindSafe};
use std::sync::{Condvar, Mutex, MutexGuard, PoisonError};
use std::thread;

/// The items to do, and the results that are not taken yet.
struct Queue<T> {
    items: usize,
    /// Items that are worked on or wait to be taken.
    most: usize,
    state: Mutex<State<T>>,
    changed: Condvar,
}

struct State<T> {
    next: usize,
    taken: usize,
    done: BTreeMap<usize, Result<T, Box<dyn Any + Send>>>,
}

/// Results that may wait for their turn.
const WAITING: usize = 32;

/// Do `work` for each number below `items`, `jobs` at a time, and pass each result to `take` in its turn, on this thread. Few results wait, each of which may
/// have files open.
pub fn in_order<T: Send>(items: usize, jobs: usize, work: impl Fn(usize) -> T + Sync, mut take: impl FnMut(usize, T)) {
    let state = State { next: 0, taken: 0, done: BTreeMap::new() };
    let queue = Queue { items, most: jobs + WAITING, state: Mutex::new(state), changed: Condvar::new() };
    thread::scope(|scope| {
        let worker = || queue.work_off(&work);
        let helpers = if jobs > 1 { jobs } else { 0 };
        let helpers = (0..helpers).filter(|_| thread::Builder::new().spawn_scoped(scope, worker).is_ok()).count();
        for at in 0..items {
            // one job, or a system that gives no threads
            let result = if helpers == 0 { work(at) } else { queue.wait_for(at) };
            take(at, result);
        }
    });
}

impl<T> Queue<T> {
    fn lock(&self) -> MutexGuard<'_, State<T>> {
        self.state.lock().unwrap_or_else(PoisonError::into_inner)
    }

    /// Take items as long as there are any.
    fn work_off(&self, work: impl Fn(usize) -> T) {
        loop {
            let mut state = self.lock();
            while state.next < self.items && state.next >= state.taken + self.most {
                state = self.changed.wait(state).unwrap_or_else(PoisonError::into_inner);
            }
            let at = state.next;
            if at >= self.items {
                return;
            }
            state.next += 1;
            drop(state);
            let result = catch_unwind(AssertUnwindSafe(|| work(at)));
            self.lock().done.insert(at, result);
            self.changed.notify_all();
        }
    }

    /// The result of an item, in its turn. If its work panicked, this panics too, and no other item is started.
    fn wait_for(&self, at: usize) -> T {
        let mut state = self.lock();
        loop {
            if let Some(result) = state.done.remove(&at) {
                state.taken = at + 1;
                state.next = if result.is_err() { self.items } else { state.next };
                self.changed.notify_all();
                drop(state);
                return result.unwrap_or_else(|panic| resume_unwind(panic));
            }
            state = self.changed.wait(state).unwrap_or_else(PoisonError::into_inner);
        }
    }
}

#[cfg(test)]
mod tests {
    use super::{in_order, WAITING};
    use std::panic::catch_unwind;
    use std::sync::atomic::{AtomicUsize, Ordering};
    use std::thread;
    use std::time::Duration;

    /// All results come in order, whichever are ready first, and few wait.
    #[test]
    fn in_turn() {
        for (items, jobs) in [(0, 3), (1, 4), (90, 1), (90, 2), (90, 5), (3, 8)] {
            let (begun, mut taken) = (AtomicUsize::new(0), Vec::new());
            let work = |at: usize| {
                begun.fetch_add(1, Ordering::SeqCst);
                thread::sleep(Duration::from_millis(if at % 7 == 0 { 5 } else { 0 }));
                at * at
            };
            in_order(items, jobs, work, |at, square| {
                assert!(begun.load(Ordering::SeqCst) <= taken.len() + 1 + jobs + WAITING);
                taken.push((at, square));
            });
            assert_eq!(taken, (0..items).map(|at| (at, at * at)).collect::<Vec<_>>(), "{items} {jobs}");
        }
    }

    /// A panic ends the work, and nothing waits for ever.
    #[test]
    fn panics() {
        for jobs in [1, 3] {
            let taken = AtomicUsize::new(0);
            let broken = catch_unwind(|| {
                in_order(
                    100,
                    jobs,
                    |at| assert_ne!(at, 4),
                    |_, ()| {
                        taken.fetch_add(1, Ordering::SeqCst);
                    },
                );
            });
            assert!(broken.is_err() && taken.load(Ordering::SeqCst) == 4);
        }
    }
}
