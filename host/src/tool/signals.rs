//! Removes files under hidden names if a signal ends the tool.

use std::ffi::CString;
use std::os::raw::{c_char, c_int, c_ulong};
use std::os::unix::ffi::OsStrExt;
use std::path::Path;
use std::ptr;
use std::sync::atomic::{AtomicBool, AtomicPtr, AtomicUsize, Ordering};
use std::sync::Once;
use std::thread;
use std::time::Duration;

const SIG_DFL: usize = 0;
const SIG_IGN: usize = 1;
const SIG_BLOCK: c_int = 0;
const SIG_SETMASK: c_int = 2;
/// SIGHUP, SIGINT, SIGQUIT, SIGTERM, SIGXCPU, SIGXFSZ.
const ENDING: [c_int; 6] = [1, 2, 3, 15, 24, 25];

/// `sigset_t` of the C library on Linux: 1,024 bits.
#[repr(C)]
struct SignalSet([c_ulong; 16]);

extern "C" {
    fn signal(number: c_int, action: usize) -> usize;
    fn raise(number: c_int) -> c_int;
    fn unlink(path: *const c_char) -> c_int;
    fn sched_yield() -> c_int;
    fn sigaddset(set: *mut SignalSet, number: c_int) -> c_int;
    fn pthread_sigmask(how: c_int, set: *const SignalSet, old: *mut SignalSet) -> c_int;
}

/// A hidden name that signals remove. Neither it nor its path is ever freed, so that a signal may come at any time.
pub struct Hidden {
    /// Null once the file is gone, or has its name.
    path: AtomicPtr<c_char>,
    next: *const Hidden,
}

// Safety: the path changes atomically, and `next` is not changed once others see the entry.
unsafe impl Sync for Hidden {}

/// The hidden names, the latest first.
static LATEST: AtomicPtr<Hidden> = AtomicPtr::new(ptr::null_mut());
/// A signal has come: no thread makes or names a file any more.
static CAME: AtomicBool = AtomicBool::new(false);
/// How many threads are making or naming files.
static BUSY: AtomicUsize = AtomicUsize::new(0);
static INSTALLED: Once = Once::new();

impl Hidden {
    /// Enters this file in the list of those that a signal removes. Call it inside the same `held` as the creation of the file.
    pub fn remember(path: &Path) -> &'static Hidden {
        let path = CString::new(path.as_os_str().as_bytes()).map_or(ptr::null_mut(), CString::into_raw);
        let hidden: &'static mut Hidden = Box::leak(Box::new(Hidden { path: AtomicPtr::new(path), next: ptr::null() }));
        let mut latest = LATEST.load(Ordering::SeqCst);
        loop {
            hidden.next = latest;
            match LATEST.compare_exchange(latest, hidden, Ordering::SeqCst, Ordering::SeqCst) {
                Ok(_) => return hidden,
                Err(now) => latest = now,
            }
        }
    }

    /// The file is gone, or has its name.
    pub fn forget(&self) {
        self.path.store(ptr::null_mut(), Ordering::SeqCst);
    }
}

/// Creates or names files while signals are held back; a signal that arrives is handled afterwards. It must not be nested.
pub fn held<T>(work: impl FnOnce() -> T) -> T {
    INSTALLED.call_once(install);
    let _held = Held::begin();
    work()
}

/// The signals that this thread did not block before.
struct Held(SignalSet);

impl Held {
    fn begin() -> Self {
        let (mut ending, mut old) = (SignalSet([0; 16]), SignalSet([0; 16]));
        // Safety: both are sets of signals that live through the calls.
        unsafe {
            ENDING.iter().for_each(|&number| {
                sigaddset(&mut ending, number);
            });
            pthread_sigmask(SIG_BLOCK, &ending, &mut old);
        }
        BUSY.fetch_add(1, Ordering::SeqCst);
        if CAME.load(Ordering::SeqCst) {
            BUSY.fetch_sub(1, Ordering::SeqCst);
            // another thread is ending the tool
            loop {
                thread::sleep(Duration::from_secs(1));
            }
        }
        Held(old)
    }
}

impl Drop for Held {
    fn drop(&mut self) {
        BUSY.fetch_sub(1, Ordering::SeqCst);
        // Safety: a set of signals that the same call gave.
        unsafe {
            pthread_sigmask(SIG_SETMASK, &self.0, ptr::null_mut());
        }
    }
}

fn install() {
    for number in ENDING {
        // Safety: the action calls only async-signal-safe functions (signal-safety(7)).
        unsafe {
            // a signal that is ignored, as by nohup, stays ignored
            if signal(number, remove as *const () as usize) == SIG_IGN {
                signal(number, SIG_IGN);
            }
        }
    }
}

/// Wait for the threads that are naming files, remove what has a hidden name, and end as the signal would have done.
extern "C" fn remove(number: c_int) {
    CAME.store(true, Ordering::SeqCst);
    // Safety: entries and paths are never freed, and a path ends in a zero byte. A thread that is busy holds signals back, so that it is not this one.
    unsafe {
        while BUSY.load(Ordering::SeqCst) > 0 {
            sched_yield();
        }
        let mut entry: *const Hidden = LATEST.load(Ordering::SeqCst);
        while let Some(hidden) = entry.as_ref() {
            let path = hidden.path.load(Ordering::SeqCst);
            if !path.is_null() {
                unlink(path);
            }
            entry = hidden.next;
        }
        signal(number, SIG_DFL);
        raise(number);
    }
}
