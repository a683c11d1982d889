//! Signals that end the program: first its unfinished files are removed.
#![allow(unsafe_code)]

use crate::unfinished;
use std::ffi::c_int;
use std::ops::RangeInclusive;
use std::thread;

/// The signals of Linux on x86-64 that end a program which does nothing about them, but those that say that it went wrong, and SIGKILL.
const ENDING: [c_int; 13] = [1, 2, 3, 10, 12, 14, 15, 16, 24, 26, 27, 29, 30];
/// Those without a name, which end it too. The two before them are the C library's own.
const REAL_TIME: RangeInclusive<c_int> = 34..=64;
/// SIGXFSZ, for a file longer than the user's limit. Ignored, so that the write fails as on a full disc.
const FILE_TOO_LONG: c_int = 25;

const DEFAULT: usize = 0;
const IGNORED: usize = 1;
const BLOCK: c_int = 0;
const UNBLOCK: c_int = 1;

/// `sigset_t` of Linux: 1,024 bits.
#[repr(C)]
struct Set([u64; 16]);

extern "C" {
    fn sigemptyset(set: *mut Set) -> c_int;
    fn sigaddset(set: *mut Set, signal: c_int) -> c_int;
    fn pthread_sigmask(how: c_int, set: *const Set, before: *mut Set) -> c_int;
    fn sigwait(set: *const Set, signal: *mut c_int) -> c_int;
    fn signal(signal: c_int, action: usize) -> usize;
    fn raise(signal: c_int) -> c_int;
}

fn set_of(signals: &[c_int]) -> Set {
    let mut set = Set([0; 16]);
    // SAFETY: `set` is a whole sigset_t, which these functions write; a wrong signal is an error number that changes nothing.
    unsafe {
        sigemptyset(&mut set);
        for signal in signals {
            sigaddset(&mut set, *signal);
        }
    }
    set
}

/// From here on a thread of its own waits for the signals. Called before any other thread is started, since these take over what is blocked.
pub fn watch() {
    let signals = heeded();
    let awaited = set_of(&signals);
    // SAFETY: the set is whole, and no mask from before is asked for.
    unsafe { pthread_sigmask(BLOCK, &awaited, std::ptr::null_mut()) };
    let waiting = thread::Builder::new().stack_size(1 << 16).spawn(move || end_on(&awaited));
    if waiting.is_err() {
        // no thread is to be had: signals act as they do without this module
        // SAFETY: as above.
        unsafe { pthread_sigmask(UNBLOCK, &set_of(&signals), std::ptr::null_mut()) };
    }
}

/// Those signals that whoever started the program does not have it ignore, as `nohup` has it ignore SIGHUP.
fn heeded() -> Vec<c_int> {
    // SAFETY: the actions are SIG_DFL and SIG_IGN; no function is ever installed.
    let heeds = |number: c_int| unsafe {
        let heeded = signal(number, DEFAULT) != IGNORED;
        if !heeded {
            signal(number, IGNORED);
        }
        heeded
    };
    // SAFETY: as above.
    unsafe { signal(FILE_TOO_LONG, IGNORED) };
    ENDING.into_iter().chain(REAL_TIME).filter(|number| heeds(*number)).collect()
}

/// Waits for one of the signals, cleans up, and lets it do what it does.
fn end_on(awaited: &Set) {
    let mut number = 0;
    // SAFETY: both are whole and this thread's own.
    while unsafe { sigwait(awaited, &mut number) } != 0 {}
    unfinished::remove_for_good();
    let one = set_of(&[number]);
    // SAFETY: the signal has its default action, which ends the process when it is let through.
    unsafe {
        pthread_sigmask(UNBLOCK, &one, std::ptr::null_mut());
        raise(number);
    }
}
