//! Names the case that was running when memory was touched that may not be, and ends the run.
use std::ffi::c_void;
use std::ptr;
use std::sync::atomic::{AtomicPtr, AtomicUsize, Ordering};

/// glibc's `struct sigaction` on x86-64.
#[repr(C)]
struct Action {
    handler: extern "C" fn(i32),
    masked: [u64; 16],
    flags: i32,
    restorer: *const c_void,
}

extern "C" {
    fn sigaction(signal: i32, action: *const Action, before: *mut Action) -> i32;
    fn write(file: i32, bytes: *const u8, count: usize) -> isize;
    fn _exit(status: i32) -> !;
}

const SIGBUS: i32 = 7;
const SIGSEGV: i32 = 11;
const STDOUT: i32 = 1;

static NAME: AtomicPtr<u8> = AtomicPtr::new(ptr::null_mut());
static NAME_LENGTH: AtomicUsize = AtomicUsize::new(0);

pub fn set() {
    let action = Action { handler: end_the_run, masked: [0; 16], flags: 0, restorer: ptr::null() };
    for signal in [SIGSEGV, SIGBUS] {
        // SAFETY: the action is one that the C library knows; it is read before the call returns.
        let status = unsafe { sigaction(signal, &action, ptr::null_mut()) };
        assert_eq!(status, 0, "the trap cannot be set");
    }
}

/// Does the work under a name, which is printed if the work touches what it may not.
pub fn named<T>(name: &str, work: impl FnOnce() -> T) -> T {
    NAME.store(name.as_ptr() as *mut u8, Ordering::SeqCst);
    NAME_LENGTH.store(name.len(), Ordering::SeqCst);
    let done = work();
    NAME_LENGTH.store(0, Ordering::SeqCst);
    done
}

fn say(words: &[u8]) {
    // SAFETY: a slice is a pointer and a length that fit each other. What cannot be written is lost.
    unsafe { write(STDOUT, words.as_ptr(), words.len()) };
}

/// Only what a signal handler may do: no memory is asked for and no lock taken.
extern "C" fn end_the_run(_signal: i32) {
    let length = NAME_LENGTH.load(Ordering::SeqCst);
    say(b"different: memory was touched that was not lent: ");
    if length > 0 {
        // SAFETY: `named` is still running, and its name with it.
        say(unsafe { std::slice::from_raw_parts(NAME.load(Ordering::SeqCst), length) });
    }
    say(b"\n");
    // SAFETY: it ends the process and touches no memory.
    unsafe { _exit(1) }
}
