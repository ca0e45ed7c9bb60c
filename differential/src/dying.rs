//! Says which program it was where the engine is killed by a signal.

use std::sync::Mutex;

extern "C" {
    fn signal(number: i32, handler: extern "C" fn(i32)) -> usize;
    fn _exit(status: i32) -> !;
}

static PROGRAM: Mutex<String> = Mutex::new(String::new());

/// The program that comes next; gives its name back.
pub fn note(what: String) -> String {
    *PROGRAM.lock().unwrap() = what.clone();
    what
}

extern "C" fn died(number: i32) {
    // no call of the engine is under way with this lock held, and nothing follows
    if let Ok(what) = PROGRAM.try_lock() {
        eprintln!("DIFFERENT: {}: killed by signal {}", what, number);
    }
    unsafe { _exit(1) }
}

/// SIGILL, SIGTRAP, SIGABRT, SIGBUS, SIGFPE and SIGSEGV.
pub fn watch() {
    for number in [4, 5, 6, 7, 8, 11] {
        unsafe { signal(number, died) };
    }
}
