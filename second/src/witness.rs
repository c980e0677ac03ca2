// Names the book at hand when a program crashes or an assertion fails, as it is named where two outcomes differ.

use std::ffi::{c_int, c_void};
use std::sync::Mutex;

/// ILL, ABRT, BUS, FPE and SEGV, and the flag that runs the handler on the other stack: this one may be at its end.
const CRASHES: [c_int; 5] = [4, 6, 7, 8, 11];
const ON_OTHER_STACK: c_int = 0x0800_0000;

/// What the C library on x86-64 takes: a handler, no other signal held back, flags.
#[repr(C)]
struct Action {
    handler: extern "C" fn(c_int),
    held_back: [u64; 16],
    flags: c_int,
    restorer: usize,
}

extern "C" {
    fn sigaction(signal: c_int, action: *const Action, before: *mut Action) -> c_int;
    fn write(file: c_int, bytes: *const c_void, length: usize) -> isize;
    fn _exit(status: c_int) -> !;
}

static AT_HAND: Mutex<String> = Mutex::new(String::new());

/// Remembers the book that both programs get next.
pub fn remember(book: String) {
    *AT_HAND.lock().expect("one thread") = book;
}

/// The book at hand, and what is said of it.
pub fn say(why: impl std::fmt::Display) -> String {
    format!("second: {}: {why}", AT_HAND.lock().expect("one thread"))
}

/// From now on an assertion that fails and a crash are said of the book at hand.
pub fn watch() {
    std::panic::set_hook(Box::new(|assertion| println!("{}", say(assertion))));
    let action = Action { handler: crashed, held_back: [0; 16], flags: ON_OTHER_STACK, restorer: 0 };
    for signal in CRASHES {
        // The action is as the C library lays it out, and the handler lives as long as the program.
        assert_eq!(unsafe { sigaction(signal, &action, std::ptr::null_mut()) }, 0);
    }
}

/// Writes without taking memory, which may be what is broken.
extern "C" fn crashed(_: c_int) {
    let print = |text: &str| {
        // The bytes are there for the length that is said.
        unsafe { write(1, text.as_ptr().cast(), text.len()) };
    };
    print("second: ");
    print(AT_HAND.try_lock().as_deref().map_or("", |book| book));
    print(": a crash\n");
    unsafe { _exit(101) }
}
