//! A panic of the Rust, told as a value.

use std::cell::Cell;
use std::panic;
use std::panic::AssertUnwindSafe;
use std::sync::Once;

/// What a call of the Rust came to.
#[derive(Clone, Copy, Debug, PartialEq, Eq)]
pub enum Outcome<T> {
    Gave(T),
    Panicked,
}

impl<T> Outcome<T> {
    /// The value, or nothing after a panic.
    pub fn gave(self) -> Option<T> {
        match self {
            Self::Gave(value) => Some(value),
            Self::Panicked => None,
        }
    }
}

thread_local! {
    /// Whether this thread is inside `outcome_of`.
    static QUIET: Cell<bool> = const { Cell::new(false) };
}

/// Runs `call`, and tells a panic as a value instead of printing it.
///
/// What `call` changes before a panic is the caller's to throw away.
pub(crate) fn outcome_of<T>(call: impl FnOnce() -> T) -> Outcome<T> {
    install_hook();
    let before = QUIET.replace(true);
    let result = panic::catch_unwind(AssertUnwindSafe(call));
    QUIET.set(before);
    match result {
        Ok(value) => Outcome::Gave(value),
        Err(_) => Outcome::Panicked,
    }
}

/// The hook belongs to all threads, so it is set once and asks the thread whether to be quiet.
/// Setting and restoring it around each call would go wrong with two calls at a time.
fn install_hook() {
    static ONCE: Once = Once::new();
    ONCE.call_once(|| {
        let loud = panic::take_hook();
        panic::set_hook(Box::new(move |info| {
            if !QUIET.get() {
                loud(info);
            }
        }));
    });
}
