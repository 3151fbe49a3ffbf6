//! Panics of the Rust as values.

use std::any::Any;
use std::cell::Cell;
use std::panic::{self, AssertUnwindSafe};
use std::sync::Once;

#[derive(Clone, Debug, PartialEq, Eq)]
#[must_use]
pub enum Outcome<T> {
    Done(T),
    /// The Rust panicked, with this message. The oracle takes no further calls and answers them all with this; its
    /// points and state can still be read.
    Panicked(String),
    /// The Rust has no such call, or its types can't hold the arguments. Nothing changed.
    NoCall(&'static str),
}

impl<T> Outcome<T> {
    #[track_caller]
    pub fn done(self) -> T {
        match self {
            Self::Done(value) => value,
            Self::Panicked(message) => panic!("the Rust panicked: {message}"),
            Self::NoCall(why) => panic!("no such call: {why}"),
        }
    }
}

thread_local! {
    static INSIDE: Cell<bool> = const { Cell::new(false) };
}

/// Runs a call; a panic inside prints nothing and comes back as its message.
pub fn caught<T>(call: impl FnOnce() -> T) -> Result<T, String> {
    silence();
    INSIDE.set(true);
    let result = panic::catch_unwind(AssertUnwindSafe(call));
    INSIDE.set(false);
    result.map_err(message)
}

fn silence() {
    static HOOK: Once = Once::new();
    HOOK.call_once(|| {
        let previous = panic::take_hook();
        panic::set_hook(Box::new(move |info| {
            if !INSIDE.get() {
                previous(info);
            }
        }));
    });
}

fn message(payload: Box<dyn Any + Send>) -> String {
    match payload.downcast::<String>() {
        Ok(text) => *text,
        Err(other) => (other.downcast_ref::<&str>()).map_or("no message".into(), |text| (*text).into()),
    }
}
