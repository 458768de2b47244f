//! The root of the oracle: the published modules, and what a caller outside may use.
pub mod crc32;
pub mod sstable;

mod cache;
mod limits;

pub use crate::sstable::block_access as block;
pub use crate::sstable::point::access as point;
pub use crate::sstable::point::compact::access as compact;

use crate::sstable::SstError;
use std::cell::Cell;
use std::panic::{AssertUnwindSafe, catch_unwind, set_hook, take_hook};

thread_local! { static CAUGHT: Cell<bool> = const { Cell::new(false) }; }

/// How a caught panic begins where an error message is given.
pub const PANIC: &str = "panic";

/// Keeps the panics that `caught` catches from being printed.
pub fn quiet() {
    let before = take_hook();
    set_hook(Box::new(move |info| {
        if !CAUGHT.get() {
            before(info)
        }
    }));
}

/// The answer, the text of its error, or `PANIC`.
pub fn caught<T>(ask: impl FnOnce() -> Result<T, SstError>) -> Result<T, String> {
    CAUGHT.set(true);
    let answer = catch_unwind(AssertUnwindSafe(ask));
    CAUGHT.set(false);
    match answer {
        Ok(answer) => answer.map_err(|error| error.to_string()),
        Err(_) => Err(PANIC.to_string()),
    }
}

/// A call that gives no error: its answer, or `PANIC`.
pub fn caught_plain<T>(ask: impl FnOnce() -> T) -> Result<T, String> {
    caught(|| Ok(ask()))
}
