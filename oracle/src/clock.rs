//! The part of a run that is measured.
use std::time::{Duration, Instant};

/// Makes a call, and says how long it took. It is never inlined, so that callgrind can be told by its name to count within it
/// alone: the script `instructions` does.
#[inline(never)]
pub fn measured<T>(call: impl FnOnce() -> T) -> (T, Duration) {
    let start = Instant::now();
    let result = call();
    (result, start.elapsed())
}
