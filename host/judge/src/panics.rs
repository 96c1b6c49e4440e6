//! Where the Rust panics the port refuses. The panic is met for real, without its message on the screen.

use crate::{Answer, Image};
use std::cell::Cell;
use std::panic::{catch_unwind, set_hook, take_hook, AssertUnwindSafe};

thread_local! {
    static WATCHING: Cell<bool> = const { Cell::new(false) };
    static MET: Cell<u64> = const { Cell::new(0) };
}

/// How many panics of the Rust were met so far.
pub fn panics_met() -> u64 {
    MET.get()
}

/// Silences the panics that are watched for. Any other one is still reported.
pub fn quiet() {
    let report = take_hook();
    set_hook(Box::new(move |info| {
        if !WATCHING.get() {
            report(info);
        }
    }));
}

/// The value, or `refusal` for a panic. Panics are slow, so one that is `foreseen` is met only under `watch`.
pub fn or_panic<T: Image>(
    refusal: u32,
    foreseen: bool,
    watch: bool,
    value: impl FnOnce() -> T,
) -> Answer {
    if foreseen && !watch {
        return Err(refusal);
    }
    WATCHING.set(true);
    let met = catch_unwind(AssertUnwindSafe(value));
    WATCHING.set(false);
    MET.set(MET.get() + u64::from(met.is_err()));
    met.map(Image::image).map_err(|_| refusal)
}
