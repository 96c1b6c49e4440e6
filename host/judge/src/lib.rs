//! What each C function must answer, as the oracle and the table of refusals have it, and the inputs worth asking.

#![feature(
    duration_constants,
    duration_constructors,
    duration_integer_division,
    duration_millis_float,
    formatting_options
)]

mod answer;
pub mod edges;
pub mod floats;
mod panics;
mod rng;
pub mod salt;
pub mod text;
pub mod wide;

pub use answer::{lent, Answer, Image, BAD_DURATION, BAD_OPTIONS, BAD_RANGE, BAD_ROW, BAD_UNIT};
pub use answer::{NEGATIVE, NO_ROOM, OVERFLOW, OVERFLOW_OR_NAN, UNDERFLOW, ZERO_DIVISOR};
pub use panics::{panics_met, quiet};
pub use rng::Rng;
