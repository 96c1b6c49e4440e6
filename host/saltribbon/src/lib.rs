//! Durations from the proved library, for a Rust program: the Rust's names, and a refusal in place of a panic.

mod duration;
pub mod raw;
mod refusal;
mod sys;
mod text;

pub use duration::Duration;
pub use refusal::Refusal;
pub use text::{Align, Options, Text};
