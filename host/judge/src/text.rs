//! The expected text: the Rust's Debug under the options that the table accepts, or the refusal.

use crate::{lent, BAD_OPTIONS};
use oracle::Duration;
use std::fmt::{Alignment, Debug, FormattingOptions, Sign};
use std::ops::RangeInclusive;

/// The options as the C function has them: plus sign, precision, width, alignment, fill.
pub type Options = [i64; 5];

/// What each of them may be; -1 is none.
pub const LIMITS: [RangeInclusive<i64>; 5] = [0..=1, -1..=255, -1..=255, 0..=3, 0x20..=0x7E];

/// No text is longer.
pub const LONGEST: usize = 278;

/// The text, or the refusal. Room is not decided here, since it is checked last.
pub fn fmt(secs: u64, nanos: u32, options: Options) -> Result<String, u32> {
    let d = lent(secs, nanos)?;
    let good = LIMITS
        .iter()
        .zip(options)
        .all(|(limits, n)| limits.contains(&n));
    if good {
        Ok(debug(d, options))
    } else {
        Err(BAD_OPTIONS)
    }
}

fn debug(d: Duration, [plus, precision, width, align, fill]: Options) -> String {
    let align = match align {
        1 => Some(Alignment::Left),
        2 => Some(Alignment::Center),
        3 => Some(Alignment::Right),
        _ => None,
    };
    let mut options = FormattingOptions::new();
    options
        .sign((plus == 1).then_some(Sign::Plus))
        .precision(u16::try_from(precision).ok())
        .width(u16::try_from(width).ok())
        .align(align)
        .fill(char::from(fill as u8));
    let mut text = String::with_capacity(LONGEST);
    d.fmt(&mut options.create_formatter(&mut text))
        .expect("a string takes every text");
    text
}
