//! The form of an answer: sixteen bytes as one number, or a refusal's number.

use oracle::Duration;
use std::cmp::Ordering;

/// The sixteen bytes, low byte first, or the refusal. Room is not decided here, since it is checked last.
pub type Answer = Result<u128, u32>;

pub const NEGATIVE: u32 = 1;
pub const OVERFLOW_OR_NAN: u32 = 2;
pub const OVERFLOW: u32 = 3;
pub const UNDERFLOW: u32 = 4;
pub const ZERO_DIVISOR: u32 = 5;
pub const BAD_ROW: u32 = 6;
pub const BAD_RANGE: u32 = 7;
pub const BAD_OPTIONS: u32 = 8;
pub const NO_ROOM: u32 = 9;
pub const BAD_DURATION: u32 = 10;
pub const BAD_UNIT: u32 = 11;

/// A pair handed in: the oracle's duration, or `BAD_DURATION`, which it cannot say itself.
pub fn lent(secs: u64, nanos: u32) -> Result<Duration, u32> {
    if nanos < 1_000_000_000 {
        Ok(Duration::new(secs, nanos))
    } else {
        Err(BAD_DURATION)
    }
}

/// How a value lies in the sixteen bytes.
pub trait Image {
    fn image(self) -> u128;
}

impl Image for Duration {
    fn image(self) -> u128 {
        u128::from(self.subsec_nanos()) << 64 | u128::from(self.as_secs())
    }
}

impl Image for Ordering {
    fn image(self) -> u128 {
        match self {
            Ordering::Less => 0,
            Ordering::Equal => 1,
            Ordering::Greater => 2,
        }
    }
}

impl Image for u128 {
    fn image(self) -> u128 {
        self
    }
}

/// The bits. Every NaN is the one that the library writes.
impl Image for f64 {
    fn image(self) -> u128 {
        let nan = 0x7FF8_0000_0000_0000;
        if self.is_nan() {
            nan
        } else {
            self.to_bits().into()
        }
    }
}

/// The bits. Every NaN is the one that the library writes.
impl Image for f32 {
    fn image(self) -> u128 {
        let nan = 0x7FC0_0000;
        if self.is_nan() {
            nan
        } else {
            self.to_bits().into()
        }
    }
}

macro_rules! as_number {
    ($($ty:ty)*) => {$(
        impl Image for $ty {
            fn image(self) -> u128 {
                self.into()
            }
        }
    )*};
}

as_number!(u64 u32 bool);
