//! The safe wrapper: every method asks the library and gives its answer or its refusal.

use crate::{raw, Refusal};
use std::cmp::Ordering;
use std::ops::Range;

/// Whole seconds and nanoseconds. Any pair may be built; with nanoseconds of 10^9 or more every question is `BadDuration`.
#[derive(Copy, Clone, Debug, PartialEq, Eq)]
pub struct Duration {
    pub secs: u64,
    pub nanos: u32,
}

/// Lends sixteen bytes to one call and gives them back as a number, low byte first.
fn ask(call: impl FnOnce(&mut [u8]) -> u32) -> Result<u128, Refusal> {
    let mut out = [0; 16];
    match call(&mut out) {
        0 => Ok(u128::from_le_bytes(out)),
        number => Err(Refusal::known(number)),
    }
}

fn ask_duration(call: impl FnOnce(&mut [u8]) -> u32) -> Result<Duration, Refusal> {
    ask(call).map(|words| Duration {
        secs: words as u64,
        nanos: (words >> 64) as u32,
    })
}

/// The unit numbers of `Duration::from_unit`.
impl Duration {
    pub const NANOSECONDS: u32 = 0;
    pub const MICROSECONDS: u32 = 1;
    pub const MILLISECONDS: u32 = 2;
    pub const SECONDS: u32 = 3;
    pub const MINUTES: u32 = 4;
    pub const HOURS: u32 = 5;
    pub const DAYS: u32 = 6;
    pub const WEEKS: u32 = 7;
}

/// Durations made from numbers. `Overflow` where the exact time is above the longest duration.
impl Duration {
    /// Carries nanoseconds of 10^9 and more into the seconds.
    pub fn new(secs: u64, nanos: u32) -> Result<Duration, Refusal> {
        ask_duration(|out| raw::new(secs, nanos, out))
    }

    /// A count of the unit with that number; above 7 is `BadUnit`.
    pub fn from_unit(count: u64, unit: u32) -> Result<Duration, Refusal> {
        ask_duration(|out| raw::from_unit(count, unit, out))
    }

    pub fn from_nanos(nanos: u64) -> Result<Duration, Refusal> {
        Duration::from_unit(nanos, Duration::NANOSECONDS)
    }

    pub fn from_micros(micros: u64) -> Result<Duration, Refusal> {
        Duration::from_unit(micros, Duration::MICROSECONDS)
    }

    pub fn from_millis(millis: u64) -> Result<Duration, Refusal> {
        Duration::from_unit(millis, Duration::MILLISECONDS)
    }

    pub fn from_secs(secs: u64) -> Result<Duration, Refusal> {
        Duration::from_unit(secs, Duration::SECONDS)
    }

    pub fn from_mins(mins: u64) -> Result<Duration, Refusal> {
        Duration::from_unit(mins, Duration::MINUTES)
    }

    pub fn from_hours(hours: u64) -> Result<Duration, Refusal> {
        Duration::from_unit(hours, Duration::HOURS)
    }

    pub fn from_days(days: u64) -> Result<Duration, Refusal> {
        Duration::from_unit(days, Duration::DAYS)
    }

    pub fn from_weeks(weeks: u64) -> Result<Duration, Refusal> {
        Duration::from_unit(weeks, Duration::WEEKS)
    }

    pub fn from_nanos_u128(nanos: u128) -> Result<Duration, Refusal> {
        ask_duration(|out| raw::from_nanos_u128(nanos as u64, (nanos >> 64) as u64, out))
    }
}

/// The constants, asked of the library like everything else.
impl Duration {
    pub fn second() -> Result<Duration, Refusal> {
        ask_duration(raw::second)
    }

    pub fn millisecond() -> Result<Duration, Refusal> {
        ask_duration(raw::millisecond)
    }

    pub fn microsecond() -> Result<Duration, Refusal> {
        ask_duration(raw::microsecond)
    }

    pub fn nanosecond() -> Result<Duration, Refusal> {
        ask_duration(raw::nanosecond)
    }

    pub fn zero() -> Result<Duration, Refusal> {
        ask_duration(raw::zero)
    }

    pub fn max() -> Result<Duration, Refusal> {
        ask_duration(raw::max)
    }
}

/// The parts of a duration, and the order of two.
impl Duration {
    pub fn as_secs(self) -> Result<u64, Refusal> {
        ask(|out| raw::as_secs(self.secs, self.nanos, out)).map(|words| words as u64)
    }

    pub fn subsec_millis(self) -> Result<u32, Refusal> {
        ask(|out| raw::subsec_millis(self.secs, self.nanos, out)).map(|words| words as u32)
    }

    pub fn subsec_micros(self) -> Result<u32, Refusal> {
        ask(|out| raw::subsec_micros(self.secs, self.nanos, out)).map(|words| words as u32)
    }

    pub fn subsec_nanos(self) -> Result<u32, Refusal> {
        ask(|out| raw::subsec_nanos(self.secs, self.nanos, out)).map(|words| words as u32)
    }

    pub fn as_millis(self) -> Result<u128, Refusal> {
        ask(|out| raw::as_millis(self.secs, self.nanos, out))
    }

    pub fn as_micros(self) -> Result<u128, Refusal> {
        ask(|out| raw::as_micros(self.secs, self.nanos, out))
    }

    pub fn as_nanos(self) -> Result<u128, Refusal> {
        ask(|out| raw::as_nanos(self.secs, self.nanos, out))
    }

    pub fn is_zero(self) -> Result<bool, Refusal> {
        ask(|out| raw::is_zero(self.secs, self.nanos, out)).map(|words| words != 0)
    }

    /// By length of time. There is no `Ord`, since a bad pair has no place in the order.
    #[allow(clippy::should_implement_trait)]
    pub fn cmp(self, other: Duration) -> Result<Ordering, Refusal> {
        ask(|out| raw::cmp(self.secs, self.nanos, other.secs, other.nanos, out))
            .map(|words| words.cmp(&1))
    }
}

/// Integer arithmetic, exact. `Overflow` above the longest duration, unless the name says that it saturates.
impl Duration {
    pub fn checked_add(self, other: Duration) -> Result<Duration, Refusal> {
        self.with(other, raw::checked_add)
    }

    /// At most the longest duration.
    pub fn saturating_add(self, other: Duration) -> Result<Duration, Refusal> {
        self.with(other, raw::saturating_add)
    }

    /// `Underflow` below zero.
    pub fn checked_sub(self, other: Duration) -> Result<Duration, Refusal> {
        self.with(other, raw::checked_sub)
    }

    /// At least zero.
    pub fn saturating_sub(self, other: Duration) -> Result<Duration, Refusal> {
        self.with(other, raw::saturating_sub)
    }

    pub fn abs_diff(self, other: Duration) -> Result<Duration, Refusal> {
        self.with(other, raw::abs_diff)
    }

    pub fn checked_mul(self, factor: u32) -> Result<Duration, Refusal> {
        ask_duration(|out| raw::checked_mul(self.secs, self.nanos, factor, out))
    }

    /// At most the longest duration.
    pub fn saturating_mul(self, factor: u32) -> Result<Duration, Refusal> {
        ask_duration(|out| raw::saturating_mul(self.secs, self.nanos, factor, out))
    }

    /// Floored to a nanosecond.
    pub fn checked_div(self, divisor: u32) -> Result<Duration, Refusal> {
        ask_duration(|out| raw::checked_div(self.secs, self.nanos, divisor, out))
    }

    /// How often the other goes into this one, whole times only.
    pub fn div_duration_floor(self, other: Duration) -> Result<u128, Refusal> {
        ask(|out| raw::div_duration_floor(self.secs, self.nanos, other.secs, other.nanos, out))
    }

    /// The same, rounded up.
    pub fn div_duration_ceil(self, other: Duration) -> Result<u128, Refusal> {
        ask(|out| raw::div_duration_ceil(self.secs, self.nanos, other.secs, other.nanos, out))
    }

    fn with(
        self,
        other: Duration,
        call: fn(u64, u32, u64, u32, &mut [u8]) -> u32,
    ) -> Result<Duration, Refusal> {
        ask_duration(|out| call(self.secs, self.nanos, other.secs, other.nanos, out))
    }
}

/// The sum of a list.
impl Duration {
    /// The exact total of the rows in the range, each a place in both slices; `raw::sum` takes rows that lie as bytes.
    #[cfg(target_endian = "little")]
    pub fn sum(secs: &[u64], nanos: &[u32], rows: Range<u64>) -> Result<Duration, Refusal> {
        // SAFETY: every byte of a number is a byte, and on this machine the low one comes first, as the library reads.
        let (secs, nanos) = unsafe { (secs.align_to().1, nanos.align_to().1) };
        ask_duration(|out| raw::sum(secs, nanos, rows.start, rows.end, out))
    }
}

/// Floats out. A quotient over zero is infinity, or NaN for zero over zero.
impl Duration {
    pub fn as_secs_f64(self) -> Result<f64, Refusal> {
        ask(|out| raw::as_secs_f64(self.secs, self.nanos, out)).map(double)
    }

    pub fn as_secs_f32(self) -> Result<f32, Refusal> {
        ask(|out| raw::as_secs_f32(self.secs, self.nanos, out)).map(single)
    }

    pub fn as_millis_f64(self) -> Result<f64, Refusal> {
        ask(|out| raw::as_millis_f64(self.secs, self.nanos, out)).map(double)
    }

    pub fn as_millis_f32(self) -> Result<f32, Refusal> {
        ask(|out| raw::as_millis_f32(self.secs, self.nanos, out)).map(single)
    }

    pub fn div_duration_f64(self, other: Duration) -> Result<f64, Refusal> {
        ask(|out| raw::div_duration_f64(self.secs, self.nanos, other.secs, other.nanos, out))
            .map(double)
    }

    pub fn div_duration_f32(self, other: Duration) -> Result<f32, Refusal> {
        ask(|out| raw::div_duration_f32(self.secs, self.nanos, other.secs, other.nanos, out))
            .map(single)
    }
}

fn double(words: u128) -> f64 {
    f64::from_bits(words as u64)
}

fn single(words: u128) -> f32 {
    f32::from_bits(words as u32)
}

/// Floats in. `Negative` below zero, where -0.0 is zero; `OverflowOrNan` for NaN and from 2^64 seconds on.
impl Duration {
    /// Rounded to the nearest nanosecond, half to even.
    pub fn try_from_secs_f64(seconds: f64) -> Result<Duration, Refusal> {
        ask_duration(|out| raw::try_from_secs_f64(seconds, out))
    }

    /// Rounded to the nearest nanosecond, half to even.
    pub fn try_from_secs_f32(seconds: f32) -> Result<Duration, Refusal> {
        ask_duration(|out| raw::try_from_secs_f32(seconds, out))
    }

    pub fn mul_f64(self, factor: f64) -> Result<Duration, Refusal> {
        ask_duration(|out| raw::mul_f64(self.secs, self.nanos, factor, out))
    }

    pub fn div_f64(self, divisor: f64) -> Result<Duration, Refusal> {
        ask_duration(|out| raw::div_f64(self.secs, self.nanos, divisor, out))
    }

    pub fn mul_f32(self, factor: f32) -> Result<Duration, Refusal> {
        ask_duration(|out| raw::mul_f32(self.secs, self.nanos, factor, out))
    }

    pub fn div_f32(self, divisor: f32) -> Result<Duration, Refusal> {
        ask_duration(|out| raw::div_f32(self.secs, self.nanos, divisor, out))
    }
}
