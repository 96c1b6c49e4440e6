//! The expected answer of each salt function. One that makes the Rust panic takes `watch`: meet the panic, or foresee it.

use crate::panics::or_panic;
use crate::{edges, lent, Answer, Image, BAD_RANGE, BAD_ROW, BAD_UNIT};
use crate::{NEGATIVE, OVERFLOW, OVERFLOW_OR_NAN, UNDERFLOW, ZERO_DIVISOR};
use oracle::{Duration, TryFromFloatSecsError};

pub const SECOND: Duration = Duration::SECOND;
pub const MILLISECOND: Duration = Duration::MILLISECOND;
pub const MICROSECOND: Duration = Duration::MICROSECOND;
pub const NANOSECOND: Duration = Duration::NANOSECOND;
pub const ZERO: Duration = Duration::ZERO;
pub const MAX: Duration = Duration::MAX;

pub fn new(secs: u64, nanos: u32, watch: bool) -> Answer {
    let total = u128::from(secs) * 1_000_000_000 + u128::from(nanos);
    or_panic(OVERFLOW, total > edges::MAX_NANOS, watch, || {
        Duration::new(secs, nanos)
    })
}

/// The named constructors of the Rust, by unit number.
pub fn from_unit(count: u64, unit: u32, watch: bool) -> Answer {
    let named = match unit {
        0 => Duration::from_nanos,
        1 => Duration::from_micros,
        2 => Duration::from_millis,
        3 => Duration::from_secs,
        4 => Duration::from_mins,
        5 => Duration::from_hours,
        6 => Duration::from_days,
        7 => Duration::from_weeks,
        _ => return Err(BAD_UNIT),
    };
    let foreseen = count > edges::UNIT_LIMITS[unit as usize];
    or_panic(OVERFLOW, foreseen, watch, || named(count))
}

pub fn from_nanos_u128(nanos: u128, watch: bool) -> Answer {
    or_panic(OVERFLOW, nanos > edges::MAX_NANOS, watch, || {
        Duration::from_nanos_u128(nanos)
    })
}

pub fn as_secs(d: Duration) -> Answer {
    Ok(d.as_secs().image())
}

pub fn subsec_millis(d: Duration) -> Answer {
    Ok(d.subsec_millis().image())
}

pub fn subsec_micros(d: Duration) -> Answer {
    Ok(d.subsec_micros().image())
}

pub fn subsec_nanos(d: Duration) -> Answer {
    Ok(d.subsec_nanos().image())
}

pub fn as_millis(d: Duration) -> Answer {
    Ok(d.as_millis().image())
}

pub fn as_micros(d: Duration) -> Answer {
    Ok(d.as_micros().image())
}

pub fn as_nanos(d: Duration) -> Answer {
    Ok(d.as_nanos().image())
}

pub fn is_zero(d: Duration) -> Answer {
    Ok(d.is_zero().image())
}

pub fn cmp(a: Duration, b: Duration) -> Answer {
    Ok(a.cmp(&b).image())
}

pub fn checked_add(a: Duration, b: Duration) -> Answer {
    a.checked_add(b).map(Image::image).ok_or(OVERFLOW)
}

pub fn saturating_add(a: Duration, b: Duration) -> Answer {
    Ok(a.saturating_add(b).image())
}

pub fn checked_sub(a: Duration, b: Duration) -> Answer {
    a.checked_sub(b).map(Image::image).ok_or(UNDERFLOW)
}

pub fn saturating_sub(a: Duration, b: Duration) -> Answer {
    Ok(a.saturating_sub(b).image())
}

pub fn abs_diff(a: Duration, b: Duration) -> Answer {
    Ok(a.abs_diff(b).image())
}

pub fn div_duration_floor(a: Duration, b: Duration, watch: bool) -> Answer {
    or_panic(ZERO_DIVISOR, b.is_zero(), watch, || a.div_duration_floor(b))
}

pub fn div_duration_ceil(a: Duration, b: Duration, watch: bool) -> Answer {
    or_panic(ZERO_DIVISOR, b.is_zero(), watch, || a.div_duration_ceil(b))
}

pub fn checked_mul(d: Duration, factor: u32) -> Answer {
    d.checked_mul(factor).map(Image::image).ok_or(OVERFLOW)
}

pub fn saturating_mul(d: Duration, factor: u32) -> Answer {
    Ok(d.saturating_mul(factor).image())
}

pub fn checked_div(d: Duration, divisor: u32) -> Answer {
    d.checked_div(divisor).map(Image::image).ok_or(ZERO_DIVISOR)
}

/// The rows lie as bytes. The table decides range and rows, the Rust's `iter().sum()` the rest.
pub fn sum(secs: &[u8], nanos: &[u8], first: u64, end: u64, watch: bool) -> Answer {
    let ((secs, part), (nanos, part2)) = (secs.as_chunks(), nanos.as_chunks());
    let whole = part.is_empty() && part2.is_empty() && secs.len() == nanos.len();
    if !whole || first > end || end > secs.len() as u64 {
        return Err(BAD_RANGE);
    }
    let rows = first as usize..end as usize;
    let rows = secs[rows.clone()].iter().zip(&nanos[rows]);
    let rows: Result<Vec<Duration>, u32> = rows
        .map(|(s, n)| lent(u64::from_le_bytes(*s), u32::from_le_bytes(*n)))
        .collect();
    let rows = rows.map_err(|_| BAD_ROW)?;
    let total: u128 = rows.iter().map(Duration::as_nanos).sum();
    or_panic(OVERFLOW, total > edges::MAX_NANOS, watch, || {
        rows.iter().sum::<Duration>()
    })
}

pub fn as_secs_f64(d: Duration) -> Answer {
    Ok(d.as_secs_f64().image())
}

pub fn as_secs_f32(d: Duration) -> Answer {
    Ok(d.as_secs_f32().image())
}

pub fn as_millis_f64(d: Duration) -> Answer {
    Ok(d.as_millis_f64().image())
}

pub fn as_millis_f32(d: Duration) -> Answer {
    Ok(d.as_millis_f32().image())
}

pub fn div_duration_f64(a: Duration, b: Duration) -> Answer {
    Ok(a.div_duration_f64(b).image())
}

pub fn div_duration_f32(a: Duration, b: Duration) -> Answer {
    Ok(a.div_duration_f32(b).image())
}

pub fn try_from_secs_f64(seconds: f64) -> Answer {
    Duration::try_from_secs_f64(seconds)
        .map(Image::image)
        .map_err(refused)
}

pub fn try_from_secs_f32(seconds: f32) -> Answer {
    Duration::try_from_secs_f32(seconds)
        .map(Image::image)
        .map_err(refused)
}

/// The Rust keeps the kind of its error to itself; the one for -1 s is known.
fn refused(error: TryFromFloatSecsError) -> u32 {
    match Duration::try_from_secs_f64(-1.0) {
        Err(negative) if negative == error => NEGATIVE,
        _ => OVERFLOW_OR_NAN,
    }
}

pub fn mul_f64(d: Duration, factor: f64, watch: bool) -> Answer {
    let seconds = factor * d.as_secs_f64();
    of_seconds(seconds, watch, || d.mul_f64(factor))
}

pub fn div_f64(d: Duration, divisor: f64, watch: bool) -> Answer {
    let seconds = d.as_secs_f64() / divisor;
    of_seconds(seconds, watch, || d.div_f64(divisor))
}

pub fn mul_f32(d: Duration, factor: f32, watch: bool) -> Answer {
    if !oracle::GIVEN {
        return mul_f64(d, factor.into(), watch);
    }
    let seconds = f64::from(factor) * d.as_secs_f64();
    of_seconds(seconds, watch, || d.mul_f32(factor))
}

pub fn div_f32(d: Duration, divisor: f32, watch: bool) -> Answer {
    if !oracle::GIVEN {
        return div_f64(d, divisor.into(), watch);
    }
    let seconds = d.as_secs_f64() / f64::from(divisor);
    of_seconds(seconds, watch, || d.div_f32(divisor))
}

/// The value is the Rust's own. Where it panics, its conversion of the same seconds says which refusal that is.
fn of_seconds(seconds: f64, watch: bool, value: impl FnOnce() -> Duration) -> Answer {
    let refusal = try_from_secs_f64(seconds).err();
    let number = refusal.unwrap_or(OVERFLOW_OR_NAN);
    or_panic(number, refusal.is_some(), watch, value)
}
