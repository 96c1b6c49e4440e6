//! The Rust behind the same kind of boundary: C functions of our signatures, in a crate of their own so that nothing crosses the call.

#![feature(
    duration_constants,
    duration_constructors,
    duration_integer_division,
    duration_millis_float
)]

use oracle::{Duration, TryFromFloatSecsError};
use std::cmp::Ordering;
use std::slice::from_raw_parts as slice;

/// Two words for the sixteen bytes, or a refusal.
type Words = Result<(u64, u64), u32>;

/// The test that a Rust user needs before a pair is a duration.
#[inline]
fn lent(secs: u64, nanos: u32) -> Result<Duration, u32> {
    if nanos < 1_000_000_000 {
        Ok(Duration::new(secs, nanos))
    } else {
        Err(10)
    }
}

#[inline]
fn duration(d: Duration) -> (u64, u64) {
    (d.as_secs(), d.subsec_nanos().into())
}

#[inline]
fn count(n: u128) -> (u64, u64) {
    (n as u64, (n >> 64) as u64)
}

#[inline]
fn small(n: impl Into<u64>) -> (u64, u64) {
    (n.into(), 0)
}

#[inline]
fn order(o: Ordering) -> (u64, u64) {
    ((o as i8 + 1) as u64, 0)
}

#[inline]
fn unit(count: u64, unit: u32) -> Result<Duration, u32> {
    Ok(match unit {
        0 => Duration::from_nanos(count),
        1 => Duration::from_micros(count),
        2 => Duration::from_millis(count),
        3 => Duration::from_secs(count),
        4 => Duration::from_mins(count),
        5 => Duration::from_hours(count),
        6 => Duration::from_days(count),
        7 => Duration::from_weeks(count),
        _ => return Err(11),
    })
}

/// A pair as a divisor: the Rust panics for zero, a caller looks first.
#[inline]
fn divisor(secs: u64, nanos: u32) -> Result<Duration, u32> {
    let d = lent(secs, nanos)?;
    if d.is_zero() {
        Err(5)
    } else {
        Ok(d)
    }
}

/// The Rust's sum panics above the longest duration; no row of the benchmark goes there.
#[inline]
fn total(rows: impl Iterator<Item = Duration>) -> (u64, u64) {
    duration(rows.sum())
}

/// The Rust keeps the kind of its error to itself, so a caller asks for the sign.
#[inline]
fn converted(d: Result<Duration, TryFromFloatSecsError>, negative: bool) -> Words {
    d.map(duration).map_err(|_| if negative { 1 } else { 2 })
}

/// Where the compiler's own Duration stands in, the operand is widened here: that one may work in f32.
#[inline]
fn by_single(
    d: Duration,
    by: f32,
    given: impl Fn(Duration, f32) -> Duration,
    wider: impl Fn(Duration, f64) -> Duration,
) -> Duration {
    if oracle::GIVEN {
        given(d, by)
    } else {
        wider(d, by.into())
    }
}

#[inline]
fn wide(low: u64, high: u64) -> u128 {
    u128::from(high) << 64 | u128::from(low)
}

macro_rules! boundary {
    ($($name:ident($($arg:ident: $ty:ty),*) = $words:expr;)*) => {$(
        /// # Safety
        /// A pointer and the length after it are those of one slice; nobody else holds the last one.
        #[allow(improper_ctypes_definitions)] // A `Duration` stays behind its pointer.
        #[inline(never)]
        pub unsafe extern "C" fn $name($($arg: $ty,)* out: *mut u8, len: usize) -> u32 {
            let words = || -> Words { Ok($words) };
            match words() {
                Err(refusal) => refusal,
                Ok(_) if len < 16 => 9,
                Ok((low, high)) => {
                    let out = std::slice::from_raw_parts_mut(out, 16);
                    out[..8].copy_from_slice(&low.to_le_bytes());
                    out[8..].copy_from_slice(&high.to_le_bytes());
                    0
                }
            }
        }
    )*};
}

boundary! {
    new(secs: u64, nanos: u32) = duration(Duration::new(secs, nanos));
    from_unit(count: u64, number: u32) = duration(unit(count, number)?);
    from_nanos_u128(low: u64, high: u64) = duration(Duration::from_nanos_u128(wide(low, high)));

    second() = duration(Duration::SECOND);
    millisecond() = duration(Duration::MILLISECOND);
    microsecond() = duration(Duration::MICROSECOND);
    nanosecond() = duration(Duration::NANOSECOND);
    zero() = duration(Duration::ZERO);
    max() = duration(Duration::MAX);

    as_secs(secs: u64, nanos: u32) = small(lent(secs, nanos)?.as_secs());
    subsec_millis(secs: u64, nanos: u32) = small(lent(secs, nanos)?.subsec_millis());
    subsec_micros(secs: u64, nanos: u32) = small(lent(secs, nanos)?.subsec_micros());
    subsec_nanos(secs: u64, nanos: u32) = small(lent(secs, nanos)?.subsec_nanos());
    as_millis(secs: u64, nanos: u32) = count(lent(secs, nanos)?.as_millis());
    as_micros(secs: u64, nanos: u32) = count(lent(secs, nanos)?.as_micros());
    as_nanos(secs: u64, nanos: u32) = count(lent(secs, nanos)?.as_nanos());
    is_zero(secs: u64, nanos: u32) = small(lent(secs, nanos)?.is_zero());

    cmp(secs: u64, nanos: u32, secs2: u64, nanos2: u32) = order(lent(secs, nanos)?.cmp(&lent(secs2, nanos2)?));

    checked_add(secs: u64, nanos: u32, secs2: u64, nanos2: u32) =
        duration(lent(secs, nanos)?.checked_add(lent(secs2, nanos2)?).ok_or(3u32)?);
    saturating_add(secs: u64, nanos: u32, secs2: u64, nanos2: u32) =
        duration(lent(secs, nanos)?.saturating_add(lent(secs2, nanos2)?));
    checked_sub(secs: u64, nanos: u32, secs2: u64, nanos2: u32) =
        duration(lent(secs, nanos)?.checked_sub(lent(secs2, nanos2)?).ok_or(4u32)?);
    saturating_sub(secs: u64, nanos: u32, secs2: u64, nanos2: u32) =
        duration(lent(secs, nanos)?.saturating_sub(lent(secs2, nanos2)?));
    abs_diff(secs: u64, nanos: u32, secs2: u64, nanos2: u32) =
        duration(lent(secs, nanos)?.abs_diff(lent(secs2, nanos2)?));
    div_duration_floor(secs: u64, nanos: u32, secs2: u64, nanos2: u32) =
        count(lent(secs, nanos)?.div_duration_floor(divisor(secs2, nanos2)?));
    div_duration_ceil(secs: u64, nanos: u32, secs2: u64, nanos2: u32) =
        count(lent(secs, nanos)?.div_duration_ceil(divisor(secs2, nanos2)?));

    checked_mul(secs: u64, nanos: u32, factor: u32) =
        duration(lent(secs, nanos)?.checked_mul(factor).ok_or(3u32)?);
    saturating_mul(secs: u64, nanos: u32, factor: u32) =
        duration(lent(secs, nanos)?.saturating_mul(factor));
    checked_div(secs: u64, nanos: u32, divisor: u32) =
        duration(lent(secs, nanos)?.checked_div(divisor).ok_or(5u32)?);

    as_secs_f64(secs: u64, nanos: u32) = small(lent(secs, nanos)?.as_secs_f64().to_bits());
    as_secs_f32(secs: u64, nanos: u32) = small(lent(secs, nanos)?.as_secs_f32().to_bits());
    as_millis_f64(secs: u64, nanos: u32) = small(lent(secs, nanos)?.as_millis_f64().to_bits());
    as_millis_f32(secs: u64, nanos: u32) = small(lent(secs, nanos)?.as_millis_f32().to_bits());
    div_duration_f64(secs: u64, nanos: u32, secs2: u64, nanos2: u32) =
        small(lent(secs, nanos)?.div_duration_f64(lent(secs2, nanos2)?).to_bits());
    div_duration_f32(secs: u64, nanos: u32, secs2: u64, nanos2: u32) =
        small(lent(secs, nanos)?.div_duration_f32(lent(secs2, nanos2)?).to_bits());

    try_from_secs_f64(seconds: f64) = converted(Duration::try_from_secs_f64(seconds), seconds < 0.0)?;
    try_from_secs_f32(seconds: f32) = converted(Duration::try_from_secs_f32(seconds), seconds < 0.0)?;
    mul_f64(secs: u64, nanos: u32, factor: f64) = duration(lent(secs, nanos)?.mul_f64(factor));
    div_f64(secs: u64, nanos: u32, divisor: f64) = duration(lent(secs, nanos)?.div_f64(divisor));
    mul_f32(secs: u64, nanos: u32, factor: f32) = duration(by_single(lent(secs, nanos)?, factor, Duration::mul_f32, Duration::mul_f64));
    div_f32(secs: u64, nanos: u32, divisor: f32) = duration(by_single(lent(secs, nanos)?, divisor, Duration::div_f32, Duration::div_f64));

    sum(rows: *const Duration, rows_len: usize) = total(slice(rows, rows_len).iter().copied());
    sum_zipped(secs: *const u64, secs_len: usize, nanos: *const u32, nanos_len: usize) =
        total(slice(secs, secs_len).iter().zip(slice(nanos, nanos_len)).map(|(s, n)| Duration::new(*s, *n)));
}

/// The Rust's Debug into a lent buffer: the length, or 0 where it does not fit.
pub mod text {
    use super::lent;
    use std::fmt::{Arguments, Error, Result, Write};

    struct Fixed<'a> {
        out: &'a mut [u8],
        length: usize,
    }

    impl Write for Fixed<'_> {
        #[inline]
        fn write_str(&mut self, text: &str) -> Result {
            let rest = &mut self.out[self.length..];
            let place = rest.get_mut(..text.len()).ok_or(Error)?;
            place.copy_from_slice(text.as_bytes());
            self.length += text.len();
            Ok(())
        }
    }

    #[inline]
    unsafe fn write(out: *mut u8, len: usize, text: Arguments) -> u32 {
        let mut fixed = Fixed {
            out: std::slice::from_raw_parts_mut(out, len),
            length: 0,
        };
        match fixed.write_fmt(text) {
            Ok(()) => fixed.length as u32,
            Err(Error) => 0,
        }
    }

    /// # Safety
    /// `out` and `len` are those of one slice that nobody else holds.
    #[inline(never)]
    pub unsafe extern "C" fn plain(secs: u64, nanos: u32, out: *mut u8, len: usize) -> u32 {
        match lent(secs, nanos) {
            Ok(d) => write(out, len, format_args!("{d:?}")),
            Err(_) => 0,
        }
    }

    /// # Safety
    /// `out` and `len` are those of one slice that nobody else holds.
    #[inline(never)]
    pub unsafe extern "C" fn padded(
        secs: u64,
        nanos: u32,
        precision: usize,
        width: usize,
        out: *mut u8,
        len: usize,
    ) -> u32 {
        match lent(secs, nanos) {
            Ok(d) => write(out, len, format_args!("{d:>width$.precision$?}")),
            Err(_) => 0,
        }
    }
}

/// Two-word arithmetic by Rust's u128.
pub mod door {
    use super::{count, order, wide};

    type Four = Result<((u64, u64), (u64, u64)), u32>;

    macro_rules! boundary {
        ($($name:ident($($arg:ident: $ty:ty),*) = $words:expr;)*) => {$(
            /// # Safety
            /// `out` points to four words that nobody else holds.
            #[inline(never)]
            pub unsafe extern "C" fn $name($($arg: $ty,)* out: *mut u64) -> u32 {
                let words = || -> Four { Ok($words) };
                match words() {
                    Err(refusal) => refusal,
                    Ok(((a, b), (c, d))) => {
                        *out.cast::<[u64; 4]>() = [a, b, c, d];
                        0
                    }
                }
            }
        )*};
    }

    const NONE: (u64, u64) = (0, 0);

    #[inline]
    fn left(x: u128, n: u32) -> Result<u128, u32> {
        if x == 0 {
            Ok(0)
        } else if n > x.leading_zeros() {
            Err(3)
        } else {
            Ok(x << n)
        }
    }

    #[inline]
    fn quotient(n: u128, d: u128) -> Four {
        if d == 0 {
            return Err(5);
        }
        Ok((count(n / d), count(n % d)))
    }

    boundary! {
        widening_mul(a: u64, b: u64) = (count(u128::from(a) * u128::from(b)), NONE);
        mul(x_lo: u64, x_hi: u64, y_lo: u64, y_hi: u64) =
            (count(wide(x_lo, x_hi).checked_mul(wide(y_lo, y_hi)).ok_or(3u32)?), NONE);
        add(x_lo: u64, x_hi: u64, y_lo: u64, y_hi: u64) =
            (count(wide(x_lo, x_hi).checked_add(wide(y_lo, y_hi)).ok_or(3u32)?), NONE);
        sub(x_lo: u64, x_hi: u64, y_lo: u64, y_hi: u64) =
            (count(wide(x_lo, x_hi).checked_sub(wide(y_lo, y_hi)).ok_or(4u32)?), NONE);
        compare(x_lo: u64, x_hi: u64, y_lo: u64, y_hi: u64) =
            (order(wide(x_lo, x_hi).cmp(&wide(y_lo, y_hi))), NONE);
        shl(x_lo: u64, x_hi: u64, n: u32) = (count(left(wide(x_lo, x_hi), n)?), NONE);
        shr(x_lo: u64, x_hi: u64, n: u32) =
            (count(wide(x_lo, x_hi).checked_shr(n).unwrap_or(0)), NONE);
        div(n_lo: u64, n_hi: u64, d_lo: u64, d_hi: u64) =
            quotient(wide(n_lo, n_hi), wide(d_lo, d_hi))?;
    }
}
