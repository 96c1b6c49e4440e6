//! One thin, safe function for each C function: the caller lends the buffer and gets the number that came back.

use crate::sys;

macro_rules! thin {
    ($($name:ident = $c:ident($($arg:ident: $ty:ty),*);)*) => {$(
        #[doc = concat!("`", stringify!($c), "`: 0, or the refusal's number and an untouched buffer.")]
        #[inline]
        pub fn $name($($arg: $ty,)* out: &mut [u8]) -> u32 {
            // SAFETY: the pointer and the length are those of one slice that nobody else holds.
            unsafe { sys::$c($($arg,)* out.as_mut_ptr(), out.len()) }
        }
    )*};
}

thin! {
    new = salt_new(secs: u64, nanos: u32);
    from_unit = salt_from_unit(count: u64, unit: u32);
    from_nanos_u128 = salt_from_nanos_u128(low: u64, high: u64);

    second = salt_second();
    millisecond = salt_millisecond();
    microsecond = salt_microsecond();
    nanosecond = salt_nanosecond();
    zero = salt_zero();
    max = salt_max();

    as_secs = salt_as_secs(secs: u64, nanos: u32);
    subsec_millis = salt_subsec_millis(secs: u64, nanos: u32);
    subsec_micros = salt_subsec_micros(secs: u64, nanos: u32);
    subsec_nanos = salt_subsec_nanos(secs: u64, nanos: u32);
    as_millis = salt_as_millis(secs: u64, nanos: u32);
    as_micros = salt_as_micros(secs: u64, nanos: u32);
    as_nanos = salt_as_nanos(secs: u64, nanos: u32);
    is_zero = salt_is_zero(secs: u64, nanos: u32);

    cmp = salt_cmp(secs: u64, nanos: u32, secs2: u64, nanos2: u32);

    checked_add = salt_checked_add(secs: u64, nanos: u32, secs2: u64, nanos2: u32);
    saturating_add = salt_saturating_add(secs: u64, nanos: u32, secs2: u64, nanos2: u32);
    checked_sub = salt_checked_sub(secs: u64, nanos: u32, secs2: u64, nanos2: u32);
    saturating_sub = salt_saturating_sub(secs: u64, nanos: u32, secs2: u64, nanos2: u32);
    abs_diff = salt_abs_diff(secs: u64, nanos: u32, secs2: u64, nanos2: u32);
    div_duration_floor = salt_div_duration_floor(secs: u64, nanos: u32, secs2: u64, nanos2: u32);
    div_duration_ceil = salt_div_duration_ceil(secs: u64, nanos: u32, secs2: u64, nanos2: u32);

    checked_mul = salt_checked_mul(secs: u64, nanos: u32, factor: u32);
    saturating_mul = salt_saturating_mul(secs: u64, nanos: u32, factor: u32);
    checked_div = salt_checked_div(secs: u64, nanos: u32, divisor: u32);

    as_secs_f64 = salt_as_secs_f64(secs: u64, nanos: u32);
    as_secs_f32 = salt_as_secs_f32(secs: u64, nanos: u32);
    as_millis_f64 = salt_as_millis_f64(secs: u64, nanos: u32);
    as_millis_f32 = salt_as_millis_f32(secs: u64, nanos: u32);
    div_duration_f64 = salt_div_duration_f64(secs: u64, nanos: u32, secs2: u64, nanos2: u32);
    div_duration_f32 = salt_div_duration_f32(secs: u64, nanos: u32, secs2: u64, nanos2: u32);

    try_from_secs_f64 = salt_try_from_secs_f64(seconds: f64);
    try_from_secs_f32 = salt_try_from_secs_f32(seconds: f32);
    mul_f64 = salt_mul_f64(secs: u64, nanos: u32, factor: f64);
    div_f64 = salt_div_f64(secs: u64, nanos: u32, divisor: f64);
    mul_f32 = salt_mul_f32(secs: u64, nanos: u32, factor: f32);
    div_f32 = salt_div_f32(secs: u64, nanos: u32, divisor: f32);
}

/// `salt_sum` over rows of eight and four bytes, low byte first: 0, or the refusal's number and an untouched buffer.
#[inline]
pub fn sum(secs: &[u8], nanos: &[u8], first: u64, end: u64, out: &mut [u8]) -> u32 {
    // SAFETY: each pointer goes with the length of its slice, and nobody else holds the last one.
    unsafe {
        sys::salt_sum(
            secs.as_ptr(),
            secs.len(),
            nanos.as_ptr(),
            nanos.len(),
            first,
            end,
            out.as_mut_ptr(),
            out.len(),
        )
    }
}

/// `salt_fmt`: the length, or the refusal's number negated and an untouched buffer. The options are the plus sign, the
/// precision, the width, the alignment and the fill.
#[inline]
pub fn fmt(secs: u64, nanos: u32, options: [i64; 5], out: &mut [u8]) -> i64 {
    let [plus, precision, width, align, fill] = options;
    // SAFETY: the pointer and the length are those of one slice that nobody else holds.
    unsafe {
        sys::salt_fmt(
            secs,
            nanos,
            plus,
            precision,
            width,
            align,
            fill,
            out.as_mut_ptr(),
            out.len(),
        )
    }
}
