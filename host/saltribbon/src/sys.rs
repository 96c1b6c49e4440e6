//! The C functions as the archive has them. Each returns 0 or a refusal number; the lent buffer is a pointer and a length.
//! The text function returns a length, or a refusal number negated.

extern "C" {
    pub fn salt_new(secs: u64, nanos: u32, out: *mut u8, len: usize) -> u32;
    pub fn salt_from_unit(count: u64, unit: u32, out: *mut u8, len: usize) -> u32;
    pub fn salt_from_nanos_u128(low: u64, high: u64, out: *mut u8, len: usize) -> u32;

    pub fn salt_second(out: *mut u8, len: usize) -> u32;
    pub fn salt_millisecond(out: *mut u8, len: usize) -> u32;
    pub fn salt_microsecond(out: *mut u8, len: usize) -> u32;
    pub fn salt_nanosecond(out: *mut u8, len: usize) -> u32;
    pub fn salt_zero(out: *mut u8, len: usize) -> u32;
    pub fn salt_max(out: *mut u8, len: usize) -> u32;

    pub fn salt_as_secs(secs: u64, nanos: u32, out: *mut u8, len: usize) -> u32;
    pub fn salt_subsec_millis(secs: u64, nanos: u32, out: *mut u8, len: usize) -> u32;
    pub fn salt_subsec_micros(secs: u64, nanos: u32, out: *mut u8, len: usize) -> u32;
    pub fn salt_subsec_nanos(secs: u64, nanos: u32, out: *mut u8, len: usize) -> u32;
    pub fn salt_as_millis(secs: u64, nanos: u32, out: *mut u8, len: usize) -> u32;
    pub fn salt_as_micros(secs: u64, nanos: u32, out: *mut u8, len: usize) -> u32;
    pub fn salt_as_nanos(secs: u64, nanos: u32, out: *mut u8, len: usize) -> u32;
    pub fn salt_is_zero(secs: u64, nanos: u32, out: *mut u8, len: usize) -> u32;

    pub fn salt_cmp(
        secs: u64,
        nanos: u32,
        secs2: u64,
        nanos2: u32,
        out: *mut u8,
        len: usize,
    ) -> u32;

    pub fn salt_checked_add(
        secs: u64,
        nanos: u32,
        secs2: u64,
        nanos2: u32,
        out: *mut u8,
        len: usize,
    ) -> u32;
    pub fn salt_saturating_add(
        secs: u64,
        nanos: u32,
        secs2: u64,
        nanos2: u32,
        out: *mut u8,
        len: usize,
    ) -> u32;
    pub fn salt_checked_sub(
        secs: u64,
        nanos: u32,
        secs2: u64,
        nanos2: u32,
        out: *mut u8,
        len: usize,
    ) -> u32;
    pub fn salt_saturating_sub(
        secs: u64,
        nanos: u32,
        secs2: u64,
        nanos2: u32,
        out: *mut u8,
        len: usize,
    ) -> u32;
    pub fn salt_abs_diff(
        secs: u64,
        nanos: u32,
        secs2: u64,
        nanos2: u32,
        out: *mut u8,
        len: usize,
    ) -> u32;
    pub fn salt_div_duration_floor(
        secs: u64,
        nanos: u32,
        secs2: u64,
        nanos2: u32,
        out: *mut u8,
        len: usize,
    ) -> u32;
    pub fn salt_div_duration_ceil(
        secs: u64,
        nanos: u32,
        secs2: u64,
        nanos2: u32,
        out: *mut u8,
        len: usize,
    ) -> u32;

    pub fn salt_checked_mul(secs: u64, nanos: u32, factor: u32, out: *mut u8, len: usize) -> u32;
    pub fn salt_saturating_mul(secs: u64, nanos: u32, factor: u32, out: *mut u8, len: usize)
        -> u32;
    pub fn salt_checked_div(secs: u64, nanos: u32, divisor: u32, out: *mut u8, len: usize) -> u32;

    pub fn salt_sum(
        secs: *const u8,
        secs_len: usize,
        nanos: *const u8,
        nanos_len: usize,
        first: u64,
        end: u64,
        out: *mut u8,
        len: usize,
    ) -> u32;

    pub fn salt_as_secs_f64(secs: u64, nanos: u32, out: *mut u8, len: usize) -> u32;
    pub fn salt_as_secs_f32(secs: u64, nanos: u32, out: *mut u8, len: usize) -> u32;
    pub fn salt_as_millis_f64(secs: u64, nanos: u32, out: *mut u8, len: usize) -> u32;
    pub fn salt_as_millis_f32(secs: u64, nanos: u32, out: *mut u8, len: usize) -> u32;
    pub fn salt_div_duration_f64(
        secs: u64,
        nanos: u32,
        secs2: u64,
        nanos2: u32,
        out: *mut u8,
        len: usize,
    ) -> u32;
    pub fn salt_div_duration_f32(
        secs: u64,
        nanos: u32,
        secs2: u64,
        nanos2: u32,
        out: *mut u8,
        len: usize,
    ) -> u32;

    pub fn salt_try_from_secs_f64(seconds: f64, out: *mut u8, len: usize) -> u32;
    pub fn salt_try_from_secs_f32(seconds: f32, out: *mut u8, len: usize) -> u32;
    pub fn salt_mul_f64(secs: u64, nanos: u32, factor: f64, out: *mut u8, len: usize) -> u32;
    pub fn salt_div_f64(secs: u64, nanos: u32, divisor: f64, out: *mut u8, len: usize) -> u32;
    pub fn salt_mul_f32(secs: u64, nanos: u32, factor: f32, out: *mut u8, len: usize) -> u32;
    pub fn salt_div_f32(secs: u64, nanos: u32, divisor: f32, out: *mut u8, len: usize) -> u32;

    pub fn salt_fmt(
        secs: u64,
        nanos: u32,
        plus: i64,
        precision: i64,
        width: i64,
        align: i64,
        fill: i64,
        out: *mut u8,
        len: usize,
    ) -> i64;
}
