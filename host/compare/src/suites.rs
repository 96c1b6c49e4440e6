//! The suites, one row a function: its name, the numbers its cases must meet, how many real panics at least, and its driver.

use crate::shapes::Shapes;
use crate::tally::Outcome;
use crate::trial::Trial;
use crate::{floats, patterns, sums, texts, wrapper};
use judge::edges::cross;
use judge::{salt, wide};
use saltribbon::raw;
use wide_door as door;

#[derive(Copy, Clone)]
pub struct Suite {
    pub name: &'static str,
    /// Every number that some case must expect, and no other.
    pub numbers: &'static [u32],
    /// The least number of panics of the Rust that stand behind a refusal.
    pub panics: u64,
    pub run: fn(&mut Trial) -> Outcome,
}

const fn suite(
    name: &'static str,
    numbers: &'static [u32],
    panics: u64,
    run: fn(&mut Trial) -> Outcome,
) -> Suite {
    Suite {
        name,
        numbers,
        panics,
        run,
    }
}

pub fn all() -> Vec<Suite> {
    let mut suites = c_functions();
    suites.push(suite("wrapper", &[], 0, wrapper::run));
    suites
}

pub fn c_functions() -> Vec<Suite> {
    let mut suites = two_words();
    suites.extend(constructors_and_parts());
    suites.extend(arithmetic());
    suites.push(suite("salt_sum", &[0, 3, 6, 7, 9], 2_000, sums::run));
    suites.extend(floats_out());
    suites.extend(floats_in());
    suites.push(suite("salt_fmt", &[0, 8, 9, 10], 0, texts::run));
    suites
}

/// Every f32 into a duration, in pieces. None is left out, so there is nothing that its cases must meet.
pub const EVERY_F32: Suite = suite("every_f32", &[], 0, patterns::every_f32);
/// Many an f64 into a duration, in pieces.
pub const MANY_F64: Suite = suite("many_f64", &[0, 1, 2], 0, patterns::many_f64);

fn two_words() -> Vec<Suite> {
    vec![
        suite("door_widening_mul", &[0], 0, |t| {
            t.door(
                |s| cross(&s.words, &s.words),
                |s, r| (s.word(r), s.word(r)),
                |(a, b), out| door::widening_mul(a, b, out),
                |(a, b)| wide::widening_mul(a, b),
            )
        }),
        suite("door_mul", &[0, 3], 0, |t| {
            two(t, Shapes::two_wides, door::mul, wide::mul)
        }),
        suite("door_add", &[0, 3], 0, |t| {
            two(t, Shapes::two_wides, door::add, wide::add)
        }),
        suite("door_sub", &[0, 4], 0, |t| {
            two(t, Shapes::two_wides, door::sub, wide::sub)
        }),
        suite("door_compare", &[0], 0, |t| {
            two(t, Shapes::two_wides, door::compare, wide::compare)
        }),
        suite("door_shl", &[0, 3], 0, |t| shift(t, door::shl, wide::shl)),
        suite("door_shr", &[0], 0, |t| shift(t, door::shr, wide::shr)),
        suite("door_div", &[0, 5], 0, |t| {
            two(t, Shapes::quotient, door::div, wide::div)
        }),
    ]
}

fn two(
    t: &mut Trial,
    random: fn(&Shapes, &mut judge::Rng) -> (u128, u128),
    call: fn(u64, u64, u64, u64, &mut [u64; 4]) -> u32,
    judge: fn(u128, u128) -> wide::Words,
) -> Outcome {
    let call = |(x, y): (u128, u128), out: &mut [u64; 4]| {
        call(x as u64, (x >> 64) as u64, y as u64, (y >> 64) as u64, out)
    };
    t.door(
        |s| cross(&s.wides, &s.wides),
        random,
        call,
        |(x, y)| judge(x, y),
    )
}

fn shift(
    t: &mut Trial,
    call: fn(u64, u64, u32, &mut [u64; 4]) -> u32,
    judge: fn(u128, u32) -> wide::Words,
) -> Outcome {
    let call = |(x, n): (u128, u32), out: &mut [u64; 4]| call(x as u64, (x >> 64) as u64, n, out);
    t.door(
        |s| cross(&s.wides, &s.shifts),
        Shapes::shift,
        call,
        |(x, n)| judge(x, n),
    )
}

fn constructors_and_parts() -> Vec<Suite> {
    vec![
        suite("salt_new", &[0, 3, 9], 2_000, |t| {
            t.pair(raw::new, salt::new)
        }),
        suite("salt_from_unit", &[0, 3, 9, 11], 2_000, |t| {
            t.count(raw::from_unit, salt::from_unit)
        }),
        suite("salt_from_nanos_u128", &[0, 3, 9], 2_000, |t| {
            t.wide_count(raw::from_nanos_u128, salt::from_nanos_u128)
        }),
        suite("salt_second", &[0, 9], 0, |t| {
            t.constant(raw::second, salt::SECOND)
        }),
        suite("salt_millisecond", &[0, 9], 0, |t| {
            t.constant(raw::millisecond, salt::MILLISECOND)
        }),
        suite("salt_microsecond", &[0, 9], 0, |t| {
            t.constant(raw::microsecond, salt::MICROSECOND)
        }),
        suite("salt_nanosecond", &[0, 9], 0, |t| {
            t.constant(raw::nanosecond, salt::NANOSECOND)
        }),
        suite("salt_zero", &[0, 9], 0, |t| {
            t.constant(raw::zero, salt::ZERO)
        }),
        suite("salt_max", &[0, 9], 0, |t| t.constant(raw::max, salt::MAX)),
        suite("salt_as_secs", &[0, 9, 10], 0, |t| {
            t.unary(raw::as_secs, salt::as_secs)
        }),
        suite("salt_subsec_millis", &[0, 9, 10], 0, |t| {
            t.unary(raw::subsec_millis, salt::subsec_millis)
        }),
        suite("salt_subsec_micros", &[0, 9, 10], 0, |t| {
            t.unary(raw::subsec_micros, salt::subsec_micros)
        }),
        suite("salt_subsec_nanos", &[0, 9, 10], 0, |t| {
            t.unary(raw::subsec_nanos, salt::subsec_nanos)
        }),
        suite("salt_as_millis", &[0, 9, 10], 0, |t| {
            t.unary(raw::as_millis, salt::as_millis)
        }),
        suite("salt_as_micros", &[0, 9, 10], 0, |t| {
            t.unary(raw::as_micros, salt::as_micros)
        }),
        suite("salt_as_nanos", &[0, 9, 10], 0, |t| {
            t.unary(raw::as_nanos, salt::as_nanos)
        }),
        suite("salt_is_zero", &[0, 9, 10], 0, |t| {
            t.unary(raw::is_zero, salt::is_zero)
        }),
        suite("salt_cmp", &[0, 9, 10], 0, |t| {
            t.binary(Shapes::two_pairs, raw::cmp, |a, b, _| salt::cmp(a, b))
        }),
    ]
}

fn arithmetic() -> Vec<Suite> {
    vec![
        suite("salt_checked_add", &[0, 3, 9, 10], 0, |t| {
            t.binary(Shapes::addends, raw::checked_add, |a, b, _| {
                salt::checked_add(a, b)
            })
        }),
        suite("salt_saturating_add", &[0, 9, 10], 0, |t| {
            t.binary(Shapes::addends, raw::saturating_add, |a, b, _| {
                salt::saturating_add(a, b)
            })
        }),
        suite("salt_checked_sub", &[0, 4, 9, 10], 0, |t| {
            t.binary(Shapes::two_pairs, raw::checked_sub, |a, b, _| {
                salt::checked_sub(a, b)
            })
        }),
        suite("salt_saturating_sub", &[0, 9, 10], 0, |t| {
            t.binary(Shapes::two_pairs, raw::saturating_sub, |a, b, _| {
                salt::saturating_sub(a, b)
            })
        }),
        suite("salt_abs_diff", &[0, 9, 10], 0, |t| {
            t.binary(Shapes::two_pairs, raw::abs_diff, |a, b, _| {
                salt::abs_diff(a, b)
            })
        }),
        suite("salt_div_duration_floor", &[0, 5, 9, 10], 2_000, |t| {
            t.binary(
                Shapes::ratio,
                raw::div_duration_floor,
                salt::div_duration_floor,
            )
        }),
        suite("salt_div_duration_ceil", &[0, 5, 9, 10], 2_000, |t| {
            t.binary(
                Shapes::ratio,
                raw::div_duration_ceil,
                salt::div_duration_ceil,
            )
        }),
        suite("salt_checked_mul", &[0, 3, 9, 10], 0, |t| {
            t.scaled(raw::checked_mul, salt::checked_mul)
        }),
        suite("salt_saturating_mul", &[0, 9, 10], 0, |t| {
            t.scaled(raw::saturating_mul, salt::saturating_mul)
        }),
        suite("salt_checked_div", &[0, 5, 9, 10], 0, |t| {
            t.scaled(raw::checked_div, salt::checked_div)
        }),
    ]
}

fn floats_out() -> Vec<Suite> {
    vec![
        suite("salt_as_secs_f64", &[0, 9, 10], 0, |t| {
            floats::out(t, raw::as_secs_f64, salt::as_secs_f64)
        }),
        suite("salt_as_secs_f32", &[0, 9, 10], 0, |t| {
            floats::out(t, raw::as_secs_f32, salt::as_secs_f32)
        }),
        suite("salt_as_millis_f64", &[0, 9, 10], 0, |t| {
            floats::out(t, raw::as_millis_f64, salt::as_millis_f64)
        }),
        suite("salt_as_millis_f32", &[0, 9, 10], 0, |t| {
            floats::out(t, raw::as_millis_f32, salt::as_millis_f32)
        }),
        suite("salt_div_duration_f64", &[0, 9, 10], 0, |t| {
            t.binary(Shapes::two_between, raw::div_duration_f64, |a, b, _| {
                salt::div_duration_f64(a, b)
            })
        }),
        suite("salt_div_duration_f32", &[0, 9, 10], 0, |t| {
            t.binary(Shapes::two_between, raw::div_duration_f32, |a, b, _| {
                salt::div_duration_f32(a, b)
            })
        }),
    ]
}

fn floats_in() -> Vec<Suite> {
    vec![
        suite("salt_try_from_secs_f64", &[0, 1, 2, 9], 0, floats::double),
        suite("salt_try_from_secs_f32", &[0, 1, 2, 9], 0, floats::single),
        suite("salt_mul_f64", &[0, 1, 2, 9, 10], 2_000, |t| {
            floats::by_double(t, raw::mul_f64, salt::mul_f64)
        }),
        suite("salt_div_f64", &[0, 1, 2, 9, 10], 2_000, |t| {
            floats::by_double(t, raw::div_f64, salt::div_f64)
        }),
        suite("salt_mul_f32", &[0, 1, 2, 9, 10], 2_000, |t| {
            floats::by_single(t, raw::mul_f32, salt::mul_f32)
        }),
        suite("salt_div_f32", &[0, 1, 2, 9, 10], 2_000, |t| {
            floats::by_single(t, raw::div_f32, salt::div_f32)
        }),
    ]
}
