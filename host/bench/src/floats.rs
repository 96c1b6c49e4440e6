//! The rows of floats out and in.

use crate::clock::Clock;
use crate::{good_pair, salt, two_pairs, GIGA};
use judge::Rng;
use rust_side as rust;
use saltribbon::raw;

pub fn rows(c: &mut Clock) {
    salt!(c, "as_secs_f64", good_pair, as_secs_f64(secs, nanos));
    salt!(c, "as_secs_f32", good_pair, as_secs_f32(secs, nanos));
    salt!(c, "as_millis_f64", good_pair, as_millis_f64(secs, nanos));
    salt!(c, "as_millis_f32", good_pair, as_millis_f32(secs, nanos));
    salt!(c, "div_duration_f64", pairs, div_duration_f64(s, n, s2, n2));
    salt!(c, "div_duration_f32", pairs, div_duration_f32(s, n, s2, n2));
    conversions(c, "to 10^6 s", |r| to(r, 1e6));
    conversions(c, "below a second", |r| to(r, 1.0));
    conversions(c, "random exponents", any_size);
    scaled(c);
}

/// Neither is zero, since the Rust has a NaN of its own.
fn pairs(r: &mut Rng) -> (u64, u32, u64, u32) {
    let (secs, nanos, secs2, nanos2) = two_pairs(r);
    (secs, nanos.max(1), secs2, nanos2.max(1))
}

/// Zero up to the limit.
fn to(r: &mut Rng, limit: f64) -> f64 {
    (r.word() >> 11) as f64 / 2f64.powi(53) * limit
}

/// From 2^-40 up to 2^64, each power of two equally likely.
fn any_size(r: &mut Rng) -> f64 {
    let fraction = 1.0 + to(r, 0.9);
    fraction * 2f64.powi(r.below(104) as i32 - 40)
}

fn conversions(c: &mut Clock, kind: &str, seconds: fn(&mut Rng) -> f64) {
    salt!(
        c,
        &format!("try_from_secs_f64, {kind}"),
        |r| (seconds(r),),
        try_from_secs_f64(seconds)
    );
    salt!(
        c,
        &format!("try_from_secs_f32, {kind}"),
        |r| (seconds(r) as f32,),
        try_from_secs_f32(seconds)
    );
}

/// A time of up to some days, with a factor or divisor of about one.
fn scaled(c: &mut Clock) {
    let double = |r: &mut Rng| (r.below(1 << 20), r.below(GIGA) as u32, 0.1 + to(r, 4.0));
    let single = |r: &mut Rng| {
        let (secs, nanos, by) = double(r);
        (secs, nanos, by as f32)
    };
    salt!(c, "mul_f64", double, mul_f64(secs, nanos, by));
    salt!(c, "div_f64", double, div_f64(secs, nanos, by));
    salt!(c, "mul_f32", single, mul_f32(secs, nanos, by));
    salt!(c, "div_f32", single, div_f32(secs, nanos, by));
}
