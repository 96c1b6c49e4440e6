//! Floats out and in. A float goes through a case as its bits, so that a difference shows them.

use crate::shapes::{Pair, Shapes};
use crate::tally::Outcome;
use crate::trial::Trial;
use judge::edges::{cross, few_nanos, few_words};
use judge::floats::{DOUBLE, SINGLE};
use judge::{lent, salt, Answer, Rng};
use oracle::Duration;
use saltribbon::raw;
use std::fmt;

/// Random cases of a conversion in.
const CONVERSIONS: u64 = 10_000_000;

/// A float's bits, which are shown in hex.
#[derive(Copy, Clone)]
struct Bits(u64);

impl Bits {
    fn double(self) -> f64 {
        f64::from_bits(self.0)
    }

    fn single(self) -> f32 {
        f32::from_bits(self.0 as u32)
    }
}

impl fmt::Debug for Bits {
    fn fmt(&self, f: &mut fmt::Formatter<'_>) -> fmt::Result {
        write!(f, "{:#X}", self.0)
    }
}

/// One duration, good or bad, as a float.
pub fn out(
    t: &mut Trial,
    call: fn(u64, u32, &mut [u8]) -> u32,
    judge: fn(Duration) -> Answer,
) -> Outcome {
    t.each(
        |s| cross(&s.words, &s.nanos),
        Shapes::between,
        |(secs, nanos), out| call(secs, nanos, out),
        |(secs, nanos), _| judge(lent(secs, nanos)?),
    )
}

pub fn double(t: &mut Trial) -> Outcome {
    t.each_of(
        CONVERSIONS,
        |_| DOUBLE.edges().into_iter().map(Bits).collect(),
        |_, rng| Bits(DOUBLE.seconds(rng)),
        |bits, out| raw::try_from_secs_f64(bits.double(), out),
        |bits, _| salt::try_from_secs_f64(bits.double()),
    )
}

pub fn single(t: &mut Trial) -> Outcome {
    t.each_of(
        CONVERSIONS,
        |_| SINGLE.edges().into_iter().map(Bits).collect(),
        |_, rng| Bits(SINGLE.seconds(rng)),
        |bits, out| raw::try_from_secs_f32(bits.single(), out),
        |bits, _| salt::try_from_secs_f32(bits.single()),
    )
}

pub fn by_double(
    t: &mut Trial,
    call: fn(u64, u32, f64, &mut [u8]) -> u32,
    judge: fn(Duration, f64, bool) -> Answer,
) -> Outcome {
    by(
        t,
        &t.shapes.doubles,
        Shapes::times_double,
        |(secs, nanos), bits, out| call(secs, nanos, bits.double(), out),
        |d, bits, watch| judge(d, bits.double(), watch),
    )
}

pub fn by_single(
    t: &mut Trial,
    call: fn(u64, u32, f32, &mut [u8]) -> u32,
    judge: fn(Duration, f32, bool) -> Answer,
) -> Outcome {
    by(
        t,
        &t.shapes.singles,
        Shapes::times_single,
        |(secs, nanos), bits, out| call(secs, nanos, bits.single(), out),
        |d, bits, watch| judge(d, bits.single(), watch),
    )
}

/// A duration, good or bad, with a factor or divisor.
fn by(
    t: &mut Trial,
    few: &[u64],
    random: fn(&Shapes, &mut Rng) -> (Pair, u64),
    call: impl Fn(Pair, Bits, &mut [u8]) -> u32,
    judge: impl Fn(Duration, Bits, bool) -> Answer,
) -> Outcome {
    t.each(
        |_| {
            let pairs = cross(&few_words(), &few_nanos());
            let edges = cross(&pairs, few).into_iter();
            edges.map(|(d, bits)| (d, Bits(bits))).collect()
        },
        |shapes, rng| {
            let (d, bits) = random(shapes, rng);
            (d, Bits(bits))
        },
        |(d, bits), out| call(d, bits, out),
        |(d, bits), watch| judge(lent(d.0, d.1)?, bits, watch),
    )
}
