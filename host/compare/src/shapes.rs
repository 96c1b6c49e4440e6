//! Random inputs of several shapes: uniform, of any bit length, near multiples, at the edges, and bad ones.

use judge::floats::{Format, DOUBLE, SINGLE};
use judge::{edges, Rng};

const GIGA: u64 = 1_000_000_000;

/// Seconds and nanoseconds, good or bad.
pub type Pair = (u64, u32);

pub struct Shapes {
    pub words: Vec<u64>,
    pub nanos: Vec<u32>,
    pub units: Vec<u32>,
    pub factors: Vec<u32>,
    pub wides: Vec<u128>,
    pub shifts: Vec<u32>,
    pub doubles: Vec<u64>,
    pub singles: Vec<u64>,
}

impl Shapes {
    pub fn new() -> Shapes {
        Shapes {
            words: edges::words(),
            nanos: edges::nanos(),
            units: edges::units(),
            factors: edges::factors(),
            wides: edges::wides(),
            shifts: edges::shifts(),
            doubles: DOUBLE.few(),
            singles: SINGLE.few(),
        }
    }

    pub fn word(&self, rng: &mut Rng) -> u64 {
        match rng.below(8) {
            0 | 1 => rng.word(),
            2 | 3 => rng.word_of_any_length(),
            4 => {
                let part = rng.pick(&[60, 1_000, 3_600, 1_000_000, GIGA]);
                let multiple = rng.word_of_any_length() / part * part;
                multiple.wrapping_add(rng.below(3)).wrapping_sub(1)
            }
            5 => rng.pick(&self.words),
            6 => blocks(rng) as u64,
            _ => u64::MAX - rng.below(16),
        }
    }

    /// One in eight is 10^9 or more.
    pub fn nanos(&self, rng: &mut Rng) -> u32 {
        match rng.below(8) {
            0..=2 => rng.below(GIGA) as u32,
            3 => (rng.word() >> 35)
                .checked_shr(rng.below(30) as u32)
                .unwrap_or(0) as u32,
            4 => {
                let part = rng.pick(&[1_000, 1_000_000]);
                let near = rng.below(GIGA / part) * part + part - 1 + rng.below(3);
                near.min(GIGA - 1) as u32
            }
            5 => rng.pick(&self.nanos),
            6 => (GIGA - 1 - rng.below(1_000)) as u32,
            _ => (GIGA + rng.below((1 << 32) - GIGA)) as u32,
        }
    }

    pub fn pair(&self, rng: &mut Rng) -> Pair {
        (self.word(rng), self.nanos(rng))
    }

    /// For a function that carries: one in eight is about to go over.
    pub fn carry(&self, rng: &mut Rng) -> Pair {
        match rng.below(8) {
            0 => (u64::MAX - rng.below(6), rng.word() as u32),
            1 => (self.word(rng), rng.word() as u32),
            _ => self.pair(rng),
        }
    }

    /// The second is often the first again, or close to it.
    pub fn two_pairs(&self, rng: &mut Rng) -> (Pair, Pair) {
        let (secs, nanos) = self.pair(rng);
        let second = match rng.below(8) {
            0 => (secs, nanos),
            1 => (secs, self.nanos(rng)),
            2 => (secs, nanos.wrapping_add(1)),
            3 => (secs.wrapping_add(1), nanos),
            4 => (secs.wrapping_sub(1), self.nanos(rng)),
            _ => self.pair(rng),
        };
        ((secs, nanos), second)
    }

    /// Two whose sum is often the longest duration, or next to it.
    pub fn addends(&self, rng: &mut Rng) -> (Pair, Pair) {
        if rng.below(4) > 0 {
            return self.two_pairs(rng);
        }
        let first = u128::from(self.word(rng)) * u128::from(GIGA) + u128::from(rng.below(GIGA));
        (
            of_nanos(first),
            of_nanos(about(edges::MAX_NANOS - first, rng)),
        )
    }

    /// The first is often a multiple of the second, or next to one; the second is zero now and then.
    pub fn ratio(&self, rng: &mut Rng) -> (Pair, Pair) {
        let divisor = (rng.wide() >> 34).checked_shr(rng.below(94) as u32);
        let divisor = divisor.unwrap_or(0).min(edges::MAX_NANOS);
        let nanos = match rng.below(8) {
            0 => return (self.pair(rng), (0, 0)),
            1 | 2 => return self.two_pairs(rng),
            3 => rng.word_of_any_length().into(),
            4 => rng.wide() >> 34,
            _ => about(divisor * u128::from(rng.word_of_any_length() >> 30), rng),
        };
        (of_nanos(nanos), of_nanos(divisor))
    }

    pub fn factor(&self, rng: &mut Rng) -> u32 {
        match rng.below(8) {
            0 | 1 => rng.pick(&self.factors),
            2 | 3 => rng.below(100) as u32,
            4 => rng.word() as u32,
            _ => (rng.word_of_any_length() >> 32) as u32,
        }
    }

    /// The duration is often the longest that the factor leaves in range, or a multiple of it, or next to one.
    pub fn scaled(&self, rng: &mut Rng) -> (Pair, u32) {
        let factor = self.factor(rng);
        let whole = u128::from(factor.max(1));
        let pair = match rng.below(4) {
            0 => of_nanos(about(edges::MAX_NANOS / whole, rng)),
            1 => of_nanos(about(whole * u128::from(rng.word_of_any_length()), rng)),
            _ => self.pair(rng),
        };
        (pair, factor)
    }

    /// A count that suits the unit: below its limit, at it, or anything.
    pub fn count(&self, rng: &mut Rng) -> (u64, u32) {
        if rng.below(32) == 0 {
            return (self.word(rng), rng.pick(&self.units));
        }
        let unit = rng.below(8);
        let limit = edges::UNIT_LIMITS[unit as usize];
        let count = match rng.below(4) {
            0 => rng.below(limit),
            1 => limit.wrapping_add(rng.below(200)).wrapping_sub(100),
            _ => self.word(rng),
        };
        (count, unit as u32)
    }

    /// Seconds often in the middle of two floats of either width, or next to it.
    pub fn between(&self, rng: &mut Rng) -> Pair {
        if rng.below(2) == 0 {
            return self.pair(rng);
        }
        let bits = rng.pick(&[25, 54]);
        let middle = (rng.wide_of_length(bits) as u64 | 1) << rng.below(65 - u64::from(bits));
        let few = rng.below(1 << 10);
        let off = rng.pick(&[0, 0, 1, u64::MAX, few]);
        (middle.wrapping_add(off), self.nanos(rng))
    }

    pub fn two_between(&self, rng: &mut Rng) -> (Pair, Pair) {
        match rng.below(16) {
            0 => (self.between(rng), (0, 0)),
            1 => self.two_pairs(rng),
            _ => (self.between(rng), self.between(rng)),
        }
    }

    /// A duration and a factor or divisor: any bits, one that takes the seconds to 2^64, a tie for one second, the ends.
    pub fn times_double(&self, rng: &mut Rng) -> (Pair, u64) {
        self.times(rng, &DOUBLE, &self.doubles, |factor| factor.to_bits())
    }

    pub fn times_single(&self, rng: &mut Rng) -> (Pair, u64) {
        self.times(rng, &SINGLE, &self.singles, |factor| {
            (factor as f32).to_bits().into()
        })
    }

    fn times(
        &self,
        rng: &mut Rng,
        format: &Format,
        few: &[u64],
        bits: impl Fn(f64) -> u64,
    ) -> (Pair, u64) {
        let (secs, nanos) = self.pair(rng);
        let far = 2f64.powi(64) / secs.max(1) as f64;
        let near = 1.0 + (rng.below(65) as f64 - 32.0) / 2f64.powi(52);
        match rng.below(8) {
            0 | 1 => ((secs, nanos), format.any(rng)),
            2 => ((secs, nanos), format.ordinary(rng)),
            3 => ((secs, nanos), bits(far * near)),
            4 => ((secs, nanos), bits(near / far)),
            5 => ((1 << rng.below(20), 0), format.seconds(rng)),
            6 => ((0, nanos), format.any(rng)),
            _ => ((secs, nanos), rng.pick(few)),
        }
    }

    pub fn wide(&self, rng: &mut Rng) -> u128 {
        match rng.below(8) {
            0 => rng.wide(),
            1..=3 => rng.wide_of_any_length(),
            4 => rng.pick(&self.wides),
            5 => blocks(rng),
            6 => blocks(rng) >> rng.below(128),
            _ => u128::from(rng.word()),
        }
    }

    /// Nanoseconds of a duration, near the longest one, or anything.
    pub fn wide_nanos(&self, rng: &mut Rng) -> u128 {
        match rng.below(4) {
            0 | 1 => u128::from(self.word(rng)) * u128::from(GIGA) + u128::from(self.nanos(rng)),
            2 => edges::MAX_NANOS - 1_000 + u128::from(rng.below(2_000)),
            _ => self.wide(rng),
        }
    }

    /// The second is often close to the first.
    pub fn two_wides(&self, rng: &mut Rng) -> (u128, u128) {
        let x = self.wide(rng);
        let y = match rng.below(8) {
            0 => x,
            1 => x.wrapping_add(1),
            2 => x ^ u128::from(self.word(rng)),
            3 => (!x).wrapping_add(u128::from(rng.below(3))),
            _ => self.wide(rng),
        };
        (x, y)
    }

    /// A multiple of the divisor, one less, or the last before the next; else anything.
    pub fn quotient(&self, rng: &mut Rng) -> (u128, u128) {
        let d = self.wide(rng);
        let multiple = d.wrapping_mul(self.wide(rng));
        let n = match rng.below(6) {
            0 => multiple,
            1 => multiple.wrapping_sub(1),
            2 => multiple.wrapping_add(d).wrapping_sub(1),
            _ => self.wide(rng),
        };
        (n, d)
    }

    pub fn shift(&self, rng: &mut Rng) -> (u128, u32) {
        let x = self.wide(rng);
        let n = match rng.below(4) {
            0 => rng.pick(&self.shifts),
            1 => x.leading_zeros() + rng.below(2) as u32,
            _ => rng.below(130) as u32,
        };
        (x, n)
    }
}

/// At most two more or two less.
fn about(n: u128, rng: &mut Rng) -> u128 {
    (n + u128::from(rng.below(5))).saturating_sub(2)
}

/// The duration of that many nanoseconds, or the longest.
pub fn of_nanos(nanos: u128) -> Pair {
    let (nanos, giga) = (nanos.min(edges::MAX_NANOS), u128::from(GIGA));
    ((nanos / giga) as u64, (nanos % giga) as u32)
}

/// Sixteen bits at a time all zeros, all ones, one end bit, or random.
fn blocks(rng: &mut Rng) -> u128 {
    (0..8).fold(0, |number, _| {
        let random = rng.word() & 0xFFFF;
        number << 16 | u128::from(rng.pick(&[0, 0xFFFF, 1, 0x8000, random, random]))
    })
}
