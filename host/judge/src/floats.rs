//! The floats at which an answer changes, by their bits: every exponent, ties of a nanosecond and near misses, the ends.

use crate::edges::sorted;
use crate::Rng;

const GIGA: u64 = 1_000_000_000;
/// What 5^9, the odd part of 10^9, gives a product of 1 with, modulo 2^128.
const INVERSE: u128 = inverse(1_953_125);

/// A width of IEEE 754.
pub struct Format {
    fraction: u32,
    exponent: u32,
}

pub const DOUBLE: Format = Format {
    fraction: 52,
    exponent: 11,
};

pub const SINGLE: Format = Format {
    fraction: 23,
    exponent: 8,
};

impl Format {
    fn width(&self) -> u32 {
        1 + self.exponent + self.fraction
    }

    fn sign(&self) -> u64 {
        1 << (self.width() - 1)
    }

    fn bias(&self) -> i64 {
        (1 << (self.exponent - 1)) - 1
    }

    fn ones(&self) -> u64 {
        (1 << self.fraction) - 1
    }

    /// 2^exponent with that fraction, where the format has such a number.
    fn at(&self, exponent: i64, fraction: u64) -> Option<u64> {
        let biased = exponent + self.bias();
        let normal = 1..2 * self.bias() + 1;
        let bits = (biased as u64) << self.fraction | (fraction & self.ones());
        normal.contains(&biased).then_some(bits)
    }

    /// m * 2^-k that is d / 2^(k-9) ns past the middle of two nanoseconds: a tie for 0. `top` chooses among them.
    ///
    /// It is m * 5^9 / 2^(k-9) ns, so the inverse of 5^9 gives m up to multiples of 2^(k-9).
    pub fn near_tie(&self, k: u32, d: i64, top: u64) -> Option<u64> {
        let modulus = 1u128 << (k - 9);
        let past = (modulus / 2).wrapping_add_signed(d.into()) % modulus;
        let low = INVERSE.wrapping_mul(past) % modulus;
        let one = 1u128 << self.fraction;
        let mantissa = if modulus <= one {
            one + (u128::from(top) * modulus) % one + low
        } else {
            low
        };
        let exact = (one..2 * one).contains(&mantissa);
        let exponent = i64::from(self.fraction) - i64::from(k);
        self.at(exponent, mantissa as u64).filter(|_| exact)
    }

    /// The largest float that is not above the middle of `nanos` and the next nanosecond, below a second.
    pub fn before_middle(&self, nanos: u64) -> u64 {
        let (middle, unit) = (u128::from(2 * nanos + 1), u128::from(2 * GIGA));
        let down = (1..).find(|k| middle << k >= unit).unwrap_or(0);
        let mantissa = (middle << (down + self.fraction)) / unit;
        self.at(-i64::from(down), mantissa as u64).unwrap_or(0)
    }

    /// Whole seconds and all ones behind the point: the nanoseconds carry where they round up.
    fn before_second(&self, exponent: u32, top: u64) -> Option<u64> {
        let behind = self.ones() >> exponent;
        self.at(exponent.into(), behind | top & !behind)
    }

    /// All that is worth asking on purpose.
    pub fn edges(&self) -> Vec<u64> {
        let half = 1 << (self.fraction - 1);
        let ones = self.ones();
        let fractions = [0, 1, 2, half - 1, half, half + 1, ones - 1, ones];
        let exponents = 0..1u64 << self.exponent;
        let mut list: Vec<u64> = exponents
            .flat_map(|e| fractions.map(|f| e << self.fraction | f))
            .collect();
        for k in 10..self.fraction + 40 {
            for top in [0, 1, 0x5555_5555_5555_5555, u64::MAX] {
                list.extend((-4..=4).filter_map(|d| self.near_tie(k, d, top)));
            }
        }
        let tens = (0..9).flat_map(|k| [10u64.pow(k) - 1, 10u64.pow(k)]);
        let middles = [1, 2, 3, GIGA / 2 - 1, GIGA / 2, GIGA - 2, GIGA - 1];
        for nanos in tens.chain(middles) {
            let below = self.before_middle(nanos);
            list.extend([below - 1, below, below + 1, below + 2]);
        }
        for exponent in 0..=self.fraction {
            for top in [0, 0x5555_5555_5555_5555, 0xAAAA_AAAA_AAAA_AAAA, u64::MAX] {
                let last = self.before_second(exponent, top);
                list.extend(last.into_iter().flat_map(|b| [b - 1, b, b + 1]));
            }
        }
        let negative: Vec<u64> = list.iter().map(|bits| bits | self.sign()).collect();
        list.extend(negative);
        sorted(list)
    }

    /// A short list for functions of a duration and a float: the ends, and common factors.
    pub fn few(&self) -> Vec<u64> {
        let ones = self.ones();
        let last = 2 * self.bias() as u64 + 1;
        let exponents = [-64, -63, -53, -33, -31, -30, -10, -2, -1, 0, 1, 2, 10];
        let far = [23, 24, 30, 31, 32, 52, 53, 62, 63, 64, 65];
        let near = exponents.into_iter().chain(far);
        let mut list: Vec<u64> = near
            .flat_map(|e| [0, 1, 1 << (self.fraction - 1), ones].map(|f| self.at(e, f)))
            .flatten()
            .collect();
        let quiet = last << self.fraction | 1 << (self.fraction - 1);
        list.extend([0, 1, 2, ones, ones + 1, quiet, quiet + 1]);
        let infinite = last << self.fraction;
        list.extend([infinite - 1, infinite, infinite + 1, infinite | ones]);
        let negative: Vec<u64> = list.iter().map(|bits| bits | self.sign()).collect();
        list.extend(negative);
        sorted(list)
    }

    /// Any bits.
    pub fn any(&self, rng: &mut Rng) -> u64 {
        rng.word() >> (64 - self.width())
    }

    /// From a thousandth of a nanosecond up to past 2^64, each exponent equally likely.
    pub fn ordinary(&self, rng: &mut Rng) -> u64 {
        let exponent = rng.below(106) as i64 - 40;
        self.at(exponent, rng.word()).unwrap_or(0)
    }

    /// A tie or a near miss at a random place.
    pub fn tie(&self, rng: &mut Rng) -> u64 {
        let k = 10 + rng.below(u64::from(self.fraction) + 2) as u32;
        let far = rng.word_of_any_length() as i64 >> 1;
        let d = rng.pick(&[0, 0, 1, -1, 2, -2, far, -far]);
        self.near_tie(k, d, rng.word())
            .unwrap_or_else(|| self.middle(rng))
    }

    /// A float below a second on either side of the middle of two nanoseconds.
    fn middle(&self, rng: &mut Rng) -> u64 {
        let limit = GIGA >> rng.below(30);
        let nanos = rng.below(limit);
        self.before_middle(nanos) + rng.below(2)
    }

    /// A number of few bits.
    fn short(&self, rng: &mut Rng) -> u64 {
        let exponent = rng.below(100) as i64 - 34;
        let fraction = rng.word() & rng.word() & rng.word() & rng.word();
        let kept = self.ones() << rng.below(u64::from(self.fraction) + 1);
        self.at(exponent, fraction & kept).unwrap_or(0)
    }

    fn carry(&self, rng: &mut Rng) -> u64 {
        let exponent = rng.below(u64::from(self.fraction) + 1) as u32;
        let last = self.before_second(exponent, rng.word()).unwrap_or(0);
        (last + rng.below(3)).saturating_sub(1)
    }

    /// Seconds of every kind, one in sixteen of the good ones with a sign.
    pub fn seconds(&self, rng: &mut Rng) -> u64 {
        let bits = match rng.below(8) {
            0 => return self.any(rng),
            1 | 2 => self.ordinary(rng),
            3 | 4 => self.tie(rng),
            5 => self.middle(rng),
            6 => self.short(rng),
            _ => self.carry(rng),
        };
        if rng.below(16) == 0 {
            bits | self.sign()
        } else {
            bits
        }
    }
}

/// Each step doubles the number of good bits; an odd number has three of its own inverse.
const fn inverse(odd: u128) -> u128 {
    let mut inverse = odd;
    let mut bits = 3;
    while bits < 128 {
        inverse = inverse.wrapping_mul(2u128.wrapping_sub(odd.wrapping_mul(inverse)));
        bits *= 2;
    }
    inverse
}
