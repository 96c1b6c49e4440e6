//! The fixed inputs of the list: the edges of each kind of function, then some random ones from a fixed seed.

use judge::floats::{DOUBLE, SINGLE};
use judge::{edges, Rng};

const GIGA: u64 = 1_000_000_000;
const SEED: u64 = 1_970;

/// Four arguments a row; unused ones are 0.
pub struct Inputs {
    pub carries: Vec<[u64; 4]>,
    pub counts: Vec<[u64; 4]>,
    pub wides: Vec<[u64; 4]>,
    pub pairs: Vec<[u64; 4]>,
    pub two_pairs: Vec<[u64; 4]>,
    pub addends: Vec<[u64; 4]>,
    pub differences: Vec<[u64; 4]>,
    pub ratios: Vec<[u64; 4]>,
    pub products: Vec<[u64; 4]>,
    pub divisions: Vec<[u64; 4]>,
    pub lists: Vec<[u64; 4]>,
    pub floats_out: Vec<[u64; 4]>,
    pub quotients: Vec<[u64; 4]>,
    pub doubles: Vec<[u64; 4]>,
    pub singles: Vec<[u64; 4]>,
    pub by_doubles: Vec<[u64; 4]>,
    pub by_singles: Vec<[u64; 4]>,
}

impl Inputs {
    pub fn new() -> Inputs {
        let mut rng = Rng::new(SEED);
        Inputs {
            carries: carries(&mut rng),
            counts: counts(&mut rng),
            wides: wides(&mut rng),
            pairs: pairs(&mut rng),
            two_pairs: two_pairs(&mut rng),
            addends: addends(&mut rng),
            differences: differences(&mut rng),
            ratios: ratios(&mut rng),
            products: products(&mut rng),
            divisions: divisions(&mut rng),
            lists: lists(),
            floats_out: floats_out(&mut rng),
            quotients: quotients(&mut rng),
            doubles: doubles(&mut rng),
            singles: singles(&mut rng),
            by_doubles: by_doubles(&mut rng),
            by_singles: by_singles(&mut rng),
        }
    }
}

type Pair = (u64, u64);

const LONGEST: Pair = (u64::MAX, GIGA - 1);

fn two(words: Pair) -> [u64; 4] {
    [words.0, words.1, 0, 0]
}

fn three((d, by): (Pair, u64)) -> [u64; 4] {
    [d.0, d.1, by, 0]
}

fn four((a, b): (Pair, Pair)) -> [u64; 4] {
    [a.0, a.1, b.0, b.1]
}

fn good(rng: &mut Rng) -> Pair {
    (rng.word_of_any_length(), rng.below(GIGA))
}

/// Two durations of which one or both are bad.
fn bad_pairs() -> [(Pair, Pair); 4] {
    let (bad, worse) = ((0, GIGA), (u64::MAX, u64::from(u32::MAX)));
    [(bad, (1, 0)), ((1, 0), bad), (LONGEST, worse), (worse, bad)]
}

/// Seconds and nanoseconds with a carry: none, one, up to four, and the last that fits.
fn carries(rng: &mut Rng) -> Vec<[u64; 4]> {
    let secs = [0, 1, u64::MAX - 4, u64::MAX - 3, u64::MAX - 1, u64::MAX];
    let last = u64::from(u32::MAX);
    let nanos = [0, 1, GIGA - 1, GIGA, 2 * GIGA - 1, 4 * GIGA, last];
    let random = (0..8).map(|_| (rng.word_of_any_length(), rng.below(last)));
    edges::cross(&secs, &nanos)
        .into_iter()
        .chain(random)
        .map(two)
        .collect()
}

/// Each unit's limit and one more, small counts, and numbers that name no unit.
fn counts(rng: &mut Rng) -> Vec<[u64; 4]> {
    let mut rows = Vec::new();
    for unit in 0..8 {
        let limit = edges::UNIT_LIMITS[unit as usize];
        rows.extend([(0, unit), (1, unit), (limit - 1, unit), (limit, unit)]);
        rows.extend(limit.checked_add(1).map(|over| (over, unit)));
        rows.extend([(u64::MAX, unit), (rng.word_of_any_length(), unit)]);
    }
    for part in [1_000, 1_000_000, GIGA] {
        rows.extend((0..3).flat_map(|unit| [(part - 1, unit), (part, unit), (part + 1, unit)]));
    }
    rows.extend([8, 9, 255, 256, u64::from(u32::MAX)].map(|unit| (5, unit)));
    rows.push((u64::MAX, 8));
    rows.into_iter().map(two).collect()
}

/// Wide counts at word ends, around the longest duration, and past it.
fn wides(rng: &mut Rng) -> Vec<[u64; 4]> {
    let (giga, word) = (u128::from(GIGA), 1u128 << 64);
    let mut rows = vec![0, 1, giga - 1, giga, giga + 1, word - 1, word, word + 1];
    rows.extend([word * giga - giga - 1, word * giga - giga]);
    rows.extend((0..5).map(|k| edges::MAX_NANOS - 2 + k));
    rows.extend([1 << 94, 1 << 127, u128::MAX - 1, u128::MAX]);
    rows.extend((60..=94).step_by(2).map(|bits| rng.wide_of_length(bits)));
    rows.extend([95, 100, 120].map(|bits| rng.wide_of_length(bits)));
    rows.into_iter()
        .map(|n| [n as u64, (n >> 64) as u64, 0, 0])
        .collect()
}

/// Durations good and bad.
fn pairs(rng: &mut Rng) -> Vec<[u64; 4]> {
    let secs = [0, 1, 1 << 32, u64::MAX];
    let last = u64::from(u32::MAX);
    let nanos = [0, 1, 999, 1_000, 999_999, 1_000_000, GIGA - 1, GIGA, last];
    let random = (0..8).map(|_| (rng.word_of_any_length(), rng.below(GIGA)));
    edges::cross(&secs, &nanos)
        .into_iter()
        .chain(random)
        .map(two)
        .collect()
}

/// Two durations: equal, close, far apart, and one or both bad.
fn two_pairs(rng: &mut Rng) -> Vec<[u64; 4]> {
    let ends = [(0, 0), (0, 1), (1, 0), (u64::MAX, 0), (u64::MAX, GIGA - 1)];
    let bad = [(0, GIGA), (u64::MAX, u64::from(u32::MAX))];
    let mut rows = edges::cross(&ends, &ends);
    rows.extend(edges::cross(&bad, &ends[3..]));
    rows.extend(edges::cross(&ends[..2], &bad));
    rows.extend(edges::cross(&bad, &bad));
    for _ in 0..4 {
        let first = (rng.word_of_any_length(), rng.below(GIGA));
        let second = (rng.word_of_any_length(), rng.below(GIGA));
        rows.extend([
            (first, first),
            (first, second),
            (first, (first.0, second.1)),
        ]);
    }
    rows.into_iter().map(four).collect()
}

/// Sums that fit, carry, reach the longest duration, and go one nanosecond over; one or both bad.
fn addends(rng: &mut Rng) -> Vec<[u64; 4]> {
    let mut rows = vec![
        ((0, 0), (0, 0)),
        ((0, GIGA - 1), (0, 1)),
        ((0, GIGA - 1), (0, GIGA - 1)),
        ((1, GIGA / 2), (1, GIGA / 2)),
        ((u64::MAX, 0), (0, GIGA - 1)),
        ((u64::MAX, 1), (0, GIGA - 1)),
        ((u64::MAX - 1, GIGA - 1), (1, 0)),
        ((u64::MAX - 1, GIGA - 1), (0, 1)),
        ((u64::MAX - 1, GIGA - 1), (1, 1)),
        ((u64::MAX, 0), (1, 0)),
        (LONGEST, (0, 0)),
        (LONGEST, (0, 1)),
        (LONGEST, LONGEST),
        ((0, 0), LONGEST),
        ((1 << 63, 0), (1 << 63, 0)),
        ((1 << 63, 0), ((1 << 63) - 1, GIGA - 1)),
    ];
    rows.extend(bad_pairs());
    rows.extend((0..8).map(|_| (good(rng), good(rng))));
    rows.into_iter().map(four).collect()
}

/// Differences above zero, at it, one nanosecond below, with and without a borrow; one or both bad.
fn differences(rng: &mut Rng) -> Vec<[u64; 4]> {
    let mut rows = vec![
        ((0, 0), (0, 0)),
        ((0, 0), (0, 1)),
        ((0, 1), (0, 0)),
        ((1, 0), (0, 1)),
        ((1, 0), (1, 0)),
        ((1, 0), (1, 1)),
        ((2, 1), (1, 2)),
        ((5, GIGA - 1), (4, 0)),
        ((1 << 32, 0), (0, GIGA - 1)),
        (LONGEST, LONGEST),
        (LONGEST, (0, 0)),
        (LONGEST, (u64::MAX, GIGA - 2)),
        ((u64::MAX, 0), (u64::MAX, GIGA - 1)),
        ((0, 0), LONGEST),
    ];
    rows.extend(bad_pairs());
    for _ in 0..4 {
        let (first, second) = (good(rng), good(rng));
        rows.extend([(first, second), (second, first)]);
    }
    rows.into_iter().map(four).collect()
}

/// One over another: 1 s over 300 ms, exact quotients and their neighbours, wide ones, zero divisors, bad ones.
fn ratios(rng: &mut Rng) -> Vec<[u64; 4]> {
    let mut rows = vec![
        ((1, 0), (0, 300_000_000)),
        ((0, 0), (0, 1)),
        ((0, 0), LONGEST),
        ((0, 1), (0, 2)),
        ((2, 0), (1, 1)),
        ((2, 0), (1, 0)),
        ((2, 0), (0, GIGA - 1)),
        (LONGEST, (0, 1)),
        (LONGEST, (0, 2)),
        (LONGEST, (1, 0)),
        (LONGEST, (1 << 32, 0)),
        (LONGEST, (u64::MAX, GIGA - 2)),
        (LONGEST, LONGEST),
        ((u64::MAX, 0), LONGEST),
        ((18_446_744_073, 709_551_615), (0, 3)),
        ((18_446_744_073, 709_551_616), (18_446_744_073, 709_551_615)),
        ((0, 0), (0, 0)),
        (LONGEST, (0, 0)),
        ((0, GIGA), (0, 0)),
    ];
    rows.extend(bad_pairs());
    for _ in 0..4 {
        let (secs, nanos) = good(rng);
        rows.extend([(good(rng), (secs, nanos)), ((secs, nanos), (0, nanos))]);
    }
    rows.into_iter().map(four).collect()
}

/// Factors: none, one, the last that fits and the next, and with a bad duration.
fn products(rng: &mut Rng) -> Vec<[u64; 4]> {
    let last = u64::from(u32::MAX);
    let mut rows = vec![
        ((0, 0), 0),
        ((0, 0), last),
        (LONGEST, 0),
        (LONGEST, 1),
        (LONGEST, 2),
        ((0, 1), last),
        ((0, GIGA - 1), last),
        ((1, GIGA / 2), 2),
        ((1, GIGA / 2), 3),
        ((u64::MAX / 3, 333_333_333), 3),
        ((u64::MAX / 3, 333_333_334), 3),
        ((u64::MAX / 2, GIGA / 2), 2),
        ((u64::MAX / 2, GIGA - 1), 2),
        ((1 << 63, 0), 2),
        ((1 << 32, 0), last),
        ((1 << 32, GIGA - 1), last),
        (((1 << 32) + 1, 0), last),
        (((1 << 32) + 1, 1), last),
        ((0, GIGA), 0),
        ((0, GIGA), 1),
        ((u64::MAX, last), last),
    ];
    rows.extend((0..8).map(|_| {
        let (secs, nanos) = good(rng);
        ((secs >> 16, nanos), rng.below(1 << 20))
    }));
    rows.into_iter().map(three).collect()
}

/// Divisors: 1 s over 3, one, zero, far ones, and zero with a bad duration.
fn divisions(rng: &mut Rng) -> Vec<[u64; 4]> {
    let last = u64::from(u32::MAX);
    let mut rows = vec![
        ((1, 0), 3),
        ((2, 0), 3),
        ((0, 0), 1),
        ((0, 0), last),
        ((0, 1), 1),
        ((0, 1), 2),
        ((0, 3), 2),
        (LONGEST, 1),
        (LONGEST, 2),
        (LONGEST, 3),
        (LONGEST, 7),
        (LONGEST, 1_000_000_000),
        (LONGEST, last),
        ((last, 0), last),
        ((last, 0), last - 1),
        ((4, 294_967_294), last),
        ((4, 294_967_295), last),
        ((0, 0), 0),
        (LONGEST, 0),
        ((0, GIGA), 0),
        ((u64::MAX, last), 7),
    ];
    rows.extend((0..10).map(|_| (good(rng), (rng.word_of_any_length() >> 32).max(1))));
    rows.into_iter().map(three).collect()
}

/// Lists by rule, each the first row's seconds, the step, the count and the first row's nanoseconds.
fn lists() -> Vec<[u64; 4]> {
    vec![
        [0, 0, 0, 0],
        [7, 0, 0, 5],
        [0, 0, 1, 0],
        [u64::MAX, 0, 1, GIGA - 1],
        [5, 3, 2, 0],
        [5, 3, 10, 999_900_000],
        [0, 1, 64, 0],
        [0, 0, 64, GIGA - 1],
        [0, 0, 64, GIGA - 504_000],
        [1_000, u64::MAX, 64, 123_456_789],
        [u64::MAX, 1, 2, 0],
        [u64::MAX, 1, 3, GIGA - 7_919],
        [u64::MAX, 1, 64, 0],
        [1 << 63, 0, 2, 0],
        [1 << 63, 1 << 63, 2, 0],
        [1 << 63, u64::MAX, 2, 0],
        [1 << 63, u64::MAX, 2, 999_996_040],
        [1 << 63, u64::MAX, 2, 499_996_040],
        [1 << 63, u64::MAX, 2, 499_996_041],
        [1 << 62, 0, 3, 0],
        [1 << 62, 0, 4, 0],
        [1 << 58, 0, 63, 0],
        [1 << 58, 0, 64, 0],
        [(1 << 58) - 1, 0, 64, 999_999_000],
        [(1 << 58) - 1, 2, 33, 999_999_000],
        [u64::MAX / 64, 0, 64, 0],
        [u64::MAX / 64, 0, 64, 999_000_000],
        [u64::MAX / 2, 0, 64, 0],
        [1, 86_400, 31, 250_000_000],
        [0x0123_4567_89AB_CDEF, 0x0FED_CBA9_8765_4321, 7, 42],
    ]
}

/// Durations as floats: middles of two floats and their neighbours for both widths, the ends, bad ones.
fn floats_out(rng: &mut Rng) -> Vec<[u64; 4]> {
    let mut rows = vec![
        (0, 0),
        (0, 1),
        (0, GIGA - 1),
        (0, 500_000_000),
        (1, 0),
        (1, 1),
        (2, 700_000_000),
        (2, 345_678_000),
        (8_388_607, GIGA - 1),
        (8_388_608, 1),
        (u64::MAX, 0),
        (u64::MAX - 1_024, 0),
        (u64::MAX - 1_023, 0),
        (u64::MAX - 1_024, GIGA - 1),
        (u64::MAX - 1_023, GIGA - 1),
        LONGEST,
        (0, GIGA),
        (u64::MAX, u64::from(u32::MAX)),
    ];
    for middle in [
        (1 << 24) + 1,
        (1 << 53) + 1,
        (1 << 53) + 3,
        (1 << 63) | 1 << 39,
    ] {
        rows.extend([(middle - 1, 0), (middle, 0), (middle + 1, 0)]);
        rows.push((middle, 500_000_000));
    }
    rows.extend((0..8).map(|_| good(rng)));
    rows.into_iter().map(two).collect()
}

/// Quotients: below one, above, exact, over zero, zero over zero, bad ones.
fn quotients(rng: &mut Rng) -> Vec<[u64; 4]> {
    let mut rows = vec![
        ((0, 0), (0, 0)),
        ((0, 1), (0, 0)),
        (LONGEST, (0, 0)),
        ((0, 0), (0, 1)),
        ((0, 0), LONGEST),
        ((1, 0), (0, 300_000_000)),
        ((1, 0), (3, 0)),
        ((2, 700_000_000), (5, 400_000_000)),
        ((0, 1), (0, 3)),
        ((0, GIGA - 1), (1, 0)),
        ((1, 0), (0, GIGA - 1)),
        (LONGEST, LONGEST),
        (LONGEST, (0, 1)),
        ((0, 1), LONGEST),
        ((u64::MAX, 0), LONGEST),
        (((1 << 53) + 1, 0), (1, 0)),
        ((9_007_199, 254_740_993), (0, 1)),
        ((9_007_199, 254_740_995), (0, 1)),
        ((0, 16_777_217), (0, 1)),
        ((0, 16_777_219), (0, 1)),
        ((0, GIGA), (0, 0)),
    ];
    rows.extend(bad_pairs());
    rows.extend((0..14).map(|_| (good(rng), good(rng))));
    rows.into_iter().map(four).collect()
}

fn one(bits: u64) -> [u64; 4] {
    [bits, 0, 0, 0]
}

/// f64 seconds: 01's samples, both signs of the ends, ties and near misses, then random ones.
fn doubles(rng: &mut Rng) -> Vec<[u64; 4]> {
    let numbers = [
        0.0,
        -0.0,
        f64::INFINITY,
        f64::NEG_INFINITY,
        -1.0,
        -5e-324,
        5e-324,
        f64::MIN_POSITIVE,
        1.0 / 1024.0,
        3.0 / 1024.0,
        2f64.powi(-31),
        2f64.powi(-30),
        1.0 - 2f64.powi(-53),
        1.0,
        0.1,
        2.7,
        1e-9,
        8_388_608.000_000_001,
        2f64.powi(53),
        2f64.powi(63),
        2f64.powi(64) - 2048.0,
        2f64.powi(64),
        1e300,
    ];
    let mut rows: Vec<u64> = numbers.map(f64::to_bits).into();
    rows.extend([0x7FF8 << 48, 0xFFF8 << 48, (0x7FF0 << 48) + 1, u64::MAX]);
    rows.extend((0..12).map(|_| DOUBLE.tie(rng)));
    rows.extend((0..8).map(|_| DOUBLE.ordinary(rng)));
    rows.into_iter().map(one).collect()
}

/// f32 seconds likewise.
fn singles(rng: &mut Rng) -> Vec<[u64; 4]> {
    let numbers = [
        0.0,
        -0.0,
        f32::INFINITY,
        f32::NEG_INFINITY,
        -1.0,
        -1e-45,
        1e-45,
        f32::MIN_POSITIVE,
        1.0 / 1024.0,
        3.0 / 1024.0,
        2f32.powi(-31),
        2f32.powi(-30),
        1.0 - 2f32.powi(-24),
        1.0,
        0.1,
        0.001,
        2.7,
        1e-9,
        16_777_215.0,
        2f32.powi(63),
        2f32.powi(64) - 2f32.powi(40),
        2f32.powi(64),
        f32::MAX,
    ];
    let mut rows: Vec<u64> = numbers.map(|x| x.to_bits().into()).into();
    rows.extend([0x7FC0_0000, 0xFFC0_0000, 0x7F80_0001, 0xFFFF_FFFF]);
    rows.extend((0..12).map(|_| SINGLE.tie(rng)));
    rows.extend((0..8).map(|_| SINGLE.ordinary(rng)));
    rows.into_iter().map(one).collect()
}

/// Durations that go with each factor and divisor.
const FACTORED: [Pair; 5] = [(0, 0), (0, 1), (2, 700_000_000), LONGEST, (0, GIGA)];

/// A duration times or over an f64: 1 ns and the float nearest zero from below, the ends, a product of 2^64 s.
fn by_doubles(rng: &mut Rng) -> Vec<[u64; 4]> {
    let numbers = [-5e-324, 3.1, 0.0, -0.0, -1.0, f64::INFINITY, f64::NAN];
    let mut rows = edges::cross(&FACTORED, &numbers.map(f64::to_bits));
    let ends = [0.5, 1.0, 1.0 - 2f64.powi(-53), 1.0 + 2f64.powi(-52), 2.0];
    rows.extend(ends.map(|by: f64| (LONGEST, by.to_bits())));
    rows.extend([3.0, 0.1, 1e-9].map(|by: f64| ((1, 0), by.to_bits())));
    rows.extend((0..6).map(|_| (good(rng), DOUBLE.ordinary(rng))));
    rows.into_iter().map(three).collect()
}

/// The same with an f32.
fn by_singles(rng: &mut Rng) -> Vec<[u64; 4]> {
    let numbers = [-1e-45, 3.1, 0.0, -0.0, -1.0, f32::INFINITY, f32::NAN];
    let bits = |by: f32| u64::from(by.to_bits());
    let mut rows = edges::cross(&FACTORED, &numbers.map(bits));
    let ends = [0.5, 1.0, 1.0 - 2f32.powi(-24), 1.0 + 2f32.powi(-23), 2.0];
    rows.extend(ends.map(|by| (LONGEST, bits(by))));
    rows.extend([3.0, 0.1, 1e-9].map(|by| ((1, 0), bits(by))));
    rows.extend((0..6).map(|_| (good(rng), SINGLE.ordinary(rng))));
    rows.into_iter().map(three).collect()
}
