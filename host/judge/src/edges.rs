//! The inputs at which an answer changes, and their neighbours.

const GIGA: u64 = 1_000_000_000;

/// N of the longest duration.
pub const MAX_NANOS: u128 = u64::MAX as u128 * 1_000_000_000 + 999_999_999;

/// The largest accepted count of each unit, by unit number.
pub const UNIT_LIMITS: [u64; 8] = [
    u64::MAX,
    u64::MAX,
    u64::MAX,
    u64::MAX,
    307_445_734_561_825_860,
    5_124_095_576_030_431,
    213_503_982_334_601,
    30_500_568_904_943,
];

pub(crate) fn sorted<T: Ord>(mut list: Vec<T>) -> Vec<T> {
    list.sort_unstable();
    list.dedup();
    list
}

/// Each number with its neighbours, as far as they are 64-bit numbers.
fn near(list: impl IntoIterator<Item = u64>) -> Vec<u64> {
    let around = |n: u64| [n.checked_sub(1), Some(n), n.checked_add(1)];
    sorted(list.into_iter().flat_map(around).flatten().collect())
}

/// The same for 32-bit numbers.
fn halves(list: impl IntoIterator<Item = u64>) -> Vec<u32> {
    let fits = |n: u64| u32::try_from(n).ok();
    near(list).into_iter().filter_map(fits).collect()
}

/// Whole seconds and counts: powers of two and ten, multiples of 10^3, 10^6 and 10^9, each unit's limit, the far end.
pub fn words() -> Vec<u64> {
    let twos = (0..64).map(|k| 1 << k);
    let tens = (0..20).map(|k| 10u64.pow(k));
    let parts = [1_000, 1_000_000, 1_000_000_000];
    let multiples = parts.iter().flat_map(|part| {
        let last = u64::MAX / part;
        [2, 3, 999, 1_001, last / 2, last - 1, last].map(|k| k * part)
    });
    let end = (0..7).map(|k| u64::MAX - k);
    near(
        [0].into_iter()
            .chain(twos)
            .chain(tens)
            .chain(multiples)
            .chain(UNIT_LIMITS)
            .chain(end),
    )
}

/// Nanoseconds: good ones, then those of 10^9 and more.
pub fn nanos() -> Vec<u32> {
    let twos = (0..32).map(|k| 1 << k);
    let tens = (0..10).map(|k| 10u64.pow(k));
    let marks = [
        0,
        1_500,
        999_000,
        1_500_000,
        499_999_999,
        500_000_001,
        999_000_000,
        999_999_000,
    ];
    let carries = (1..5).map(|k| k * 1_000_000_000);
    halves(
        marks
            .into_iter()
            .chain(twos)
            .chain(tens)
            .chain(carries)
            .chain([u32::MAX.into()]),
    )
}

/// Factors and divisors: powers of two and ten, and the far end.
pub fn factors() -> Vec<u32> {
    let twos = (0..32).map(|k| 1 << k);
    let tens = (0..10).map(|k| 10u64.pow(k));
    halves(twos.chain(tens).chain([u32::MAX.into()]))
}

/// Unit numbers: each good one, the first bad ones, and bad ones whose low bytes look good.
pub fn units() -> Vec<u32> {
    let bad = [
        8,
        9,
        10,
        15,
        16,
        255,
        256,
        259,
        263,
        65_536,
        65_539,
        1 << 31,
        (1 << 31) + 3,
        u32::MAX,
    ];
    (0..8).chain(bad).collect()
}

/// Two-word numbers: powers of two and sums of two of them, runs of ones, and the nanoseconds of special durations.
pub fn wides() -> Vec<u128> {
    let mut list = vec![0, 3, 10, 1_000_000_000, u128::MAX, u128::MAX - 1];
    for i in 0..128 {
        let two = 1u128 << i;
        list.extend([
            two - 1,
            two,
            two + 1,
            two.wrapping_sub(2),
            two.wrapping_add(2),
        ]);
        list.extend([u128::MAX >> i, u128::MAX << i, (u128::MAX << i) >> 1]);
    }
    for i in [31, 32, 33, 62, 63, 64, 65, 94, 95, 96, 97, 127] {
        for k in [28, 30, 31, 32, 33, 60, 63, 64]
            .into_iter()
            .filter(|k| *k < i)
        {
            let (high, low) = (1u128 << i, 1u128 << k);
            list.extend([high - low, high + low, high + low - 1]);
        }
    }
    for secs in few_words() {
        let whole = u128::from(secs) * 1_000_000_000;
        list.extend([whole.wrapping_sub(1), whole, whole + 1, whole + 999_999_999]);
    }
    list.extend([MAX_NANOS - 1, MAX_NANOS, MAX_NANOS + 1, MAX_NANOS + 2]);
    sorted(list)
}

/// Shift counts: every one up to past 128, and the far ones.
pub fn shifts() -> Vec<u32> {
    let far = [
        191,
        192,
        255,
        256,
        257,
        319,
        320,
        1 << 16,
        1 << 31,
        (1 << 31) + 1,
        u32::MAX,
    ];
    (0..=130).chain(far).collect()
}

/// A short list of seconds, for functions of two durations.
pub fn few_words() -> Vec<u64> {
    let limits = [1 << 32, 1 << 53, 1 << 63, 18_446_744_073];
    near(
        [0, 2, 60, 1_000_000_000, u64::MAX - 1]
            .into_iter()
            .chain(limits),
    )
}

/// A short list of nanoseconds, good and bad.
pub fn few_nanos() -> [u32; 12] {
    [
        0,
        1,
        999,
        1_000,
        1_000_000,
        500_000_000,
        999_999_998,
        999_999_999,
        1_000_000_000,
        1_000_000_001,
        2_000_000_000,
        u32::MAX,
    ]
}

/// Durations to print: each unit's edges, all nines, and ties of every digit with their neighbours, for all four units.
pub fn printed() -> Vec<(u64, u32)> {
    let mut nanos = nanos();
    for digit in 1..10 {
        let (whole, half) = (10u64.pow(digit), 5 * 10u64.pow(digit - 1));
        let fronts = GIGA / whole;
        for front in [0, 1, 2, 9, 10, 19, 99, fronts / 2, fronts - 2, fronts - 1] {
            let tie = front.min(fronts - 1) * whole + half;
            nanos.extend([tie - 1, tie, tie + 1].map(|n| n as u32));
        }
        nanos.extend([whole - 1, GIGA - whole, whole].map(|n| n as u32));
    }
    nanos.retain(|n| u64::from(*n) < GIGA);
    let secs = [0, 1, 2, 9, 99, u64::MAX - 1, u64::MAX];
    let tens = (1..20).flat_map(|k| [10u64.pow(k) - 1, 10u64.pow(k)]);
    let mut list = cross(&secs, &nanos);
    list.extend(tens.flat_map(|secs| [(secs, 0), (secs, 500_000_000), (secs, 999_999_999)]));
    sorted(list)
}

/// Every first with every second.
pub fn cross<A: Copy, B: Copy>(first: &[A], second: &[B]) -> Vec<(A, B)> {
    let with = |a: A| second.iter().map(move |b| (a, *b));
    first.iter().flat_map(|a| with(*a)).collect()
}
