//! The list of texts, from fixed inputs.
//!
//! A row is eight numbers of 16 hex digits, one space between them: seconds, nanoseconds, the plus sign, precision, width,
//! alignment, fill, and the number that must come back (those below zero as two's complement); then a space and the text's
//! bytes in hex, 600 columns filled up with `-`. The buffer is taken to be long enough.

use judge::text::{self, Options};
use judge::{edges, Rng};
use std::io::{self, Write};

const GIGA: u32 = 1_000_000_000;
const COLUMNS: usize = 600;
const SEED: u64 = 1_971;

/// Neither sign nor precision nor width nor alignment; the fill is a space.
const PLAIN: Options = [0, -1, -1, 0, 0x20];

type Row = ((u64, u32), Options);

pub fn list(mut out: impl Write) -> io::Result<()> {
    let rows = [
        samples(),
        units(),
        ties(),
        padded(),
        longest(),
        bad(),
        random(),
    ];
    for ((secs, nanos), options) in rows.into_iter().flatten() {
        let (code, text) = match text::fmt(secs, nanos, options) {
            Ok(text) => (text.len() as i64, text),
            Err(refusal) => (-i64::from(refusal), String::new()),
        };
        write!(out, "{secs:016X} {nanos:016X} ")?;
        for number in options.into_iter().chain([code]) {
            write!(out, "{number:016X} ")?;
        }
        let hex: String = text.bytes().map(|byte| format!("{byte:02X}")).collect();
        writeln!(out, "{hex:-<COLUMNS$}")?;
    }
    out.flush()
}

fn precision(digits: i64) -> Options {
    [0, digits, -1, 0, 0x20]
}

/// The samples of 01.
fn samples() -> Vec<Row> {
    vec![
        ((2, 500_000_000), precision(0)),
        ((3, 500_000_000), precision(0)),
        ((0, 999_999_999), precision(0)),
        ((u64::MAX, 500_000_000), precision(0)),
        ((0, 5), precision(3)),
        ((0, 1_500), [0, -1, 6, 3, 0x20]),
        ((1, 500_000_000), [0, -1, 7, 2, b'#'.into()]),
    ]
}

/// Each unit's first and last, without a precision and with none of the digits.
fn units() -> Vec<Row> {
    let nanos = [
        0,
        1,
        999,
        1_000,
        1_001,
        999_999,
        1_000_000,
        1_000_001,
        GIGA - 1,
    ];
    let mut list = nanos.map(|nanos| (0, nanos)).to_vec();
    let secs = [1, 9, 10, 1_000_000_000, u64::MAX];
    list.extend(edges::cross(&secs, &[0, 1, 100_000_000, GIGA - 1]));
    edges::cross(&list, &[PLAIN, [1, 0, -1, 0, 0x20]])
}

/// Ties of each digit after an even and an odd one, and carries through all nines.
fn ties() -> Vec<Row> {
    let mut list = Vec::new();
    for digits in 0..9 {
        let (whole, half) = (10u32.pow(9 - digits), 5 * 10u32.pow(8 - digits));
        let even = if digits == 0 { 0 } else { 2 * whole };
        let odd = if digits == 0 { 0 } else { 3 * whole };
        let row = |secs, nanos| ((secs, nanos), precision(digits.into()));
        list.extend([row(2, even + half), row(3, odd + half)]);
        list.extend([row(2, even + half - 1), row(2, even + half + 1)]);
        list.push(row(u64::MAX, GIGA - 1));
    }
    let small = [
        1_500,
        2_500,
        1_500_000,
        2_500_000,
        999_500,
        999_499,
        999_500_000,
    ];
    list.extend(small.map(|nanos| ((0, nanos), precision(0))));
    list
}

/// Widths below, at and above the length, each alignment, odd and even padding, with and without the micro sign.
fn padded() -> Vec<Row> {
    let mut list = Vec::new();
    for d in [(0, 1_500), (12, 340_000_000)] {
        for align in 0..=3 {
            for width in [0, 5, 6, 7, 9, 10] {
                list.push((d, [0, -1, width, align, 0x2E]));
            }
            list.push((d, [1, 2, 11, align, 0x7E]));
        }
    }
    list
}

/// The longest text, its neighbours, and the last precision and width.
fn longest() -> Vec<Row> {
    let last = (u64::MAX, GIGA - 1);
    vec![
        (last, [1, 255, -1, 0, 0x20]),
        (last, [1, 255, 255, 3, 0x20]),
        (last, [1, 254, 255, 3, 0x20]),
        (last, [0, 255, -1, 0, 0x20]),
        ((0, 0), [0, -1, 255, 2, 0x2A]),
        ((0, 1_000), [1, 255, 255, 2, 0x2A]),
    ]
}

/// Each option just outside its limits, and a bad duration before bad options.
fn bad() -> Vec<Row> {
    let mut list = Vec::new();
    for (at, limits) in text::LIMITS.into_iter().enumerate() {
        for number in [limits.start() - 1, limits.end() + 1, i64::MIN, i64::MAX] {
            let mut options = PLAIN;
            options[at] = number;
            list.push(((1, 0), options));
        }
    }
    list.push(((0, GIGA), PLAIN));
    list.push(((u64::MAX, u32::MAX), [2, 256, 256, 4, 0x7F]));
    list
}

fn random() -> Vec<Row> {
    let mut rng = Rng::new(SEED);
    let mut one = || {
        let secs = rng.pick(&[0, 1]) * rng.word_of_any_length();
        let nanos = rng.below(GIGA.into()) as u32 >> rng.below(30);
        let (digits, width) = (rng.below(14) as i64 - 1, rng.below(40) as i64 - 1);
        let fill = 0x20 + rng.below(95) as i64;
        let options = [
            rng.below(2) as i64,
            digits,
            width,
            rng.below(4) as i64,
            fill,
        ];
        ((secs, nanos), options)
    };
    (0..30).map(|_| one()).collect()
}
