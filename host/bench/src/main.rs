//! Times our C functions beside the Rust, both through a C boundary and alternating in one run. Only the ratio is a claim.
//!
//! `bench [--only NAME]`: `--only` runs the rows whose name holds NAME.

mod arithmetic;
mod clock;
mod floats;
mod texts;

use clock::Clock;
use judge::Rng;
use rust_side as rust;
use saltribbon::raw;
use wide_door as door;

/// One row: our function and the Rust's of the same name, fed from one list of inputs.
macro_rules! salt {
    ($clock:ident, $row:expr, $inputs:expr, $name:ident($($arg:ident),*)) => {
        $clock.row(
            $row,
            $inputs,
            [0u8; 16],
            |&($($arg,)*), out| raw::$name($($arg,)* out),
            // SAFETY: pointer and length are those of one slice.
            |&($($arg,)*), out| unsafe { rust::$name($($arg,)* out.as_mut_ptr(), out.len()) },
        )
    };
}

use salt;

macro_rules! door {
    ($clock:ident, $row:expr, $inputs:expr, $name:ident($($arg:ident),*)) => {
        $clock.row(
            $row,
            $inputs,
            [0u64; 4],
            |&($($arg,)*), out| door::$name($($arg,)* out),
            // SAFETY: the pointer is to four words.
            |&($($arg,)*), out| unsafe { rust::door::$name($($arg,)* out.as_mut_ptr()) },
        )
    };
}

const GIGA: u64 = 1_000_000_000;

/// By unit number.
const UNITS: [&str; 8] = [
    "nanoseconds",
    "microseconds",
    "milliseconds",
    "seconds",
    "minutes",
    "hours",
    "days",
    "weeks",
];

/// Bits of the dividend and of the divisor.
const SIZES: [(u32, u32); 23] = [
    (50, 30),
    (50, 49),
    (50, 50),
    (80, 33),
    (90, 30),
    (90, 33),
    (90, 34),
    (90, 50),
    (90, 63),
    (90, 64),
    (90, 70),
    (90, 89),
    (94, 60),
    (120, 62),
    (127, 30),
    (127, 33),
    (127, 34),
    (127, 50),
    (127, 64),
    (127, 70),
    (127, 95),
    (127, 100),
    (127, 126),
];

fn halves(n: u128) -> (u64, u64) {
    (n as u64, (n >> 64) as u64)
}

fn good_pair(r: &mut Rng) -> (u64, u32) {
    (r.word_of_any_length(), r.below(GIGA) as u32)
}

fn two_pairs(r: &mut Rng) -> (u64, u32, u64, u32) {
    let ((a, b), (x, y)) = (good_pair(r), good_pair(r));
    (a, b, x, y)
}

fn main() {
    let mut args = std::env::args().skip(1);
    let only = match (args.next().as_deref(), args.next(), args.next()) {
        (None, None, None) => String::new(),
        (Some("--only"), Some(name), None) => name,
        _ => {
            eprintln!("usage: bench [--only NAME]");
            std::process::exit(2);
        }
    };
    if cfg!(debug_assertions) {
        eprintln!("without optimisation the ratios mean nothing: add --release");
        std::process::exit(2);
    }
    let mut clock = Clock::new(only, oracle::SOURCE);
    constructors(&mut clock);
    constants(&mut clock);
    parts(&mut clock);
    arithmetic::rows(&mut clock);
    floats::rows(&mut clock);
    texts::rows(&mut clock);
    two_words(&mut clock);
    if clock.rows == 0 {
        eprintln!("no row has that name: leave out --only to run all");
        std::process::exit(2);
    }
}

fn constructors(c: &mut Clock) {
    salt!(c, "new", good_pair, new(secs, nanos));
    salt!(
        c,
        "new, carry",
        |r| (r.word() >> 1, r.word() as u32),
        new(secs, nanos)
    );
    for (unit, name) in (0..).zip(UNITS) {
        let limit = judge::edges::UNIT_LIMITS[unit as usize];
        let row = format!("from_unit, {name}");
        salt!(c, &row, |r| (r.below(limit), unit), from_unit(n, unit));
    }
    let mixed = |r: &mut Rng| (r.below(1 << 40), r.below(8) as u32);
    salt!(c, "from_unit, mixed", mixed, from_unit(n, unit));
    for bits in [50, 64, 70, 93] {
        let row = format!("from_nanos_u128, {bits} bits");
        salt!(
            c,
            &row,
            |r| halves(r.wide_of_length(bits)),
            from_nanos_u128(low, high)
        );
    }
}

fn constants(c: &mut Clock) {
    salt!(c, "second", |_| (), second());
    salt!(c, "millisecond", |_| (), millisecond());
    salt!(c, "microsecond", |_| (), microsecond());
    salt!(c, "nanosecond", |_| (), nanosecond());
    salt!(c, "zero", |_| (), zero());
    salt!(c, "max", |_| (), max());
}

fn parts(c: &mut Clock) {
    salt!(c, "as_secs", good_pair, as_secs(secs, nanos));
    salt!(c, "subsec_millis", good_pair, subsec_millis(secs, nanos));
    salt!(c, "subsec_micros", good_pair, subsec_micros(secs, nanos));
    salt!(c, "subsec_nanos", good_pair, subsec_nanos(secs, nanos));
    salt!(c, "as_millis", good_pair, as_millis(secs, nanos));
    salt!(c, "as_micros", good_pair, as_micros(secs, nanos));
    salt!(c, "as_nanos", good_pair, as_nanos(secs, nanos));
    salt!(c, "is_zero", good_pair, is_zero(secs, nanos));
    salt!(c, "cmp", two_pairs, cmp(secs, nanos, secs2, nanos2));
    let close = |r: &mut Rng| {
        let (secs, nanos) = good_pair(r);
        (secs, nanos, secs, r.below(GIGA) as u32)
    };
    salt!(
        c,
        "cmp, same seconds",
        close,
        cmp(secs, nanos, secs2, nanos2)
    );
}

fn two_words(c: &mut Clock) {
    let small = |r: &mut Rng| {
        let ((a, b), (x, y)) = (halves(r.wide() >> 1), halves(r.wide() >> 1));
        (a, b, x, y)
    };
    let falling = |r: &mut Rng| {
        let (x, y) = (r.wide(), r.wide());
        let ((a, b), (x, y)) = (halves(x.max(y)), halves(x.min(y)));
        (a, b, x, y)
    };
    let shift = |r: &mut Rng| {
        let n = r.below(120) as u32;
        let (low, high) = halves(r.wide() >> n);
        (low, high, n)
    };
    let factors = |r: &mut Rng| {
        let n = r.below(120) as u32 + 1;
        let ((a, b), (x, y)) = (halves(r.wide() >> n), halves(r.wide() >> (128 - n)));
        (a, b, x, y)
    };
    door!(
        c,
        "door_widening_mul",
        |r| (r.word(), r.word()),
        widening_mul(a, b)
    );
    door!(c, "door_mul", factors, mul(x_lo, x_hi, y_lo, y_hi));
    door!(c, "door_add", small, add(x_lo, x_hi, y_lo, y_hi));
    door!(c, "door_sub", falling, sub(x_lo, x_hi, y_lo, y_hi));
    door!(c, "door_compare", small, compare(x_lo, x_hi, y_lo, y_hi));
    door!(c, "door_shl", shift, shl(x_lo, x_hi, n));
    door!(c, "door_shr", shift, shr(x_lo, x_hi, n));
    for (n, d) in SIZES {
        let sized = |r: &mut Rng| {
            let ((a, b), (x, y)) = (halves(r.wide_of_length(n)), halves(r.wide_of_length(d)));
            (a, b, x, y)
        };
        door!(
            c,
            &format!("door_div, {n} by {d} bits"),
            sized,
            div(n_lo, n_hi, d_lo, d_hi)
        );
    }
}
