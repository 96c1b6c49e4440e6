//! The rows of integer arithmetic and of the sum.

use crate::clock::Clock;
use crate::{good_pair, salt, two_pairs, GIGA};
use judge::Rng;
use oracle::Duration;
use rust_side as rust;
use saltribbon::raw;

pub fn rows(c: &mut Clock) {
    of_two(c);
    of_one(c);
    quotients(c);
    for (rows, lists) in [(10, 1_024), (1_000, 16), (1_000_000, 1)] {
        sums(c, rows, lists);
    }
}

fn of_two(c: &mut Clock) {
    let fits = |r: &mut Rng| {
        let (secs, nanos, secs2, nanos2) = two_pairs(r);
        (secs >> 1, nanos, secs2 >> 1, nanos2)
    };
    let falling = |r: &mut Rng| {
        let (a, b) = (good_pair(r), good_pair(r));
        let ((secs, nanos), (secs2, nanos2)) = (a.max(b), a.min(b));
        (secs, nanos, secs2, nanos2)
    };
    salt!(c, "checked_add", fits, checked_add(s, n, s2, n2));
    salt!(c, "saturating_add", fits, saturating_add(s, n, s2, n2));
    salt!(
        c,
        "saturating_add, any",
        |r| (r.word(), 7, r.word(), 7),
        saturating_add(s, n, s2, n2)
    );
    salt!(c, "checked_sub", falling, checked_sub(s, n, s2, n2));
    salt!(c, "saturating_sub", falling, saturating_sub(s, n, s2, n2));
    salt!(
        c,
        "saturating_sub, any",
        two_pairs,
        saturating_sub(s, n, s2, n2)
    );
    salt!(c, "abs_diff", two_pairs, abs_diff(s, n, s2, n2));
}

fn of_one(c: &mut Clock) {
    let fits = |r: &mut Rng| (r.word() >> 33, r.below(GIGA) as u32, r.word() as u32);
    let any = |r: &mut Rng| (r.word(), r.below(GIGA) as u32, r.below(4) as u32);
    let divisor = |r: &mut Rng| {
        let (secs, nanos) = good_pair(r);
        (secs, nanos, (r.word_of_any_length() >> 32) as u32 + 1)
    };
    salt!(c, "checked_mul", fits, checked_mul(secs, nanos, by));
    salt!(c, "saturating_mul", fits, saturating_mul(secs, nanos, by));
    salt!(c, "saturating_mul, any", any, saturating_mul(s, n, by));
    salt!(c, "checked_div", divisor, checked_div(secs, nanos, by));
}

/// Narrow: both fit in 64 bits of nanoseconds. Wide: the first does not, or neither does.
fn quotients(c: &mut Clock) {
    for (kind, secs, secs2) in [
        ("narrow", 34, 20),
        ("narrow, close", 34, 34),
        ("wide by narrow", 64, 20),
        ("wide", 64, 40),
        ("wide, close", 64, 63),
    ] {
        let length = |r: &mut Rng, bits| (r.wide_of_length(bits) as u64, r.below(GIGA) as u32);
        let pairs = |r: &mut Rng| {
            let ((s, n), (s2, n2)) = (length(r, secs), length(r, secs2));
            (s, n, s2, n2)
        };
        let name = |function| format!("{function}, {kind}");
        salt!(
            c,
            &name("div_duration_floor"),
            pairs,
            div_duration_floor(s, n, s2, n2)
        );
        salt!(
            c,
            &name("div_duration_ceil"),
            pairs,
            div_duration_ceil(s, n, s2, n2)
        );
    }
}

/// The same rows as bytes, as numbers and as the Rust's durations.
struct List {
    secs: Vec<u64>,
    nanos: Vec<u32>,
    secs_bytes: Vec<u8>,
    nanos_bytes: Vec<u8>,
    durations: Vec<Duration>,
}

fn list(r: &mut Rng, rows: usize) -> List {
    let secs: Vec<u64> = (0..rows).map(|_| r.word() >> 21).collect();
    let nanos: Vec<u32> = (0..rows).map(|_| r.below(GIGA) as u32).collect();
    let both = secs.iter().zip(&nanos);
    List {
        secs_bytes: secs.iter().flat_map(|n| n.to_le_bytes()).collect(),
        nanos_bytes: nanos.iter().flat_map(|n| n.to_le_bytes()).collect(),
        durations: both.map(|(s, n)| Duration::new(*s, *n)).collect(),
        secs,
        nanos,
    }
}

fn sums(c: &mut Clock, rows: usize, lists: usize) {
    let ours = |list: &List, out: &mut [u8; 16]| {
        raw::sum(&list.secs_bytes, &list.nanos_bytes, 0, rows as u64, out)
    };
    let durations = |list: &List, out: &mut [u8; 16]| {
        let rows = &list.durations;
        // SAFETY: each pointer goes with the length of its slice.
        unsafe { rust::sum(rows.as_ptr(), rows.len(), out.as_mut_ptr(), out.len()) }
    };
    let zipped = |list: &List, out: &mut [u8; 16]| {
        let (secs, nanos) = (&list.secs, &list.nanos);
        // SAFETY: each pointer goes with the length of its slice.
        unsafe {
            rust::sum_zipped(
                secs.as_ptr(),
                secs.len(),
                nanos.as_ptr(),
                nanos.len(),
                out.as_mut_ptr(),
                out.len(),
            )
        }
    };
    let name = format!("sum of {rows} rows");
    c.row_of(lists, &name, |r| list(r, rows), [0; 16], ours, durations);
    let name = format!("sum of {rows} rows, zipped");
    c.row_of(lists, &name, |r| list(r, rows), [0; 16], ours, zipped);
}
