//! The rows of the printed form, against the Rust's Debug into a buffer of the same length.

use crate::clock::Clock;
use crate::GIGA;
use judge::Rng;
use rust_side::text;
use saltribbon::raw;

/// Room for every text.
type Buffer = [u8; 300];

/// Neither sign nor precision nor width nor alignment; the fill is a space.
const PLAIN: [i64; 5] = [0, -1, -1, 0, 0x20];

pub fn rows(c: &mut Clock) {
    let day = |r: &mut Rng| r.below(86_400) + 1;
    plain(c, "text, nine digits", |r| (day(r), digits(r, 1)));
    plain(c, "text, nine digits, large", |r| (r.word(), digits(r, 1)));
    plain(c, "text, three digits", |r| (day(r), digits(r, 1_000_000)));
    plain(c, "text, whole seconds", |r| (day(r), 0));
    plain(c, "text, milliseconds", |r| (0, part(r, 1_000_000)));
    plain(c, "text, microseconds", |r| (0, part(r, 1_000)));
    plain(c, "text, nanoseconds", |r| (0, part(r, 1)));
    let below = |r: &mut Rng| {
        let unit = r.pick(&[1, 1_000, 1_000_000]);
        (0, part(r, unit))
    };
    plain(c, "text, below a second", below);
    for (precision, width) in [(3, 12), (0, 12), (9, 30), (12, 40)] {
        let name = format!("text, {precision} digits in {width} columns");
        let any = |r: &mut Rng| {
            if r.below(2) == 0 {
                below(r)
            } else {
                (day(r), digits(r, 1))
            }
        };
        padded(c, &name, any, precision, width);
    }
}

/// Nanoseconds that end in a digit of that size which is not zero.
fn digits(r: &mut Rng, size: u64) -> u32 {
    (r.below(GIGA / size / 10) * 10 * size + (r.below(9) + 1) * size) as u32
}

/// From one of that unit up to a thousand.
fn part(r: &mut Rng, unit: u64) -> u32 {
    (unit + r.below(999 * unit)) as u32
}

fn plain(c: &mut Clock, name: &str, input: impl Fn(&mut Rng) -> (u64, u32)) {
    c.row(
        name,
        input,
        [0; 300],
        |&(secs, nanos), out: &mut Buffer| raw::fmt(secs, nanos, PLAIN, out) as u32,
        // SAFETY: pointer and length are those of one slice.
        |&(secs, nanos), out| unsafe { text::plain(secs, nanos, out.as_mut_ptr(), out.len()) },
    );
}

fn padded(
    c: &mut Clock,
    name: &str,
    input: impl Fn(&mut Rng) -> (u64, u32),
    precision: u32,
    width: u32,
) {
    let options = [0, precision.into(), width.into(), 3, 0x20];
    let (precision, width) = (precision as usize, width as usize);
    c.row(
        name,
        input,
        [0; 300],
        |&(secs, nanos), out: &mut Buffer| raw::fmt(secs, nanos, options, out) as u32,
        // SAFETY: pointer and length are those of one slice.
        |&(secs, nanos), out| unsafe {
            text::padded(secs, nanos, precision, width, out.as_mut_ptr(), out.len())
        },
    );
}
