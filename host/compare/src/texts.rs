//! The printed form against the Rust's Debug: options and durations crossed, bad options in every combination, every kind of buffer.

use crate::effort::Effort;
use crate::shapes::Pair;
use crate::tally::Outcome;
use crate::trial::{Trial, GUARD};
use judge::text::{self, Options, LIMITS, LONGEST};
use judge::{edges, Rng, NO_ROOM};
use saltribbon::raw;

/// Longest buffer that is lent, and all bytes of a case.
const LENT: usize = LONGEST + 22;
const SPAN: usize = GUARD + 7 + LENT + GUARD + 1;
/// Durations for each set of options.
const EACH: usize = 12;
const RANDOM: u64 = 2_000_000;
/// Rounds through all combinations of what can be bad, and how many these are.
const SPOILED: u64 = 4_000;
const COMBINATIONS: u64 = 1 << 6;

/// Neither sign nor precision nor width nor alignment; the fill is a space.
const PLAIN: Options = [0, -1, -1, 0, 0x20];

pub fn run(t: &mut Trial) -> Outcome {
    let printed = edges::printed();
    if t.effort.has_edges() {
        every_option(t, &printed)?;
        every_digit(t, &printed)?;
    }
    spoiled(t, &printed)?;
    let mut turn = 0;
    while t.more(turn, RANDOM) {
        let d = duration(t, &printed);
        let options = good(&mut t.rng);
        any_room(t, d, options)?;
        turn += 1;
    }
    Ok(())
}

/// Sign, precision, width and alignment in every combination, each with some durations and the next fill.
fn every_option(t: &mut Trial, printed: &[Pair]) -> Outcome {
    let [signs, precisions, widths, aligns, fills] = LIMITS;
    let mut fills = fills.cycle();
    let step = t.effort.step();
    for precision in precisions {
        for width in widths.clone().step_by(step) {
            for align in aligns.clone() {
                for plus in signs.clone() {
                    let fill = fills.next().unwrap_or(0x20);
                    for _ in 0..EACH {
                        let d = t.rng.pick(printed);
                        any_room(t, d, [plus, precision, width, align, fill])?;
                    }
                }
            }
        }
    }
    Ok(())
}

/// Every duration with every precision that cuts a digit, alone and with some padding, in every kind of buffer.
fn every_digit(t: &mut Trial, printed: &[Pair]) -> Outcome {
    let step = t.effort.step();
    for &d in printed.iter().step_by(step) {
        for precision in -1..=10 {
            for plus in 0..=1 {
                let alone = [plus, precision, -1, 0, 0x20];
                every_room(t, d, alone)?;
                let length = text::fmt(d.0, d.1, alone).map_or(0, |text| text.chars().count());
                for align in 0..=3 {
                    let width = (length as i64 + t.rng.below(6) as i64 - 1).min(255);
                    let fill = 0x20 + t.rng.below(95) as i64;
                    every_room(t, d, [plus, precision, width, align, fill])?;
                }
            }
        }
    }
    Ok(())
}

/// Bad durations, each option bad, and too little room, in every combination: the first check decides.
fn spoiled(t: &mut Trial, printed: &[Pair]) -> Outcome {
    for d in [
        (0, 7),
        (0, 1_500),
        (1, 500_000_000),
        (u64::MAX, 1_000_000_000),
    ] {
        for (at, limits) in LIMITS.into_iter().enumerate() {
            for number in outside(*limits.start(), *limits.end()) {
                let mut options = PLAIN;
                options[at] = number;
                every_room(t, d, options)?;
            }
        }
    }
    let rounds = match t.effort {
        Effort::Pages { inputs, .. } => inputs / COMBINATIONS,
        effort => effort.share(SPOILED),
    };
    for _ in 0..rounds {
        for set in 0..COMBINATIONS {
            let (secs, mut nanos) = duration(t, printed);
            let mut options = good(&mut t.rng);
            for (at, limits) in LIMITS.into_iter().enumerate() {
                if set >> at & 1 == 1 {
                    options[at] = t.rng.pick(&outside(*limits.start(), *limits.end()));
                }
            }
            if set >> 5 == 1 {
                nanos = 1_000_000_000 + t.rng.below(1 << 31) as u32;
            }
            any_room(t, (secs, nanos), options)?;
        }
    }
    Ok(())
}

/// Numbers next to the limits, far ones, and those whose low bytes look good.
fn outside(least: i64, most: i64) -> [i64; 16] {
    [
        least - 1,
        least - 2,
        most + 1,
        most + 2,
        least - 256,
        most + 256,
        least - (1 << 32),
        most + (1 << 32),
        least + (1 << 32),
        (1 << 31) + most,
        (1 << 62) + least.max(0),
        1 << 32,
        -1 << 31,
        i64::MIN,
        i64::MIN + most,
        i64::MAX,
    ]
}

fn good(rng: &mut Rng) -> Options {
    let mut within = |least: i64, most: i64| least + rng.below((most - least + 1) as u64) as i64;
    let [plus, align, fill] = [within(0, 1), within(0, 3), within(0x20, 0x7E)];
    let short = |n: i64| if n < 12 { n } else { -1 };
    let (precision, width) = match within(0, 3) {
        0 => (within(-1, 255), within(-1, 255)),
        1 => (short(within(-1, 14)), within(-1, 40)),
        2 => (within(0, 9), within(0, 20)),
        _ => (-1, within(-1, 30)),
    };
    [plus, precision, width, align, fill]
}

/// A boundary, or any; a bad one now and then.
fn duration(t: &mut Trial, printed: &[Pair]) -> Pair {
    match t.rng.below(4) {
        0 => t.rng.pick(printed),
        1 => (0, t.shapes.nanos(&mut t.rng)),
        2 => (
            t.rng.word_of_any_length(),
            t.rng.below(1_000_000_000) as u32,
        ),
        _ => t.shapes.pair(&mut t.rng),
    }
}

/// The buffer is too short by one, just long enough, longer by one, much longer, or empty.
fn rooms(length: usize) -> [usize; 5] {
    [length.saturating_sub(1), length, length + 1, LENT, 0]
}

fn every_room(t: &mut Trial, d: Pair, options: Options) -> Outcome {
    let want = text::fmt(d.0, d.1, options);
    for room in rooms(want.as_ref().map_or(0, String::len)) {
        case(t, d, options, &want, room)?;
    }
    Ok(())
}

fn any_room(t: &mut Trial, d: Pair, options: Options) -> Outcome {
    let want = text::fmt(d.0, d.1, options);
    let length = want.as_ref().map_or(0, String::len);
    if t.effort.on_pages() {
        for room in t.lengths().into_iter().chain(rooms(length)) {
            case(t, d, options, &want, room)?;
        }
        return Ok(());
    }
    let room = match t.rng.below(8) {
        0 => t.rng.below(LENT as u64 + 1) as usize,
        kind => rooms(length)[(kind % 5) as usize],
    };
    case(t, d, options, &want, room)
}

/// A call with `room` lent bytes at each place of the trial: the number and every byte must be as expected.
fn case(
    t: &mut Trial,
    d: Pair,
    options: Options,
    want: &Result<String, u32>,
    room: usize,
) -> Outcome {
    let (number, written) = match want {
        Err(refusal) => (-i64::from(*refusal), ""),
        Ok(text) if text.len() > room => (-i64::from(NO_ROOM), ""),
        Ok(text) => (text.len() as i64, text.as_str()),
    };
    let expected = (number, written.as_bytes());
    for &place in t.effort.places() {
        t.tally.met(number.min(0).unsigned_abs() as u32);
        let call = |out: &mut [u8]| raw::fmt(d.0, d.1, options, out);
        t.lend::<SPAN, i64>(place, (d, options, want), expected, room, call)?;
    }
    Ok(())
}
