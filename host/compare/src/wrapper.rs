//! The safe wrapper against the raw functions: the same value or the same refusal, and each refusal's name and number.

use crate::tally::{Difference, Outcome};
use crate::trial::Trial;
use judge::{Answer, Image};
use saltribbon::{raw, Align, Duration, Options, Refusal};
use std::fmt::Debug;

/// Random turns through all methods.
const TURNS: u64 = 50_000;

/// The table of refusals, written out once more.
const NAMES: [(u32, &str); 11] = [
    (1, "Negative"),
    (2, "OverflowOrNan"),
    (3, "Overflow"),
    (4, "Underflow"),
    (5, "ZeroDivisor"),
    (6, "BadRow"),
    (7, "BadRange"),
    (8, "BadOptions"),
    (9, "NoRoom"),
    (10, "BadDuration"),
    (11, "BadUnit"),
];

/// The wrapper's own duration in sixteen bytes.
fn bytes(d: Duration) -> u128 {
    u128::from(d.nanos) << 64 | u128::from(d.secs)
}

fn of<T>(answer: Result<T, Refusal>, image: impl Fn(T) -> u128) -> Answer {
    answer.map(image).map_err(Refusal::number)
}

fn asked(call: impl Fn(&mut [u8]) -> u32) -> Answer {
    let mut out = [0; 16];
    match call(&mut out) {
        0 => Ok(u128::from_le_bytes(out)),
        number => Err(number),
    }
}

pub fn run(trial: &mut Trial) -> Outcome {
    names(trial)?;
    constants(trial)?;
    let mut turn = 0;
    while trial.more(turn, TURNS) {
        let ((secs, nanos), (secs2, nanos2)) = trial.shapes.two_pairs(&mut trial.rng);
        made(trial, secs, nanos)?;
        parts(trial, Duration { secs, nanos })?;
        let (a, b) = (
            Duration { secs, nanos },
            Duration {
                secs: secs2,
                nanos: nanos2,
            },
        );
        let raw = asked(|out| raw::cmp(secs, nanos, secs2, nanos2, out));
        same(trial, "cmp", (a, b), of(a.cmp(b), Image::image), raw)?;
        arithmetic(trial, a, b)?;
        scaled(trial, a)?;
        sum(trial)?;
        floats_out(trial, a, b)?;
        floats_in(trial, a)?;
        text(trial, a)?;
        turn += 1;
    }
    Ok(())
}

fn same<T: Debug + PartialEq>(
    trial: &mut Trial,
    method: &str,
    input: impl Debug,
    wrapper: Result<T, u32>,
    raw: Result<T, u32>,
) -> Outcome {
    trial.tally.cases += 1;
    if wrapper == raw {
        return Ok(());
    }
    Err(Difference::new(format!(
        "wrapper {method}, input {input:?}\nexpected {raw:X?}\nfound    {wrapper:X?}"
    )))
}

fn names(trial: &mut Trial) -> Outcome {
    for number in 0..64 {
        trial.tally.cases += 1;
        let found = Refusal::from_number(number).map(|r| (r.number(), r.to_string()));
        let row = NAMES.iter().find(|(n, _)| *n == number);
        let expected = row.map(|(n, name)| (*n, name.to_string()));
        if found != expected {
            return Err(Difference::new(format!(
                "refusal {number}\nexpected {expected:?}\nfound    {found:?}"
            )));
        }
    }
    Ok(())
}

fn constants(trial: &mut Trial) -> Outcome {
    let mut one = |name, answer, call: fn(&mut [u8]) -> u32| {
        same(trial, name, (), of(answer, bytes), asked(call))
    };
    one("second", Duration::second(), raw::second)?;
    one("millisecond", Duration::millisecond(), raw::millisecond)?;
    one("microsecond", Duration::microsecond(), raw::microsecond)?;
    one("nanosecond", Duration::nanosecond(), raw::nanosecond)?;
    one("zero", Duration::zero(), raw::zero)?;
    one("max", Duration::max(), raw::max)
}

fn made(trial: &mut Trial, secs: u64, nanos: u32) -> Outcome {
    let raw = asked(|out| raw::new(secs, nanos, out));
    same(
        trial,
        "new",
        (secs, nanos),
        of(Duration::new(secs, nanos), bytes),
        raw,
    )?;

    let wide = trial.shapes.wide_nanos(&mut trial.rng);
    let raw = asked(|out| raw::from_nanos_u128(wide as u64, (wide >> 64) as u64, out));
    same(
        trial,
        "from_nanos_u128",
        wide,
        of(Duration::from_nanos_u128(wide), bytes),
        raw,
    )?;

    let (count, unit) = trial.shapes.count(&mut trial.rng);
    let raw = asked(|out| raw::from_unit(count, unit, out));
    same(
        trial,
        "from_unit",
        (count, unit),
        of(Duration::from_unit(count, unit), bytes),
        raw,
    )?;
    let named = match unit {
        0 => Duration::from_nanos(count),
        1 => Duration::from_micros(count),
        2 => Duration::from_millis(count),
        3 => Duration::from_secs(count),
        4 => Duration::from_mins(count),
        5 => Duration::from_hours(count),
        6 => Duration::from_days(count),
        7 => Duration::from_weeks(count),
        _ => return Ok(()),
    };
    same(
        trial,
        "a unit by name",
        (count, unit),
        of(named, bytes),
        raw,
    )
}

fn parts(trial: &mut Trial, d: Duration) -> Outcome {
    let mut one = |name, wrapper, call: fn(u64, u32, &mut [u8]) -> u32| {
        same(
            trial,
            name,
            d,
            wrapper,
            asked(|out| call(d.secs, d.nanos, out)),
        )
    };
    one("as_secs", of(d.as_secs(), Image::image), raw::as_secs)?;
    one(
        "subsec_millis",
        of(d.subsec_millis(), Image::image),
        raw::subsec_millis,
    )?;
    one(
        "subsec_micros",
        of(d.subsec_micros(), Image::image),
        raw::subsec_micros,
    )?;
    one(
        "subsec_nanos",
        of(d.subsec_nanos(), Image::image),
        raw::subsec_nanos,
    )?;
    one("as_millis", of(d.as_millis(), Image::image), raw::as_millis)?;
    one("as_micros", of(d.as_micros(), Image::image), raw::as_micros)?;
    one("as_nanos", of(d.as_nanos(), Image::image), raw::as_nanos)?;
    one("is_zero", of(d.is_zero(), Image::image), raw::is_zero)
}

fn arithmetic(trial: &mut Trial, a: Duration, b: Duration) -> Outcome {
    let mut one = |name, wrapper, call: fn(u64, u32, u64, u32, &mut [u8]) -> u32| {
        let raw = asked(|out| call(a.secs, a.nanos, b.secs, b.nanos, out));
        same(trial, name, (a, b), wrapper, raw)
    };
    one("checked_add", of(a.checked_add(b), bytes), raw::checked_add)?;
    one(
        "saturating_add",
        of(a.saturating_add(b), bytes),
        raw::saturating_add,
    )?;
    one("checked_sub", of(a.checked_sub(b), bytes), raw::checked_sub)?;
    one(
        "saturating_sub",
        of(a.saturating_sub(b), bytes),
        raw::saturating_sub,
    )?;
    one("abs_diff", of(a.abs_diff(b), bytes), raw::abs_diff)?;
    one(
        "div_duration_floor",
        of(a.div_duration_floor(b), Image::image),
        raw::div_duration_floor,
    )?;
    one(
        "div_duration_ceil",
        of(a.div_duration_ceil(b), Image::image),
        raw::div_duration_ceil,
    )
}

fn scaled(trial: &mut Trial, d: Duration) -> Outcome {
    let by = trial.shapes.factor(&mut trial.rng);
    let mut one = |name, answer, call: fn(u64, u32, u32, &mut [u8]) -> u32| {
        let raw = asked(|out| call(d.secs, d.nanos, by, out));
        same(trial, name, (d, by), of(answer, bytes), raw)
    };
    one("checked_mul", d.checked_mul(by), raw::checked_mul)?;
    one("saturating_mul", d.saturating_mul(by), raw::saturating_mul)?;
    one("checked_div", d.checked_div(by), raw::checked_div)
}

fn floats_out(trial: &mut Trial, a: Duration, b: Duration) -> Outcome {
    let mut one = |name, wrapper, call: fn(u64, u32, &mut [u8]) -> u32| {
        let raw = asked(|out| call(a.secs, a.nanos, out));
        same(trial, name, a, wrapper, raw)
    };
    one(
        "as_secs_f64",
        of(a.as_secs_f64(), Image::image),
        raw::as_secs_f64,
    )?;
    one(
        "as_secs_f32",
        of(a.as_secs_f32(), Image::image),
        raw::as_secs_f32,
    )?;
    one(
        "as_millis_f64",
        of(a.as_millis_f64(), Image::image),
        raw::as_millis_f64,
    )?;
    one(
        "as_millis_f32",
        of(a.as_millis_f32(), Image::image),
        raw::as_millis_f32,
    )?;
    let mut one = |name, wrapper, call: fn(u64, u32, u64, u32, &mut [u8]) -> u32| {
        let raw = asked(|out| call(a.secs, a.nanos, b.secs, b.nanos, out));
        same(trial, name, (a, b), wrapper, raw)
    };
    one(
        "div_duration_f64",
        of(a.div_duration_f64(b), Image::image),
        raw::div_duration_f64,
    )?;
    one(
        "div_duration_f32",
        of(a.div_duration_f32(b), Image::image),
        raw::div_duration_f32,
    )
}

fn floats_in(trial: &mut Trial, d: Duration) -> Outcome {
    let (_, bits) = trial.shapes.times_double(&mut trial.rng);
    let (double, (secs, nanos)) = (f64::from_bits(bits), (d.secs, d.nanos));
    let mut one = |name, answer, raw| same(trial, name, (d, double), of(answer, bytes), raw);
    one(
        "try_from_secs_f64",
        Duration::try_from_secs_f64(double),
        asked(|out| raw::try_from_secs_f64(double, out)),
    )?;
    one(
        "mul_f64",
        d.mul_f64(double),
        asked(|out| raw::mul_f64(secs, nanos, double, out)),
    )?;
    one(
        "div_f64",
        d.div_f64(double),
        asked(|out| raw::div_f64(secs, nanos, double, out)),
    )?;
    let (_, bits) = trial.shapes.times_single(&mut trial.rng);
    let single = f32::from_bits(bits as u32);
    let mut one = |name, answer, raw| same(trial, name, (d, single), of(answer, bytes), raw);
    one(
        "try_from_secs_f32",
        Duration::try_from_secs_f32(single),
        asked(|out| raw::try_from_secs_f32(single, out)),
    )?;
    one(
        "mul_f32",
        d.mul_f32(single),
        asked(|out| raw::mul_f32(secs, nanos, single, out)),
    )?;
    one(
        "div_f32",
        d.div_f32(single),
        asked(|out| raw::div_f32(secs, nanos, single, out)),
    )
}

/// Numbers in the wrapper, the same numbers as bytes in the raw function.
fn sum(trial: &mut Trial) -> Outcome {
    let count = trial.rng.below(6);
    let rows = (0..count).map(|_| trial.shapes.pair(&mut trial.rng));
    let (secs, nanos): (Vec<u64>, Vec<u32>) = rows.unzip();
    let (first, end) = (trial.rng.below(count + 1), trial.rng.below(count + 2));
    let (secs_bytes, nanos_bytes): (Vec<u8>, Vec<u8>) = (
        secs.iter().flat_map(|n| n.to_le_bytes()).collect(),
        nanos.iter().flat_map(|n| n.to_le_bytes()).collect(),
    );
    let raw = asked(|out| raw::sum(&secs_bytes, &nanos_bytes, first, end, out));
    let answer = of(Duration::sum(&secs, &nanos, first..end), bytes);
    same(trial, "sum", (secs, nanos, first..end), answer, raw)
}

/// The builder's options against their numbers: the same text in the buffer and as a value, or the same refusal.
fn text(trial: &mut Trial, d: Duration) -> Outcome {
    let rng = &mut trial.rng;
    let (plus, align) = (rng.below(2), rng.below(4));
    let (precision, width) = (rng.below(260) as i64 - 1, rng.below(260) as i64 - 1);
    let fill = rng.below(130);
    let room = rng.below(400) as usize;
    let mut options = Options::new().fill(fill as u8);
    if plus == 1 {
        options = options.plus();
    }
    if let Ok(digits) = u32::try_from(precision) {
        options = options.precision(digits);
    }
    if let Ok(characters) = u32::try_from(width) {
        options = options.width(characters);
    }
    let aligns = [Align::Left, Align::Centre, Align::Right];
    if let Some(align) = (align as usize).checked_sub(1) {
        options = options.align(aligns[align]);
    }
    let numbers = [plus as i64, precision, width, align as i64, fill as i64];
    let (mut raw_out, mut out, mut long) = ([7; 400], [7; 400], [7; 400]);
    let returned = raw::fmt(d.secs, d.nanos, numbers, &mut raw_out[..room]);
    let raw = string(returned, &raw_out);
    let written = d.write(&options, &mut out[..room]);
    let written = written.map(str::to_string).map_err(Refusal::number);
    same(trial, "write", (d, options, room), written, raw)?;
    let returned = raw::fmt(d.secs, d.nanos, numbers, &mut long);
    let raw = string(returned, &long);
    let shown = d.text(&options).map(|text| text.to_string());
    same(
        trial,
        "text",
        (d, options),
        shown.map_err(Refusal::number),
        raw,
    )
}

fn string(returned: i64, out: &[u8]) -> Result<String, u32> {
    match usize::try_from(returned) {
        Ok(length) => Ok(String::from_utf8_lossy(&out[..length]).into_owned()),
        Err(_) => Err(returned.unsigned_abs() as u32),
    }
}
