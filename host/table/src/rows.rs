//! The rows of the table, a family at a time. A later family is one more function in `all`.

use saltribbon::{Align, Duration, Options, Refusal};

pub struct Row {
    pub asked: String,
    pub answer: Result<String, Refusal>,
}

pub fn all() -> Vec<Row> {
    [
        units(),
        pairs(),
        counts(),
        order(),
        arithmetic(),
        sums(),
        potentiometer(),
        floats(),
        texts(),
    ]
    .into_iter()
    .flatten()
    .collect()
}

fn row(asked: impl Into<String>, answer: Result<String, Refusal>) -> Row {
    Row {
        asked: asked.into(),
        answer,
    }
}

/// A duration as seconds and nine digits; a bad pair is refused here too.
fn time(d: Duration) -> Result<String, Refusal> {
    Ok(format!("{}.{:09} s", d.as_secs()?, d.subsec_nanos()?))
}

/// Counts and units, as a settings screen has them.
fn units() -> Vec<Row> {
    let asked = [
        (5, Duration::MILLISECONDS, "milliseconds"),
        (90, Duration::MINUTES, "minutes"),
        (250, Duration::MICROSECONDS, "microseconds"),
        (30_500_568_904_943, Duration::WEEKS, "weeks"),
        (30_500_568_904_944, Duration::WEEKS, "weeks"),
        (1, 9, "of unit 9"),
    ];
    let one = |(count, unit, name)| {
        let answer = Duration::from_unit(count, unit).and_then(time);
        row(format!("{count} {name}"), answer)
    };
    asked.map(one).into()
}

/// Seconds and nanoseconds: what `new` carries, and what a mechanic's table might hold.
fn pairs() -> Vec<Row> {
    let made = [(1, 1_500_000_000), (u64::MAX, 1_000_000_000)];
    let held = [
        ("release", 2, 250_000_000),
        ("hold-off", 0, 4_200_000),
        ("ramp, mistyped", 1, 1_000_000_000),
    ];
    let new = |(secs, nanos)| {
        let answer = Duration::new(secs, nanos).and_then(time);
        row(format!("new({secs}, {nanos})"), answer)
    };
    let pair = |(name, secs, nanos)| {
        row(
            format!("{name}: ({secs}, {nanos})"),
            time(Duration { secs, nanos }),
        )
    };
    made.into_iter().map(new).chain(held.map(pair)).collect()
}

/// Counts that need more than 64 bits, out and in.
fn counts() -> Vec<Row> {
    let millis = Duration::max().and_then(Duration::as_millis);
    let nanos = Duration::max().and_then(Duration::as_nanos);
    let back = |more| {
        nanos
            .and_then(|n| Duration::from_nanos_u128(n + more))
            .and_then(time)
    };
    vec![
        row(
            "milliseconds in the longest time",
            millis.map(|n| n.to_string()),
        ),
        row(
            "nanoseconds in the longest time",
            nanos.map(|n| n.to_string()),
        ),
        row("a time of that many nanoseconds", back(0)),
        row("a time of one nanosecond more", back(1)),
    ]
}

fn order() -> Vec<Row> {
    let second = Duration::second();
    let than = |count| {
        let other = Duration::from_millis(count);
        let order = second.and_then(|a| a.cmp(other?));
        order.map(|order| format!("{order:?}").to_lowercase())
    };
    let zero = Duration::zero().and_then(Duration::is_zero);
    vec![
        row("one second beside 999 milliseconds", than(999)),
        row("one second beside 1000 milliseconds", than(1_000)),
        row("one second beside 1001 milliseconds", than(1_001)),
        row("is ZERO zero", zero.map(|yes| yes.to_string())),
    ]
}

fn count(answer: Result<u128, Refusal>) -> Result<String, Refusal> {
    answer.map(|n| n.to_string())
}

/// What a controller works out from its table.
fn arithmetic() -> Vec<Row> {
    let pair = |secs, nanos| Duration { secs, nanos };
    let (second, ramp, pause) = (pair(1, 0), pair(2, 250_000_000), pair(0, 300_000_000));
    let longest = pair(u64::MAX, 999_999_999);
    let plain = |asked, answer: Result<Duration, Refusal>| row(asked, answer.and_then(time));
    vec![
        plain("2.25 s and 300 ms", ramp.checked_add(pause)),
        plain("300 ms less 2.25 s", pause.checked_sub(ramp)),
        plain("the same, at least zero", pause.saturating_sub(ramp)),
        plain("between 300 ms and 2.25 s", pause.abs_diff(ramp)),
        plain("2.25 s four times", ramp.checked_mul(4)),
        plain("the longest time twice", longest.checked_mul(2)),
        plain("the same, at most the longest", longest.saturating_mul(2)),
        plain("1 s over 3", second.checked_div(3)),
        plain("1 s over 0", second.checked_div(0)),
        row(
            "300 ms in 1 s, whole times",
            count(second.div_duration_floor(pause)),
        ),
        row(
            "300 ms in 1 s, rounded up",
            count(second.div_duration_ceil(pause)),
        ),
    ]
}

/// A ramp of four steps, and what is mistyped in it.
fn sums() -> Vec<Row> {
    let secs = [0, 1, 2, u64::MAX];
    let nanos = [250_000_000, 500_000_000, 750_000_000, 0];
    let mistyped = [250_000_000, 1_500_000_000, 750_000_000, 0];
    let sum = |asked, nanos, rows| row(asked, Duration::sum(&secs, nanos, rows).and_then(time));
    vec![
        sum("steps 0 to 2 of a ramp", &nanos, 0..3),
        sum("steps 1 and 2", &nanos, 1..3),
        sum("no step", &nanos, 2..2),
        sum("all four, the last far too long", &nanos, 0..4),
        sum("steps 0 to 2, one mistyped", &mistyped, 0..3),
        sum("step 2 alone of those", &mistyped, 2..3),
        sum("five of four steps", &nanos, 0..5),
    ]
}

/// What an old table holds for a potentiometer: seconds as a float, -1 where none is fitted.
fn potentiometer() -> Vec<Row> {
    let double = [
        ("release", 0.25),
        ("hold-off, not fitted", -1.0),
        ("ramp, never set", f64::NAN),
        ("ramp, garbled", 1e300),
        ("pause, a signed zero", -0.0),
        ("debounce", 0.001),
    ];
    let single = [("debounce", 0.001), ("hold-off, not fitted", -1.0)];
    let double = double.map(|(name, seconds)| {
        let answer = Duration::try_from_secs_f64(seconds).and_then(time);
        row(format!("{name}: {seconds:?} as f64"), answer)
    });
    let single = single.map(|(name, seconds)| {
        let answer = Duration::try_from_secs_f32(seconds).and_then(time);
        row(format!("{name}: {seconds:?} as f32"), answer)
    });
    double.into_iter().chain(single).collect()
}

/// Times as floats, and scaled by them.
fn floats() -> Vec<Row> {
    let pair = |secs, nanos| Duration { secs, nanos };
    let (ramp, pause) = (pair(2, 250_000_000), pair(0, 300_000_000));
    let number = |asked, answer: Result<f64, Refusal>| row(asked, answer.map(|n| format!("{n:?}")));
    let scaled = |asked, answer: Result<Duration, Refusal>| row(asked, answer.and_then(time));
    vec![
        number("2.25 s in seconds", ramp.as_secs_f64()),
        number("2.25 s in milliseconds", ramp.as_millis_f64()),
        number("2.25 s over 300 ms", ramp.div_duration_f64(pause)),
        number("2.25 s over 0 s", ramp.div_duration_f64(pair(0, 0))),
        scaled("2.25 s times 1.1", ramp.mul_f64(1.1)),
        scaled("2.25 s over 1.1", ramp.div_f64(1.1)),
        scaled("2.25 s times -1", ramp.mul_f64(-1.0)),
        scaled("2.25 s over 0.0", ramp.div_f64(0.0)),
    ]
}

/// Times as a display shows them.
fn texts() -> Vec<Row> {
    let (plain, right) = (Options::new(), Options::new().align(Align::Right));
    let centre = plain.align(Align::Centre).width(7).fill(b'#');
    let one = |asked, secs, nanos, options: Options| {
        let text = Duration { secs, nanos }.text(&options);
        row(asked, text.map(|text| text.to_string()))
    };
    vec![
        one("2.25 s on a display", 2, 250_000_000, plain),
        one("4.2 ms on a display", 0, 4_200_000, plain),
        one(
            "1.5 \u{b5}s in six columns, right",
            0,
            1_500,
            right.width(6),
        ),
        one("1.5 s in the middle of seven", 1, 500_000_000, centre),
        one("5 ns with three digits", 0, 5, plain.precision(3)),
        one("3.5 s without digits", 3, 500_000_000, plain.precision(0)),
        one(
            "999.999999 ms without digits",
            0,
            999_999_999,
            plain.precision(0),
        ),
        one("2.25 s with a sign", 2, 250_000_000, plain.plus()),
        one(
            "2.25 s with 256 digits",
            2,
            250_000_000,
            plain.precision(256),
        ),
    ]
}
