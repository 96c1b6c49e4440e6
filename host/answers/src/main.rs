//! Prints the stored lists of the oracle's answers, for a program that cannot run the Rust.
//!
//! `answers`: the numbers. `answers --texts`: the printed form, in rows of another kind (texts.rs).
//!
//! A row of numbers is eight numbers of 16 hex digits, one space between them: the function's number, four arguments (unused ones are 0),
//! the number it must return, and its sixteen bytes as two words, the low one first (both 0 where it refuses).
//!
//! A float among the arguments or in the bytes is its bits.
//! The sum, 29, has a list by rule: `c` rows, row i of (a + i * b) mod 2^64 seconds and (d + i * 7919) mod 10^9 nanoseconds.

mod inputs;
mod texts;

use inputs::Inputs;
use judge::{lent, salt, Answer, Image};
use oracle::Duration;
use std::io::{self, BufWriter, Write};
use std::process::ExitCode;

fn main() -> ExitCode {
    judge::quiet();
    let out = BufWriter::new(io::stdout().lock());
    let mut args = std::env::args().skip(1);
    let printed = match (args.next().as_deref(), args.next()) {
        (None, None) => list(out),
        (Some("--texts"), None) => texts::list(out),
        _ => {
            eprintln!("usage: answers [--texts]");
            return ExitCode::from(2);
        }
    };
    match printed {
        Ok(()) => ExitCode::SUCCESS,
        Err(error) => {
            eprintln!("the list could not be written: {error}");
            ExitCode::FAILURE
        }
    }
}

/// The functions by number. A new one gets the next number and a line here.
fn list(out: impl Write) -> io::Result<()> {
    let mut list = List { out };
    let inputs = Inputs::new();

    list.rows(1, &inputs.carries, |[s, n, ..]| {
        salt::new(s, n as u32, true)
    })?;
    list.rows(2, &inputs.counts, |[n, unit, ..]| {
        salt::from_unit(n, unit as u32, true)
    })?;
    list.rows(3, &inputs.wides, |[low, high, ..]| {
        salt::from_nanos_u128(u128::from(high) << 64 | u128::from(low), true)
    })?;

    list.constant(4, salt::SECOND)?;
    list.constant(5, salt::MILLISECOND)?;
    list.constant(6, salt::MICROSECOND)?;
    list.constant(7, salt::NANOSECOND)?;
    list.constant(8, salt::ZERO)?;
    list.constant(9, salt::MAX)?;

    list.unary(10, &inputs.pairs, salt::as_secs)?;
    list.unary(11, &inputs.pairs, salt::subsec_millis)?;
    list.unary(12, &inputs.pairs, salt::subsec_micros)?;
    list.unary(13, &inputs.pairs, salt::subsec_nanos)?;
    list.unary(14, &inputs.pairs, salt::as_millis)?;
    list.unary(15, &inputs.pairs, salt::as_micros)?;
    list.unary(16, &inputs.pairs, salt::as_nanos)?;
    list.unary(17, &inputs.pairs, salt::is_zero)?;

    list.binary(18, &inputs.two_pairs, salt::cmp)?;

    list.binary(19, &inputs.addends, salt::checked_add)?;
    list.binary(20, &inputs.addends, salt::saturating_add)?;
    list.binary(21, &inputs.differences, salt::checked_sub)?;
    list.binary(22, &inputs.differences, salt::saturating_sub)?;
    list.binary(23, &inputs.differences, salt::abs_diff)?;
    list.binary(24, &inputs.ratios, |a, b| {
        salt::div_duration_floor(a, b, true)
    })?;
    list.binary(25, &inputs.ratios, |a, b| {
        salt::div_duration_ceil(a, b, true)
    })?;
    list.scaled(26, &inputs.products, salt::checked_mul)?;
    list.scaled(27, &inputs.products, salt::saturating_mul)?;
    list.scaled(28, &inputs.divisions, salt::checked_div)?;
    list.rows(29, &inputs.lists, by_rule)?;

    list.unary(30, &inputs.floats_out, salt::as_secs_f64)?;
    list.unary(31, &inputs.floats_out, salt::as_secs_f32)?;
    list.unary(32, &inputs.floats_out, salt::as_millis_f64)?;
    list.unary(33, &inputs.floats_out, salt::as_millis_f32)?;
    list.binary(34, &inputs.quotients, salt::div_duration_f64)?;
    list.binary(35, &inputs.quotients, salt::div_duration_f32)?;
    list.rows(36, &inputs.doubles, |[bits, ..]| {
        salt::try_from_secs_f64(f64::from_bits(bits))
    })?;
    list.rows(37, &inputs.singles, |[bits, ..]| {
        salt::try_from_secs_f32(f32::from_bits(bits as u32))
    })?;
    list.by_double(38, &inputs.by_doubles, salt::mul_f64)?;
    list.by_double(39, &inputs.by_doubles, salt::div_f64)?;
    list.by_single(40, &inputs.by_singles, salt::mul_f32)?;
    list.by_single(41, &inputs.by_singles, salt::div_f32)?;
    list.out.flush()
}

struct List<W> {
    out: W,
}

impl<W: Write> List<W> {
    fn rows(
        &mut self,
        function: u64,
        inputs: &[[u64; 4]],
        judge: impl Fn([u64; 4]) -> Answer,
    ) -> io::Result<()> {
        for &input in inputs {
            let (number, bytes) = match judge(input) {
                Ok(bytes) => (0, bytes),
                Err(refusal) => (refusal, 0),
            };
            let [a, b, c, d] = input;
            let (low, high) = (bytes as u64, (bytes >> 64) as u64);
            writeln!(
                self.out,
                "{function:016X} {a:016X} {b:016X} {c:016X} {d:016X} {number:016X} {low:016X} {high:016X}"
            )?;
        }
        Ok(())
    }

    fn constant(&mut self, function: u64, value: Duration) -> io::Result<()> {
        self.rows(function, &[[0; 4]], |_| Ok(value.image()))
    }

    fn unary(
        &mut self,
        function: u64,
        inputs: &[[u64; 4]],
        judge: fn(Duration) -> Answer,
    ) -> io::Result<()> {
        self.rows(function, inputs, |[secs, nanos, ..]| {
            judge(lent(secs, nanos as u32)?)
        })
    }

    fn binary(
        &mut self,
        function: u64,
        inputs: &[[u64; 4]],
        judge: fn(Duration, Duration) -> Answer,
    ) -> io::Result<()> {
        self.rows(function, inputs, |[secs, nanos, secs2, nanos2]| {
            judge(lent(secs, nanos as u32)?, lent(secs2, nanos2 as u32)?)
        })
    }

    fn scaled(
        &mut self,
        function: u64,
        inputs: &[[u64; 4]],
        judge: fn(Duration, u32) -> Answer,
    ) -> io::Result<()> {
        self.rows(function, inputs, |[secs, nanos, by, _]| {
            judge(lent(secs, nanos as u32)?, by as u32)
        })
    }

    fn by_double(
        &mut self,
        function: u64,
        inputs: &[[u64; 4]],
        judge: fn(Duration, f64, bool) -> Answer,
    ) -> io::Result<()> {
        self.rows(function, inputs, |[secs, nanos, bits, _]| {
            judge(lent(secs, nanos as u32)?, f64::from_bits(bits), true)
        })
    }

    fn by_single(
        &mut self,
        function: u64,
        inputs: &[[u64; 4]],
        judge: fn(Duration, f32, bool) -> Answer,
    ) -> io::Result<()> {
        self.rows(function, inputs, |[secs, nanos, bits, _]| {
            judge(lent(secs, nanos as u32)?, f32::from_bits(bits as u32), true)
        })
    }
}

/// The sum of all rows of a list by rule.
fn by_rule([a, b, c, d]: [u64; 4]) -> Answer {
    let secs = |i: u64| a.wrapping_add(i.wrapping_mul(b)).to_le_bytes();
    let nanos = |i: u64| (((d + i * 7_919) % 1_000_000_000) as u32).to_le_bytes();
    let secs: Vec<u8> = (0..c).flat_map(secs).collect();
    let nanos: Vec<u8> = (0..c).flat_map(nanos).collect();
    salt::sum(&secs, &nanos, 0, c, true)
}
