//! The sum of a list: rows as bytes, a range of them, hostile rows outside it, and every list in several orders.

use crate::pages::Zone;
use crate::shapes::{of_nanos, Pair, Shapes};
use crate::tally::{Difference, Outcome};
use crate::trial::Trial;
use judge::edges::MAX_NANOS;
use judge::{salt, Rng};
use saltribbon::raw;
use std::fmt;

const GIGA: u64 = 1_000_000_000;
const LISTS: u64 = 100_000;
/// Orders of each list after its first one.
const SHUFFLES: u64 = 3;
/// One list in so many is of `MOST` rows.
const LONG: u64 = 2_000;
const MOST: u64 = 200_000;
/// One list in so many meets every length of buffer.
const THOROUGH: u64 = 64;
/// A difference shows so many rows at most.
const SHOWN: usize = 16;

pub fn run(trial: &mut Trial) -> Outcome {
    if trial.effort.on_pages() {
        return on_pages(trial);
    }
    let mut turn = 0;
    while trial.more(turn, LISTS) {
        let list = List::random(trial.shapes, &mut trial.rng, turn % LONG == LONG - 1);
        let (watch, thorough) = (turn % 4 == 0, turn % THOROUGH == 0);
        in_several_orders(trial, list, watch, thorough)?;
        turn += 1;
    }
    Ok(())
}

fn in_several_orders(trial: &mut Trial, mut list: List, watch: bool, thorough: bool) -> Outcome {
    let want = list.want(watch);
    if thorough {
        for length in trial.lengths() {
            trial.case(&list, want, length, |out| list.call(out))?;
        }
    }
    for order in 0..=SHUFFLES {
        let length = trial.length();
        trial.case(&list, want, length, |out| list.call(out))?;
        if order == SHUFFLES {
            break;
        }
        list.shuffle(&mut trial.rng);
        let again = list.want(watch);
        if again != want {
            return Err(Difference::new(format!(
                "the Rust's sum depends on the order: {want:?} before, {again:?} for {list:?}"
            )));
        }
    }
    Ok(())
}

/// The buffer and both slices of rows touch the same edge of their pages; the rows cannot be written.
fn on_pages(trial: &mut Trial) -> Outcome {
    let (mut secs, mut nanos) = (Zone::new(), Zone::new());
    let mut turn = 0;
    while trial.more(turn, LISTS) {
        let list = List::random(trial.shapes, &mut trial.rng, false);
        let want = list.want(turn % 4 == 0);
        for &place in trial.effort.places() {
            let secs = secs.copied(place, list.secs.lent());
            let nanos = nanos.copied(place, list.nanos.lent());
            let call = |out: &mut [u8]| raw::sum(secs, nanos, list.first, list.end, out);
            for length in trial.lengths() {
                trial.case_at(place, &list, want, length, call)?;
            }
        }
        turn += 1;
    }
    Ok(())
}

/// Rows that lie as bytes somewhere in a larger run, with all that is lent.
struct List {
    rows: Vec<Pair>,
    /// The place of the rows that are to be summed, before the range is spoiled.
    good: std::ops::Range<usize>,
    first: u64,
    end: u64,
    secs: Bytes,
    nanos: Bytes,
}

/// A slice that begins at any place of its bytes, with others behind it.
struct Bytes {
    all: Vec<u8>,
    from: usize,
    length: usize,
}

impl Bytes {
    fn lent(&self) -> &[u8] {
        &self.all[self.from..self.from + self.length]
    }

    fn longer(&mut self, by: u64) {
        self.length = (self.length + by as usize).min(self.all.len() - self.from);
    }

    fn shorter(&mut self, by: u64) {
        self.length = self.length.saturating_sub(by as usize);
    }
}

impl List {
    fn random(shapes: &Shapes, rng: &mut Rng, long: bool) -> List {
        let inner = rows(shapes, rng, long);
        let (before, after) = (outside(shapes, rng), outside(shapes, rng));
        let good = before.len()..before.len() + inner.len();
        let (first, end) = (good.start as u64, good.end as u64);
        let rows: Vec<Pair> = [before, inner, after].concat();
        let count = rows.len();
        let mut bytes = |width| {
            let from = rng.below(9) as usize;
            let all = (0..from + (count + 2) * width)
                .map(|_| rng.word() as u8)
                .collect();
            let length = count * width;
            Bytes { all, from, length }
        };
        let mut list = List {
            secs: bytes(8),
            nanos: bytes(4),
            rows,
            good,
            first,
            end,
        };
        while rng.below(8) == 0 {
            list.spoil(rng);
        }
        list.write();
        list
    }

    /// Makes the range a bad one, or leaves a part of a row or too many rows in a slice.
    fn spoil(&mut self, rng: &mut Rng) {
        let count = self.rows.len() as u64;
        let far = rng.pick(&[1, 2, 1 << 32, 1 << 60, 1 << 61, 1 << 62, 1 << 63]);
        match rng.below(8) {
            0 => self.end = count + far,
            1 => (self.first, self.end) = (count + far, count + far),
            2 => self.first = self.end.saturating_add(1 + rng.below(3)),
            3 => (self.first, self.end) = (u64::MAX, u64::MAX),
            4 => self.secs.longer(1 + rng.below(8)),
            5 => self.nanos.longer(1 + rng.below(4)),
            6 => self.secs.shorter(1 + rng.below(8)),
            _ => self.nanos.shorter(1 + rng.below(4)),
        }
    }

    fn write(&mut self) {
        let (secs, nanos) = (&mut self.secs, &mut self.nanos);
        for (at, (s, n)) in self.rows.iter().enumerate() {
            secs.all[secs.from + at * 8..][..8].copy_from_slice(&s.to_le_bytes());
            nanos.all[nanos.from + at * 4..][..4].copy_from_slice(&n.to_le_bytes());
        }
    }

    /// Another order of the rows that are summed.
    fn shuffle(&mut self, rng: &mut Rng) {
        let inner = &mut self.rows[self.good.clone()];
        for at in (1..inner.len()).rev() {
            inner.swap(at, rng.below(at as u64 + 1) as usize);
        }
        self.write();
    }

    fn want(&self, watch: bool) -> judge::Answer {
        let (secs, nanos) = (self.secs.lent(), self.nanos.lent());
        salt::sum(secs, nanos, self.first, self.end, watch)
    }

    fn call(&self, out: &mut [u8]) -> u32 {
        let (secs, nanos) = (self.secs.lent(), self.nanos.lent());
        raw::sum(secs, nanos, self.first, self.end, out)
    }
}

impl fmt::Debug for List {
    fn fmt(&self, f: &mut fmt::Formatter<'_>) -> fmt::Result {
        let (secs, nanos) = (self.secs.length, self.nanos.length);
        let shown = &self.rows[..self.rows.len().min(SHOWN)];
        write!(
            f,
            "{} rows as {secs} and {nanos} bytes, from {} up to {}, the first of them {shown:?},",
            self.rows.len(),
            self.first,
            self.end
        )
    }
}

/// Rows before or after the range: they must not matter, so most would spoil the sum.
fn outside(shapes: &Shapes, rng: &mut Rng) -> Vec<Pair> {
    let count = rng.below(8).saturating_sub(3);
    let hostile = [(u64::MAX, 999_999_999), (u64::MAX, u32::MAX), (1, 1 << 30)];
    let mut one = || match rng.below(4) {
        0 => shapes.pair(rng),
        _ => rng.pick(&hostile),
    };
    (0..count).map(|_| one()).collect()
}

/// The rows of a range: any sum, one at the longest duration or next to it, or one far above; a bad row now and then.
fn rows(shapes: &Shapes, rng: &mut Rng, long: bool) -> Vec<Pair> {
    let count = match rng.below(16) {
        _ if long => MOST,
        0 => 0,
        1 => 1,
        2..=9 => rng.below(12),
        10..=14 => rng.below(80),
        _ => rng.below(1_000),
    };
    let mut rows: Vec<Pair> = match rng.below(8) {
        0 => (0..count).map(|_| shapes.pair(rng)).collect(),
        1 => (0..count).map(|_| good(rng, spare(count))).collect(),
        2 => (0..count).map(|_| good(rng, 0)).collect(),
        3 => (0..count).map(|_| round(rng)).collect(),
        4 => nines(rng, count),
        5 => (0..count).map(|_| (rng.below(2), 0)).collect(),
        _ => {
            let total = (MAX_NANOS + u128::from(rng.below(5))).saturating_sub(2);
            split(rng, total, count).into_iter().map(of_nanos).collect()
        }
    };
    if !rows.is_empty() && rng.below(8) == 0 {
        let at = match rng.below(4) {
            0 => 0,
            1 => rows.len() - 1,
            _ => rng.below(count) as usize,
        };
        rows[at].1 = (GIGA + rng.below(3) * rng.below(GIGA)) as u32;
    }
    rows
}

/// So many bits off the seconds that this many rows stay in range.
fn spare(count: u64) -> u32 {
    65 - count.leading_zeros()
}

fn good(rng: &mut Rng, shift: u32) -> Pair {
    (rng.word() >> shift, rng.below(GIGA) as u32)
}

/// Seconds whose sum is often a multiple of 2^64 or next to one.
fn round(rng: &mut Rng) -> Pair {
    let top = rng.pick(&[1 << 63, 1 << 62, u64::MAX, u64::MAX << 32, 1 << 32, 0]);
    (top, rng.pick(&[0, 0, 1, 999_999_999]))
}

/// All nines below the second: the carry alone decides whether the seconds fit.
fn nines(rng: &mut Rng, count: u64) -> Vec<Pair> {
    let carry = count * (GIGA - 1) / GIGA;
    let total = u128::from(u64::MAX - carry) + u128::from(rng.below(3));
    let secs = split(rng, total.saturating_sub(1), count);
    let row = |secs: u128| (secs.min(u64::MAX.into()) as u64, 999_999_999);
    secs.into_iter().map(row).collect()
}

/// So many numbers with that sum.
fn split(rng: &mut Rng, total: u128, count: u64) -> Vec<u128> {
    let mut rest = total;
    let mut part = |left: u64| {
        let most = match rng.below(4) {
            _ if left == 1 => return rest,
            0 => 1,
            1 => rest,
            _ => rest / u128::from(left) * 2,
        };
        let part = (rng.wide() % (most + 1)).min(rest);
        rest -= part;
        part
    };
    (1..=count).rev().map(&mut part).collect()
}
