//! One suite at work: the drivers that make the cases, and the comparison of a single case.

use crate::effort::Effort;
use crate::pages::{Place, Zone};
use crate::shapes::{Pair, Shapes};
use crate::tally::{Difference, Outcome, Tally};
use judge::edges::{cross, few_nanos, few_words};
use judge::wide::Words;
use judge::{lent, panics_met, Answer, Rng, NO_ROOM};
use oracle::Duration;
use std::fmt::{Debug, Display};
use std::hash::{DefaultHasher, Hash, Hasher};

/// Longest buffer that is lent.
const LONGEST: usize = 40;
/// Bytes around the lent ones, at least, on either side.
pub const GUARD: usize = 16;
/// All bytes of a case: the lent part begins at any of eight places.
const SPAN: usize = GUARD + 7 + LONGEST + GUARD + 1;
/// Guard words on either side of a door's four.
const WORDS: usize = 4;
/// The Rust's panic is met for real in one of so many random cases, and in all those at the edges.
const WATCH: u64 = 16;
/// Random cases of a function, where it does not ask for more.
const RANDOM: u64 = 2_000_000;
/// The same of two-word arithmetic.
const DOOR: u64 = 3_000_000;

pub struct Trial<'a> {
    pub name: &'static str,
    pub rng: Rng,
    pub shapes: &'a Shapes,
    pub effort: Effort,
    pub tally: Tally,
    panics_before: u64,
    /// Random bytes that buffers are filled from.
    pool: Vec<u8>,
    /// Where buffers lie that are to end or begin with a page.
    zone: Option<Zone>,
    /// All that came back on pages.
    seen: DefaultHasher,
}

impl<'a> Trial<'a> {
    pub fn new(name: &'static str, mut rng: Rng, effort: Effort, shapes: &'a Shapes) -> Trial<'a> {
        let pool = (0..1_024).flat_map(|_| rng.word().to_le_bytes()).collect();
        Trial {
            name,
            rng,
            shapes,
            effort,
            tally: Tally::default(),
            panics_before: panics_met(),
            pool,
            zone: effort.on_pages().then(Zone::new),
            seen: DefaultHasher::new(),
        }
    }

    /// A checksum of all that came back on pages.
    pub fn checksum(&self) -> u64 {
        self.seen.finish()
    }

    /// What was met, with the panics of the Rust that were met for real and stand behind a refusal.
    pub fn tally(mut self) -> Tally {
        self.tally.panics = panics_met() - self.panics_before;
        self.tally
    }

    /// Whether another random input is to follow so many, where the gate has `whole` of them.
    pub fn more(&self, turn: u64, whole: u64) -> bool {
        match self.effort {
            Effort::Piece { cases, .. } => self.tally.cases < cases,
            Effort::Pages { inputs, .. } => turn < inputs,
            Effort::Quick | Effort::Full => turn < self.effort.share(whole),
        }
    }

    /// The lengths that are lent at every edge.
    pub fn lengths(&self) -> Vec<usize> {
        if self.effort == Effort::Quick {
            vec![0, 15, 16, LONGEST]
        } else {
            (0..=LONGEST).collect()
        }
    }

    /// A random length, most often the one that is just enough.
    pub fn length(&mut self) -> usize {
        match self.rng.below(4) {
            0 => self.rng.below(LONGEST as u64 + 1) as usize,
            1 => 16 + self.rng.below(LONGEST as u64 - 15) as usize,
            _ => 16,
        }
    }

    /// Random bytes, for a buffer with its guards.
    fn filled<const N: usize>(&mut self) -> [u8; N] {
        let from = self.rng.below((self.pool.len() - N) as u64) as usize;
        let mut bytes = [0; N];
        bytes.copy_from_slice(&self.pool[from..from + N]);
        bytes
    }

    /// Where the lent part begins: at any of eight places behind the guard, or so that it touches the page's edge.
    fn front(&mut self, place: Place, all: usize, length: usize) -> usize {
        match place {
            Place::Amid => GUARD + self.rng.below(8) as usize,
            Place::First => 0,
            Place::Last => all - length,
        }
    }

    /// One call with `length` lent bytes among N: what comes back and every byte must be as expected.
    pub fn lend<const N: usize, R: PartialEq + Display + Hash>(
        &mut self,
        place: Place,
        input: impl Debug,
        (number, written): (R, &[u8]),
        length: usize,
        call: impl Fn(&mut [u8]) -> R,
    ) -> Outcome {
        let front = self.front(place, N, length);
        let mut expected: [u8; N] = self.filled();
        let mut amid = expected;
        let found = match &mut self.zone {
            Some(zone) => zone.filled(place, expected),
            None => &mut amid,
        };
        expected[front..front + written.len()].copy_from_slice(written);
        let returned = call(&mut found[front..front + length]);
        if self.effort.on_pages() {
            (&returned, &*found).hash(&mut self.seen);
        }
        if returned == number && *found == expected || !self.effort.is_judged() {
            return Ok(());
        }
        let (expected, found) = (parts(&expected, front, length), parts(found, front, length));
        Err(Difference::new(format!(
            "{} {input:?} with {length} bytes lent, {place} (before | lent | after)\nexpected {number:>3}: {expected}\nfound    {returned:>3}: {found}",
            self.name
        )))
    }

    /// One case: a call with `length` lent bytes, at each place of this trial.
    pub fn case<I: Debug>(
        &mut self,
        input: I,
        want: Answer,
        length: usize,
        call: impl Fn(&mut [u8]) -> u32,
    ) -> Outcome {
        for &place in self.effort.places() {
            self.case_at(place, &input, want, length, &call)?;
        }
        Ok(())
    }

    pub fn case_at<I: Debug>(
        &mut self,
        place: Place,
        input: I,
        want: Answer,
        length: usize,
        call: impl Fn(&mut [u8]) -> u32,
    ) -> Outcome {
        let bytes = want.unwrap_or(0).to_le_bytes();
        let (number, written) = match want {
            Err(refusal) => (refusal, 0),
            Ok(_) if length < 16 => (NO_ROOM, 0),
            Ok(_) => (0, 16),
        };
        self.tally.met(number);
        self.lend::<SPAN, u32>(place, input, (number, &bytes[..written]), length, call)
    }

    fn every_length<I: Copy + Debug>(
        &mut self,
        input: I,
        want: Answer,
        call: impl Fn(I, &mut [u8]) -> u32,
    ) -> Outcome {
        for length in self.lengths() {
            self.case(input, want, length, |out| call(input, out))?;
        }
        Ok(())
    }

    /// The heart of every driver: each edge with each length of buffer, then random inputs with random ones.
    pub fn each<I: Copy + Debug>(
        &mut self,
        edges: impl FnOnce(&Shapes) -> Vec<I>,
        random: impl Fn(&Shapes, &mut Rng) -> I,
        call: impl Fn(I, &mut [u8]) -> u32,
        judge: impl Fn(I, bool) -> Answer,
    ) -> Outcome {
        self.each_of(RANDOM, edges, random, call, judge)
    }

    /// The same with so many random inputs.
    pub fn each_of<I: Copy + Debug>(
        &mut self,
        count: u64,
        edges: impl FnOnce(&Shapes) -> Vec<I>,
        random: impl Fn(&Shapes, &mut Rng) -> I,
        call: impl Fn(I, &mut [u8]) -> u32,
        judge: impl Fn(I, bool) -> Answer,
    ) -> Outcome {
        for input in self.edges(edges) {
            self.every_length(input, judge(input, true), &call)?;
        }
        let mut turn = 0;
        while self.more(turn, count) {
            let input = random(self.shapes, &mut self.rng);
            let want = judge(input, turn % WATCH == 0);
            if self.effort.on_pages() {
                self.every_length(input, want, &call)?;
            } else {
                let length = self.length();
                self.case(input, want, length, |out| call(input, out))?;
            }
            turn += 1;
        }
        Ok(())
    }

    /// The edges where they are run: making them takes time.
    fn edges<I>(&self, make: impl FnOnce(&Shapes) -> Vec<I>) -> Vec<I> {
        if self.effort.has_edges() {
            make(self.shapes)
        } else {
            Vec::new()
        }
    }

    /// A constant: nothing goes in.
    pub fn constant(&mut self, call: fn(&mut [u8]) -> u32, value: Duration) -> Outcome {
        let image = judge::Image::image(value);
        self.each(
            |_| vec![()],
            |_, _| (),
            |(), out| call(out),
            |(), _| Ok(image),
        )
    }

    /// Any pair of seconds and nanoseconds, for a function that carries.
    pub fn pair(
        &mut self,
        call: fn(u64, u32, &mut [u8]) -> u32,
        judge: fn(u64, u32, bool) -> Answer,
    ) -> Outcome {
        self.each(
            |s| cross(&s.words, &s.nanos),
            Shapes::carry,
            |(secs, nanos), out| call(secs, nanos, out),
            |(secs, nanos), watch| judge(secs, nanos, watch),
        )
    }

    /// A count and a unit number.
    pub fn count(
        &mut self,
        call: fn(u64, u32, &mut [u8]) -> u32,
        judge: fn(u64, u32, bool) -> Answer,
    ) -> Outcome {
        self.each(
            |s| cross(&s.words, &s.units),
            Shapes::count,
            |(count, unit), out| call(count, unit, out),
            |(count, unit), watch| judge(count, unit, watch),
        )
    }

    /// A two-word count of nanoseconds.
    pub fn wide_count(
        &mut self,
        call: fn(u64, u64, &mut [u8]) -> u32,
        judge: fn(u128, bool) -> Answer,
    ) -> Outcome {
        self.each(
            |s| s.wides.clone(),
            Shapes::wide_nanos,
            |nanos, out| call(nanos as u64, (nanos >> 64) as u64, out),
            judge,
        )
    }

    /// One duration, good or bad.
    pub fn unary(
        &mut self,
        call: fn(u64, u32, &mut [u8]) -> u32,
        judge: fn(Duration) -> Answer,
    ) -> Outcome {
        self.each(
            |s| cross(&s.words, &s.nanos),
            Shapes::pair,
            |(secs, nanos), out| call(secs, nanos, out),
            |(secs, nanos), _| judge(lent(secs, nanos)?),
        )
    }

    /// Two durations, each good or bad.
    pub fn binary(
        &mut self,
        random: fn(&Shapes, &mut Rng) -> (Pair, Pair),
        call: fn(u64, u32, u64, u32, &mut [u8]) -> u32,
        judge: impl Fn(Duration, Duration, bool) -> Answer,
    ) -> Outcome {
        self.each(
            |_| cross(&few_pairs(), &few_pairs()),
            random,
            |(a, b), out| call(a.0, a.1, b.0, b.1, out),
            |(a, b), watch| judge(lent(a.0, a.1)?, lent(b.0, b.1)?, watch),
        )
    }

    /// A duration, good or bad, and a 32-bit factor or divisor.
    pub fn scaled(
        &mut self,
        call: fn(u64, u32, u32, &mut [u8]) -> u32,
        judge: fn(Duration, u32) -> Answer,
    ) -> Outcome {
        self.each(
            |s| cross(&few_pairs(), &s.factors),
            Shapes::scaled,
            |(d, by), out| call(d.0, d.1, by, out),
            |(d, by), _| judge(lent(d.0, d.1)?, by),
        )
    }

    /// Two-word arithmetic: four words between guard words.
    pub fn door<I: Copy + Debug>(
        &mut self,
        edges: impl FnOnce(&Shapes) -> Vec<I>,
        random: impl Fn(&Shapes, &mut Rng) -> I,
        call: impl Fn(I, &mut [u64; 4]) -> u32,
        judge: impl Fn(I) -> Words,
    ) -> Outcome {
        let step = self.effort.step();
        for input in self.edges(edges).into_iter().step_by(step) {
            self.door_case(input, judge(input), &call)?;
        }
        let mut turn = 0;
        while self.more(turn, DOOR) {
            let input = random(self.shapes, &mut self.rng);
            self.door_case(input, judge(input), &call)?;
            turn += 1;
        }
        Ok(())
    }

    fn door_case<I: Copy + Debug>(
        &mut self,
        input: I,
        want: Words,
        call: impl Fn(I, &mut [u64; 4]) -> u32,
    ) -> Outcome {
        for &place in self.effort.places() {
            self.door_case_at(place, input, want, &call)?;
        }
        Ok(())
    }

    fn door_case_at<I: Copy + Debug>(
        &mut self,
        place: Place,
        input: I,
        want: Words,
        call: impl Fn(I, &mut [u64; 4]) -> u32,
    ) -> Outcome {
        let fill = self.rng.word();
        let mut expected = [0; WORDS + 4 + WORDS];
        for (at, word) in expected.iter_mut().enumerate() {
            *word = fill.rotate_left(5 * at as u32);
        }
        let mut amid = expected;
        let found = match &mut self.zone {
            Some(zone) => zone.filled(place, expected),
            None => &mut amid,
        };
        let lent = match place {
            Place::Amid => WORDS..WORDS + 4,
            Place::First => 0..4,
            Place::Last => WORDS + WORDS..WORDS + WORDS + 4,
        };
        let number = want.err().unwrap_or(0);
        if let Ok(words) = want {
            expected[lent.clone()].copy_from_slice(&words);
        }
        let returned = call(input, found[lent].as_mut_array().expect("four words"));
        self.tally.met(number);
        if self.effort.on_pages() {
            (returned, &*found).hash(&mut self.seen);
        }
        if returned == number && *found == expected || !self.effort.is_judged() {
            return Ok(());
        }
        Err(Difference::new(format!(
            "{} {input:?} with four words lent of {}, {place}\nexpected {number:>2}: {expected:016X?}\nfound    {returned:>2}: {found:016X?}",
            self.name,
            expected.len()
        )))
    }
}

/// A short list of durations, good and bad.
fn few_pairs() -> Vec<Pair> {
    cross(&few_words(), &few_nanos())
}

/// The bytes of a case: those before the lent ones, the lent ones, those after.
fn parts(bytes: &[u8], front: usize, length: usize) -> String {
    let (before, rest) = bytes.split_at(front);
    let (lent, after) = rest.split_at(length);
    format!("{} | {} | {}", hex(before), hex(lent), hex(after))
}

fn hex(bytes: &[u8]) -> String {
    bytes.iter().map(|byte| format!("{byte:02X}")).collect()
}
