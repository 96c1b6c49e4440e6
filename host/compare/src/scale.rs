//! The run at scale, outside the gate: numbered parts in a row, each cut into pieces that all processors share.
//!
//! `--from K` begins with part K, `--part K` runs that part alone, `--quick` a tenth of the pieces of each part. The cases of
//! a piece follow from the seed, the suite and the piece's number, so a part is the same in every run.

use crate::effort::Effort;
use crate::options::Options;
use crate::patterns::SINGLE_PIECES;
use crate::shapes::Shapes;
use crate::suites::{self, Suite};
use crate::tally::{Difference, Tally};
use crate::trial::Trial;
use judge::Rng;
use std::num::NonZero;
use std::ops::Range;
use std::process::ExitCode;
use std::sync::atomic::{AtomicU64, Ordering};
use std::sync::{Mutex, MutexGuard, PoisonError};
use std::thread;
use std::time::{Duration, Instant};

/// Cases of a piece, and pieces of a part: 10^8 cases together.
const CASES: u64 = 2_000_000;
const PIECES: u64 = 50;
/// Parts for all f32 patterns, and for 2 * 10^9 of f64.
const SINGLE_PARTS: u64 = 16;
const DOUBLE_PARTS: u64 = 20;
/// Between two lines on a part that takes long.
const PATIENCE: Duration = Duration::from_secs(20);

/// Some pieces of a suite.
struct Part {
    number: usize,
    suite: Suite,
    pieces: Range<u64>,
}

fn parts(quick: bool) -> Vec<Part> {
    let singles = (
        suites::EVERY_F32,
        SINGLE_PARTS,
        SINGLE_PIECES / SINGLE_PARTS,
    );
    let doubles = (suites::MANY_F64, DOUBLE_PARTS, PIECES);
    let others = suites::all().into_iter().map(|suite| (suite, 1, PIECES));
    let mut parts = Vec::new();
    for (suite, count, pieces) in [singles, doubles].into_iter().chain(others) {
        let run = if quick { pieces / 10 } else { pieces };
        for first in (0..count).map(|part| part * pieces) {
            parts.push(Part {
                number: parts.len() + 1,
                suite,
                pieces: first..first + run,
            });
        }
    }
    parts
}

pub fn run(options: &Options) -> ExitCode {
    let all = parts(options.quick);
    let (last, seed, started) = (all.len(), options.seed, Instant::now());
    let wanted = |part: &Part| {
        options.parts.contains(&part.number) && part.suite.name.contains(&options.only)
    };
    let processors = thread::available_parallelism().map_or(1, NonZero::get);
    println!("processors: {processors}");
    let shapes = Shapes::new();
    let mut rows: Vec<(&str, Tally)> = Vec::new();
    for part in all.into_iter().filter(wanted) {
        let (number, name, begun) = (part.number, part.suite.name, Instant::now());
        let tally = match part.run(seed, processors, &shapes) {
            Ok(tally) => tally,
            Err(difference) => {
                println!("part {number} of {last}: {difference}");
                println!("the same again: --scale --seed {seed} --part {number}");
                return ExitCode::FAILURE;
            }
        };
        let (cases, took) = (tally.cases, begun.elapsed().as_secs_f64());
        print!("part {number} of {last}: {name}, {cases} cases, 0 differences, {took:.1} s");
        match number + 1 {
            next if next > last => println!("; the last part"),
            next => println!("; to go on: --scale --seed {seed} --from {next}"),
        }
        record(&mut rows, name, tally);
    }
    summary(&rows, started.elapsed())
}

/// Parts of one suite make one row.
fn record(rows: &mut Vec<(&'static str, Tally)>, name: &'static str, tally: Tally) {
    match rows.last_mut() {
        Some((last, sum)) if *last == name => sum.add(tally),
        _ => rows.push((name, tally)),
    }
}

fn summary(rows: &[(&str, Tally)], took: Duration) -> ExitCode {
    if rows.is_empty() {
        eprintln!(
            "no part is left, or none has that name: without --from, --part and --only all run"
        );
        return ExitCode::from(2);
    }
    let mut all = Tally::default();
    for (name, tally) in rows {
        println!(
            "{name:<24} {:>10} cases {:>8} panics met 0 differences",
            tally.cases, tally.panics
        );
        all.add(*tally);
    }
    println!(
        "{} cases of {} suites in this run, 0 differences, {:.0} s",
        all.cases,
        rows.len(),
        took.as_secs_f64()
    );
    ExitCode::SUCCESS
}

/// What the processors share while a part runs.
struct Shared {
    next: AtomicU64,
    found: Mutex<Found>,
}

struct Found {
    tally: Tally,
    difference: Option<Difference>,
    pieces: usize,
    /// When a line was last printed.
    said: Instant,
}

impl Shared {
    /// A processor that panicked has said so; what it left is whole.
    fn found(&self) -> MutexGuard<'_, Found> {
        self.found.lock().unwrap_or_else(PoisonError::into_inner)
    }
}

impl Part {
    fn run(&self, seed: u64, processors: usize, shapes: &Shapes) -> Result<Tally, Difference> {
        let shared = Shared {
            next: AtomicU64::new(self.pieces.start),
            found: Mutex::new(Found {
                tally: Tally::default(),
                difference: None,
                pieces: 0,
                said: Instant::now(),
            }),
        };
        thread::scope(|scope| {
            for _ in 0..processors {
                scope.spawn(|| self.work(seed, shapes, &shared));
            }
        });
        let mut found = shared.found();
        if let Some(difference) = found.difference.take() {
            return Err(difference);
        }
        found.tally.covers(&self.suite, self.suite.panics)?;
        Ok(found.tally)
    }

    /// One processor's share: the next piece, until there is none or some piece has a difference.
    fn work(&self, seed: u64, shapes: &Shapes, shared: &Shared) {
        loop {
            let number = shared.next.fetch_add(1, Ordering::Relaxed);
            if number >= self.pieces.end || shared.found().difference.is_some() {
                return;
            }
            let name = self.suite.name;
            let rng = Rng::named(seed, &format!("{name} {number}"));
            let effort = Effort::Piece {
                number,
                cases: CASES,
            };
            let mut trial = Trial::new(name, rng, effort, shapes);
            let outcome = (self.suite.run)(&mut trial);
            let mut found = shared.found();
            found.tally.add(trial.tally());
            found.pieces += 1;
            match outcome {
                Ok(()) => self.say(&mut found),
                Err(difference) => found.difference = Some(difference),
            }
        }
    }

    fn say(&self, found: &mut Found) {
        if found.said.elapsed() < PATIENCE {
            return;
        }
        let (number, name, all) = (self.number, self.suite.name, self.pieces.clone().count());
        println!(
            "part {number}: {name}, {} of {all} pieces, {} cases, 0 differences so far",
            found.pieces, found.tally.cases
        );
        found.said = Instant::now();
    }
}
