//! Feeds the library and the oracle the same inputs and compares the returned number and every byte.
//!
//! `compare [--quick] [--seed N] [--only NAME]`: `--quick` runs a tenth, `--only` the suites whose name holds NAME.
//! `compare --scale ..`: all f32 patterns, 2 * 10^9 of f64 and 10^8 cases of each suite, on all processors; see scale.rs.
//! `compare --pages INPUTS ..`: every length of buffer at either edge of a page, for so many inputs of each C function,
//! with a checksum of all that came back; `--unjudged` shows the checksum alone.

mod effort;
mod floats;
mod options;
mod pages;
mod patterns;
mod scale;
mod shapes;
mod suites;
mod sums;
mod tally;
mod texts;
mod trial;
mod wrapper;

use effort::Effort;
use judge::Rng;
use options::{Mode, Options};
use shapes::Shapes;
use std::process::ExitCode;
use suites::Suite;
use tally::Outcome;
use trial::Trial;

fn main() -> ExitCode {
    let options = match Options::read(std::env::args().skip(1)) {
        Ok(options) => options,
        Err(line) => {
            eprintln!("{line}");
            return ExitCode::from(2);
        }
    };
    judge::quiet();
    println!("judge: {}", oracle::SOURCE);
    println!("seed: {}", options.seed);
    match options.mode {
        Mode::Scale => scale::run(&options),
        Mode::Pages(inputs) => {
            let judged = options.judged;
            let effort = Effort::Pages { inputs, judged };
            gate(&options, suites::c_functions(), effort)
        }
        Mode::Gate if options.quick => gate(&options, suites::all(), Effort::Quick),
        Mode::Gate => gate(&options, suites::all(), Effort::Full),
    }
}

/// One suite after the other, up to the first difference.
fn gate(options: &Options, suites: Vec<Suite>, effort: Effort) -> ExitCode {
    let shapes = Shapes::new();
    let mut passed = 0;
    let wanted = |suite: &Suite| suite.name.contains(&options.only);
    for suite in suites.into_iter().filter(wanted) {
        if let Err(difference) = one(&suite, options.seed, effort, &shapes) {
            println!("{difference}");
            println!("seed: {}", options.seed);
            println!("{passed} suites passed, 1 failed");
            return ExitCode::FAILURE;
        }
        passed += 1;
    }
    if passed == 0 {
        eprintln!(
            "no suite is named like `{}`: leave out --only to run all",
            options.only
        );
        return ExitCode::from(2);
    }
    println!("{passed} suites passed, 0 failed");
    ExitCode::SUCCESS
}

/// Runs a suite and prints its line.
fn one(suite: &Suite, seed: u64, effort: Effort, shapes: &Shapes) -> Outcome {
    let rng = Rng::named(seed, suite.name);
    let mut trial = Trial::new(suite.name, rng, effort, shapes);
    let outcome = (suite.run)(&mut trial);
    let checksum = trial.checksum();
    let tally = trial.tally();
    let least = effort.least_panics(suite.panics);
    let outcome = outcome.and_then(|()| tally.covers(suite, least));
    let verdict = match outcome {
        Err(_) => "1 differences",
        Ok(()) if effort.is_judged() => "0 differences",
        Ok(()) => "not judged",
    };
    let (name, cases, panics) = (suite.name, tally.cases, tally.panics);
    print!("{name:<24} {cases:>9} cases {panics:>7} panics met {verdict}");
    if effort.on_pages() {
        print!(", checksum {checksum:016X}");
    }
    println!();
    outcome
}
