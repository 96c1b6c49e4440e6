//! The command line.

use std::ops::RangeInclusive;

pub enum Mode {
    Gate,
    Scale,
    /// With so many inputs for each function.
    Pages(u64),
}

pub struct Options {
    pub mode: Mode,
    pub quick: bool,
    pub seed: u64,
    pub only: String,
    pub judged: bool,
    /// Which parts of the run at scale.
    pub parts: RangeInclusive<usize>,
}

const USAGE: &str = "usage: compare [--quick] [--seed N] [--only NAME]
       compare --scale [--quick] [--seed N] [--only NAME] [--from PART | --part PART]
       compare --pages INPUTS [--unjudged] [--seed N] [--only NAME]";

impl Options {
    pub fn read(mut args: impl Iterator<Item = String>) -> Result<Options, &'static str> {
        let mut options = Options {
            mode: Mode::Gate,
            quick: false,
            seed: 20_260_415,
            only: String::new(),
            judged: true,
            parts: 1..=usize::MAX,
        };
        while let Some(arg) = args.next() {
            match arg.as_str() {
                "--quick" => options.quick = true,
                "--scale" => options.mode = Mode::Scale,
                "--pages" => options.mode = Mode::Pages(number(&mut args)?),
                "--seed" => options.seed = number(&mut args)?,
                "--only" => options.only = args.next().ok_or(USAGE)?,
                "--unjudged" => options.judged = false,
                "--from" => options.parts = number(&mut args)? as usize..=usize::MAX,
                "--part" => {
                    let part = number(&mut args)? as usize;
                    options.parts = part..=part;
                }
                _ => return Err(USAGE),
            }
        }
        Ok(options)
    }
}

fn number(args: &mut impl Iterator<Item = String>) -> Result<u64, &'static str> {
    let text = args.next().ok_or(USAGE)?;
    text.parse().map_err(|_| USAGE)
}
