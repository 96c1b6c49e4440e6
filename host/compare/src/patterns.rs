//! The two conversions from floats with little around each call: the number and all sixteen bytes are compared, no guards.

use crate::effort::Effort;
use crate::tally::{Difference, Outcome};
use crate::trial::Trial;
use judge::floats::DOUBLE;
use judge::{salt, Answer};
use saltribbon::raw;

/// Patterns of f32 in a piece, and the pieces that hold all of them.
const SINGLES: u64 = 1 << 22;
pub const SINGLE_PIECES: u64 = (1 << 32) / SINGLES;

/// The patterns from a multiple of `SINGLES` on.
pub fn every_f32(t: &mut Trial) -> Outcome {
    let Effort::Piece { number, .. } = t.effort else {
        return Err(Difference::new("every f32 takes --scale".to_string()));
    };
    for bits in number * SINGLES..(number + 1) * SINGLES {
        let seconds = f32::from_bits(bits as u32);
        let found = asked(|out| raw::try_from_secs_f32(seconds, out));
        same(t, bits, salt::try_from_secs_f32(seconds), found)?;
        t.tally.cases += 1;
    }
    Ok(())
}

/// Three of four are ties or near-ties: of these a quarter are exact, half are off by one or two of the smallest steps there
/// are, and a quarter by more. The fourth is of any kind.
pub fn many_f64(t: &mut Trial) -> Outcome {
    let mut turn = 0;
    while t.more(turn, 0) {
        let bits = match turn % 4 {
            0 => DOUBLE.seconds(&mut t.rng),
            _ => DOUBLE.tie(&mut t.rng),
        };
        let seconds = f64::from_bits(bits);
        let want = salt::try_from_secs_f64(seconds);
        let found = asked(|out| raw::try_from_secs_f64(seconds, out));
        same(t, bits, want, found)?;
        t.tally.met(want.err().unwrap_or(0));
        turn += 1;
    }
    Ok(())
}

/// A refusal must leave the bytes alone; one that does not is no refusal's number.
fn asked(call: impl FnOnce(&mut [u8]) -> u32) -> Answer {
    let before = [0xA5; 16];
    let mut out = before;
    match call(&mut out) {
        0 => Ok(u128::from_le_bytes(out)),
        number if out == before => Err(number),
        number => Err(number | 1 << 31),
    }
}

fn same(t: &Trial, bits: u64, want: Answer, found: Answer) -> Outcome {
    if found == want {
        return Ok(());
    }
    Err(Difference::new(format!(
        "{} {bits:#X}\nexpected {want:X?}\nfound    {found:X?}",
        t.name
    )))
}
