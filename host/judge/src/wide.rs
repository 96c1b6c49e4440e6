//! The expected answer of two-word arithmetic, as Rust's u128 has it: four words, or the refusal.

use crate::{Image, OVERFLOW, UNDERFLOW, ZERO_DIVISOR};

pub type Words = Result<[u64; 4], u32>;

fn words(first: u128, second: u128) -> [u64; 4] {
    let half = |n: u128| (n as u64, (n >> 64) as u64);
    let ((a, b), (c, d)) = (half(first), half(second));
    [a, b, c, d]
}

pub fn widening_mul(a: u64, b: u64) -> Words {
    Ok(words(u128::from(a) * u128::from(b), 0))
}

pub fn mul(x: u128, y: u128) -> Words {
    x.checked_mul(y)
        .map(|product| words(product, 0))
        .ok_or(OVERFLOW)
}

pub fn add(x: u128, y: u128) -> Words {
    x.checked_add(y).map(|sum| words(sum, 0)).ok_or(OVERFLOW)
}

pub fn sub(x: u128, y: u128) -> Words {
    x.checked_sub(y).map(|rest| words(rest, 0)).ok_or(UNDERFLOW)
}

pub fn compare(x: u128, y: u128) -> Words {
    Ok(words(x.cmp(&y).image(), 0))
}

/// Zero shifted by anything is zero; another number may not reach 2^128.
pub fn shl(x: u128, n: u32) -> Words {
    if x == 0 {
        Ok([0; 4])
    } else if n > x.leading_zeros() {
        Err(OVERFLOW)
    } else {
        Ok(words(x << n, 0))
    }
}

pub fn shr(x: u128, n: u32) -> Words {
    Ok(words(x.checked_shr(n).unwrap_or(0), 0))
}

pub fn div(n: u128, d: u128) -> Words {
    if d == 0 {
        Err(ZERO_DIVISOR)
    } else {
        Ok(words(n / d, n % d))
    }
}
