//! The refusals by name and number.

use std::error::Error;
use std::fmt;

/// Why a call gave no value. The number is the one that the C function returns.
#[derive(Copy, Clone, Debug, PartialEq, Eq)]
pub enum Refusal {
    /// A float to be converted is below zero.
    Negative = 1,
    /// A float to be converted is NaN or at least 2^64.
    OverflowOrNan = 2,
    /// The exact result is above the longest duration.
    Overflow = 3,
    /// A subtraction is below zero.
    Underflow = 4,
    /// A divisor is zero.
    ZeroDivisor = 5,
    /// A list row has nanoseconds of 10^9 or more.
    BadRow = 6,
    /// A range does not fit its list.
    BadRange = 7,
    /// An option is outside its limits.
    BadOptions = 8,
    /// The lent buffer is too short.
    NoRoom = 9,
    /// A duration handed in has nanoseconds of 10^9 or more.
    BadDuration = 10,
    /// A unit number is above 7.
    BadUnit = 11,
}

impl Refusal {
    /// All of them, in the order of their numbers, from 1 on.
    pub const ALL: [Refusal; 11] = [
        Refusal::Negative,
        Refusal::OverflowOrNan,
        Refusal::Overflow,
        Refusal::Underflow,
        Refusal::ZeroDivisor,
        Refusal::BadRow,
        Refusal::BadRange,
        Refusal::BadOptions,
        Refusal::NoRoom,
        Refusal::BadDuration,
        Refusal::BadUnit,
    ];

    /// The number that the C functions return for it.
    pub fn number(self) -> u32 {
        self as u32
    }

    /// The refusal with that number; 0 and unknown numbers have none.
    pub fn from_number(number: u32) -> Option<Refusal> {
        Refusal::ALL
            .into_iter()
            .find(|refusal| refusal.number() == number)
    }

    /// The refusal behind a number that the library has just returned.
    pub(crate) fn known(number: u32) -> Refusal {
        Refusal::from_number(number).expect("the library gives known numbers only")
    }
}

/// The name alone; it takes a width.
impl fmt::Display for Refusal {
    fn fmt(&self, f: &mut fmt::Formatter<'_>) -> fmt::Result {
        f.pad(&format!("{self:?}"))
    }
}

impl Error for Refusal {}
