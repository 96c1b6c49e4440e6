//! The printed form: the options, and a duration's text in a lent buffer or as a value that prints itself.

use crate::{raw, Duration, Refusal};
use std::fmt;
use std::str::from_utf8;

/// Where the text stands in its width.
#[derive(Copy, Clone, Debug, PartialEq, Eq)]
pub enum Align {
    Left = 1,
    /// The smaller half of the fill comes first.
    Centre = 2,
    Right = 3,
}

/// How a duration is printed; what is not asked for is left out. A number above its limit is `BadOptions` when it is used.
#[derive(Copy, Clone, Debug, PartialEq, Eq)]
pub struct Options {
    plus: bool,
    precision: Option<u32>,
    width: Option<u32>,
    align: Option<Align>,
    fill: u8,
}

impl Options {
    pub const fn new() -> Options {
        Options {
            plus: false,
            precision: None,
            width: None,
            align: None,
            fill: b' ',
        }
    }

    /// With a `+` in front.
    pub const fn plus(mut self) -> Options {
        self.plus = true;
        self
    }

    /// So many digits behind the point, up to 255, rounded half to even.
    pub const fn precision(mut self, digits: u32) -> Options {
        self.precision = Some(digits);
        self
    }

    /// At least so many characters, up to 255.
    pub const fn width(mut self, characters: u32) -> Options {
        self.width = Some(characters);
        self
    }

    pub const fn align(mut self, align: Align) -> Options {
        self.align = Some(align);
        self
    }

    /// A byte from 0x20 to 0x7E in place of the space.
    pub const fn fill(mut self, byte: u8) -> Options {
        self.fill = byte;
        self
    }

    /// As the library takes them.
    fn numbers(&self) -> [i64; 5] {
        let or_none = |number: Option<u32>| number.map_or(-1, i64::from);
        [
            self.plus.into(),
            or_none(self.precision),
            or_none(self.width),
            self.align.map_or(0, |align| align as i64),
            self.fill.into(),
        ]
    }
}

impl Default for Options {
    fn default() -> Options {
        Options::new()
    }
}

/// The text of a duration.
impl Duration {
    /// No text is longer, whatever the options.
    pub const LONGEST_TEXT: usize = 278;

    /// Writes the text at the front of the buffer and gives it back; the bytes behind it stay.
    pub fn write<'a>(self, options: &Options, out: &'a mut [u8]) -> Result<&'a str, Refusal> {
        let returned = raw::fmt(self.secs, self.nanos, options.numbers(), out);
        match usize::try_from(returned) {
            Ok(length) => Ok(from_utf8(&out[..length]).expect("the library writes UTF-8")),
            Err(_) => Err(Refusal::known(returned.unsigned_abs() as u32)),
        }
    }

    /// The text as a value, for `{}`.
    pub fn text(self, options: &Options) -> Result<Text, Refusal> {
        let mut bytes = [0; Duration::LONGEST_TEXT];
        let length = self.write(options, &mut bytes)?.len();
        Ok(Text { bytes, length })
    }
}

/// A text that prints itself, and is a string in all else.
#[derive(Copy, Clone)]
pub struct Text {
    bytes: [u8; Duration::LONGEST_TEXT],
    length: usize,
}

impl std::ops::Deref for Text {
    type Target = str;

    fn deref(&self) -> &str {
        from_utf8(&self.bytes[..self.length]).expect("it was looked at when it was written")
    }
}

impl fmt::Display for Text {
    fn fmt(&self, f: &mut fmt::Formatter<'_>) -> fmt::Result {
        f.write_str(self)
    }
}

impl fmt::Debug for Text {
    fn fmt(&self, f: &mut fmt::Formatter<'_>) -> fmt::Result {
        fmt::Debug::fmt(&**self, f)
    }
}
