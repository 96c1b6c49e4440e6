//! Stands in for core's private `Formatter::padding`: the fill before the text, and what is owed after it.

use core::fmt::{Alignment, Error, Formatter, Result as Done, Write};

/// The fill that is still to be written once the text is out.
pub(crate) struct After {
    fill: char,
    count: u16,
}

impl After {
    pub(crate) fn write(self, f: &mut Formatter<'_>) -> Done {
        repeat(f, self.fill, self.count)
    }
}

/// Writes the front part of `count` fill characters. The middle rounds down in front, as core's does.
pub(crate) fn padding(
    f: &mut Formatter<'_>,
    count: u16,
    default: Alignment,
) -> Result<After, Error> {
    let front = match f.align().unwrap_or(default) {
        Alignment::Left => 0,
        Alignment::Right => count,
        Alignment::Center => count / 2,
    };
    let fill = f.fill();
    repeat(f, fill, front)?;
    Ok(After {
        fill,
        count: count - front,
    })
}

fn repeat(f: &mut Formatter<'_>, fill: char, count: u16) -> Done {
    (0..count).try_for_each(|_| f.write_char(fill))
}
