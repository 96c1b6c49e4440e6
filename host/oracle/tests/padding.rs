//! The padding that stands in for core's gives the same text as the standard library's Duration.

#![feature(formatting_options)]

use std::fmt::{Alignment, Debug, FormattingOptions, Sign};

fn text(value: impl Debug, options: FormattingOptions) -> String {
    let mut text = String::new();
    value
        .fmt(&mut options.create_formatter(&mut text))
        .expect("a string takes every text");
    text
}

#[test]
fn pads_as_core_does() {
    let pairs = [
        (0, 0),
        (0, 7),
        (0, 1_500),
        (0, 999_999),
        (0, 25_000_000),
        (1, 500_000_000),
        (3, 499_999_999),
        (u64::MAX, 0),
        (u64::MAX, 999_999_999),
    ];
    let aligns = [
        None,
        Some(Alignment::Left),
        Some(Alignment::Center),
        Some(Alignment::Right),
    ];
    let mut padded = 0;
    for (secs, nanos) in pairs {
        let ours = oracle::Duration::new(secs, nanos);
        let std = std::time::Duration::new(secs, nanos);
        for align in aligns {
            for fill in [' ', '#', 'µ', '0'] {
                for width in [None, Some(0), Some(6), Some(7), Some(30), Some(u16::MAX)] {
                    for precision in [None, Some(0), Some(2), Some(9), Some(12)] {
                        for sign in [None, Some(Sign::Plus)] {
                            let mut options = FormattingOptions::new();
                            options.align(align).fill(fill).width(width);
                            options.precision(precision).sign(sign);
                            assert_eq!(text(ours, options), text(std, options), "{options:?}");
                            padded += 1;
                        }
                    }
                }
            }
        }
    }
    assert_eq!(padded, 9 * 4 * 4 * 6 * 5 * 2);
}
