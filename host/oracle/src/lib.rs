//! The judge: `Duration` of the given time.rs, or of the compiler where that file is not to be had. `SOURCE` says which.

#![no_std]
#![cfg_attr(
    given,
    feature(
        const_convert,
        const_ops,
        const_trait_impl,
        int_roundings,
        rustc_attrs,
        staged_api,
        temporary_niche_types
    )
)]
#![cfg_attr(given, allow(internal_features))]
#![cfg_attr(given, stable(feature = "duration_core", since = "1.25.0"))]

// time.rs speaks of its neighbours in core as `crate::fmt` and so on.
#[cfg(given)]
use core::{cmp, fmt, iter, num, ops, str};

#[cfg(given)]
include!(concat!(env!("OUT_DIR"), "/given.rs"));

#[cfg(given)]
#[stable(feature = "duration_core", since = "1.25.0")]
pub use time::{Duration, TryFromFloatSecsError};

#[cfg(not(given))]
pub use core::time::{Duration, TryFromFloatSecsError};

/// Which Duration judges.
#[cfg_attr(given, stable(feature = "duration_core", since = "1.25.0"))]
pub const SOURCE: &str = env!("ORACLE_SOURCE");

/// Whether the given time.rs judges. The compiler's own may multiply and divide by an f32 in f32, as that of 1.95 does.
#[cfg_attr(given, stable(feature = "duration_core", since = "1.25.0"))]
pub const GIVEN: bool = cfg!(given);

#[cfg(given)]
mod pad;

#[cfg(given)]
use pad::padding;
