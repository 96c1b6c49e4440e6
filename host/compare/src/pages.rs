//! Memory with an inaccessible page on either side, so that a byte read or written outside a buffer stops the run.

use std::ffi::{c_int, c_void};
use std::fmt::{self, Display};
use std::{ptr, slice};

/// Where the lent bytes lie.
#[derive(Copy, Clone, PartialEq)]
pub enum Place {
    /// Between guard bytes.
    Amid,
    /// They begin where a page does; the one before is inaccessible.
    First,
    /// They end where a page does; the one after is inaccessible.
    Last,
}

impl Display for Place {
    fn fmt(&self, f: &mut fmt::Formatter<'_>) -> fmt::Result {
        f.write_str(match self {
            Place::Amid => "between guards",
            Place::First => "at a page's start",
            Place::Last => "at a page's end",
        })
    }
}

extern "C" {
    fn mmap(
        at: *mut c_void,
        len: usize,
        prot: c_int,
        flags: c_int,
        fd: c_int,
        from: i64,
    ) -> *mut c_void;
    fn mprotect(at: *mut c_void, len: usize, prot: c_int) -> c_int;
    fn munmap(at: *mut c_void, len: usize) -> c_int;
}

// The numbers of Linux, the same on x86-64 and Arm.
const PROT_NONE: c_int = 0;
const PROT_READ: c_int = 1;
const PROT_READ_WRITE: c_int = 3;
const MAP_PRIVATE_ANONYMOUS: c_int = 0x22;

/// Bytes of the accessible part and of each side: a multiple of every page size in use.
const SIZE: usize = 1 << 16;

/// A number of which any bits are a value, and which a page's start suits.
pub trait Number: Copy {}
impl Number for u8 {}
impl Number for u64 {}

/// `SIZE` bytes with an inaccessible part before and one after.
pub struct Zone(*mut u8);

impl Zone {
    pub fn new() -> Zone {
        // SAFETY: a new mapping at a place of the system's choice touches no other memory.
        let all = unsafe {
            mmap(
                ptr::null_mut(),
                3 * SIZE,
                PROT_NONE,
                MAP_PRIVATE_ANONYMOUS,
                -1,
                0,
            )
        };
        assert!(
            all.addr() != usize::MAX,
            "no memory for {} bytes: free some",
            3 * SIZE
        );
        let mut zone = Zone(all.cast::<u8>().wrapping_add(SIZE));
        zone.protect(PROT_READ_WRITE);
        zone
    }

    fn protect(&mut self, prot: c_int) {
        // SAFETY: these bytes are the middle of the mapping, and nobody holds a borrow of them.
        let refused = unsafe { mprotect(self.0.cast(), SIZE, prot) };
        assert!(refused == 0, "the system refuses to protect pages");
    }

    /// The numbers at the start or the end, filled with these.
    pub fn filled<T: Number, const N: usize>(&mut self, place: Place, with: [T; N]) -> &mut [T; N] {
        let at = self.0.wrapping_add(offset(place, size_of_val(&with)));
        // SAFETY: they lie in the accessible part, aligned as a page is, and the borrow of the zone is exclusive.
        let numbers = unsafe { &mut *at.cast::<[T; N]>() };
        *numbers = with;
        numbers
    }

    /// A copy of the bytes at the start or the end, which cannot be written.
    pub fn copied(&mut self, place: Place, bytes: &[u8]) -> &[u8] {
        self.protect(PROT_READ_WRITE);
        let at = self.0.wrapping_add(offset(place, bytes.len()));
        // SAFETY: they lie in the accessible part, and the borrow of the zone is exclusive.
        unsafe { slice::from_raw_parts_mut(at, bytes.len()) }.copy_from_slice(bytes);
        self.protect(PROT_READ);
        // SAFETY: as before, and only to be read.
        unsafe { slice::from_raw_parts(at, bytes.len()) }
    }
}

fn offset(place: Place, length: usize) -> usize {
    assert!(
        length <= SIZE,
        "{length} bytes do not fit: make SIZE larger"
    );
    match place {
        Place::Last => SIZE - length,
        Place::First | Place::Amid => 0,
    }
}

impl Drop for Zone {
    fn drop(&mut self) {
        // SAFETY: it is the whole mapping of `new`, and no borrow outlives the zone.
        unsafe { munmap(self.0.wrapping_sub(SIZE).cast(), 3 * SIZE) };
    }
}
