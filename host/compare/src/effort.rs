//! How much of a suite is run, and where its buffers lie.

use crate::pages::Place;

#[derive(Copy, Clone, PartialEq)]
pub enum Effort {
    /// A tenth of the gate's share.
    Quick,
    /// The gate's share.
    Full,
    /// A numbered piece of a larger run: so many random cases, and none of the edges, which the gate has.
    Piece { number: u64, cases: u64 },
    /// So many random inputs, each with every length of buffer, at either edge of a page. An emulator's floats may be
    /// wrong and the Rust no judge there; then the checksum of all that came back stands in.
    Pages { inputs: u64, judged: bool },
}

impl Effort {
    /// A tenth in a quick run.
    pub fn share(self, whole: u64) -> u64 {
        match self {
            Effort::Quick => whole / 10,
            _ => whole,
        }
    }

    /// In a quick run one edge of ten.
    pub fn step(self) -> usize {
        match self {
            Effort::Quick => 10,
            _ => 1,
        }
    }

    pub fn has_edges(self) -> bool {
        matches!(self, Effort::Quick | Effort::Full)
    }

    pub fn on_pages(self) -> bool {
        matches!(self, Effort::Pages { .. })
    }

    pub fn is_judged(self) -> bool {
        !matches!(self, Effort::Pages { judged: false, .. })
    }

    /// The places at which each case is run.
    pub fn places(self) -> &'static [Place] {
        if self.on_pages() {
            &[Place::Last, Place::First]
        } else {
            &[Place::Amid]
        }
    }

    /// The panics that a suite must meet, where it should meet `whole`; a run on pages is too short for a least number.
    pub fn least_panics(self, whole: u64) -> u64 {
        if self.on_pages() {
            0
        } else {
            self.share(whole)
        }
    }
}
