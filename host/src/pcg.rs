//! The generator on the board: PCG XSL RR 128/64, seeded with an anchor's digest.

use crate::digest_words;
use crate::sys::{self, DigestWords, Wide};

/// Draws numbers of 64 bits without end, those of rand_pcg's `Pcg64`. What becomes of them is the host's.
#[derive(Clone, Copy, Debug, PartialEq, Eq, Hash)]
pub struct Pcg(sys::Pcg);

impl Pcg {
    /// `Pcg64::from_seed` of the digest's bytes.
    pub fn from_digest(digest: &[u8; 32]) -> Pcg {
        Pcg(sys::committer_seed(DigestWords { words: digest_words(digest) }))
    }

    /// Any two numbers; an even increment is drawn from as well.
    pub fn from_parts(state: u128, increment: u128) -> Pcg {
        Pcg(sys::Pcg { state: halves(state), increment: halves(increment) })
    }

    pub fn state(&self) -> u128 {
        number(self.0.state)
    }

    pub fn increment(&self) -> u128 {
        number(self.0.increment)
    }

    /// The next draw.
    pub fn next_u64(&mut self) -> u64 {
        let drawn = sys::committer_draw(self.0);
        self.0 = drawn.next;
        drawn.value
    }
}

impl Iterator for Pcg {
    type Item = u64;

    fn next(&mut self) -> Option<u64> {
        Some(self.next_u64())
    }
}

fn halves(number: u128) -> Wide {
    Wide { high: (number >> 64) as u64, low: number as u64 }
}

fn number(wide: Wide) -> u128 {
    u128::from(wide.high) << 64 | u128::from(wide.low)
}
