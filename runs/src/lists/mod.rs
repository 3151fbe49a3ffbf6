//! The lists of calls.

mod chains;
mod damage;
mod growth;
mod limits;
mod short;
mod tower;

use committer::{Call, Link, PointId, PointInfo};

pub use chains::{chained, removing, waiting};
pub use damage::damaged;
pub use growth::{Growth, Taste, grown};
pub use limits::limits;
pub use short::shorts;
pub use tower::{tower, tower_point};

use crate::random::Random;

/// A digest that is told by a small number, ordered as the numbers.
pub fn digest(number: u32) -> [u8; 32] {
    let mut digest = [0; 32];
    digest[..4].copy_from_slice(&number.to_be_bytes());
    digest
}

pub fn point(round: u32, author: u32, number: u32) -> PointId {
    PointId { round, author, digest: digest(number) }
}

pub fn link(peer: u32, number: u32) -> Link {
    Link { peer, digest: digest(number) }
}

/// A commit; its place lists are the Rust's, and are lent where it is played.
pub fn commit(trigger: PointId) -> Call {
    Call::Commit(trigger, Vec::new())
}

/// The payloads of a list's points, by a generator of their own, so that they change nothing else of the list.
#[derive(Clone, Debug)]
struct Payloads(Random);

impl Payloads {
    /// Of the list that is about to be made by this generator.
    fn of(random: &Random) -> Payloads {
        Payloads(Random::of(random.clone().word(), PAYLOADS, 0))
    }

    fn next(&mut self) -> u32 {
        let random = &mut self.0;
        match random.below(5) {
            0 => 0,
            1 => u32::MAX,
            2 => random.word() as u32,
            _ => random.within(1, 2_000),
        }
    }

    /// The same with numbers drawn for it.
    fn put(&mut self, info: PointInfo) -> PointInfo {
        PointInfo { payload_len: self.next(), payload_bytes: self.next(), ..info }
    }
}

/// The family that no list has.
const PAYLOADS: u64 = 100;

/// A valid point without marks.
pub fn valid(includes: Vec<Link>, witness: Vec<Link>) -> PointInfo {
    PointInfo { status: 1, includes, witness, ..PointInfo::default() }
}
