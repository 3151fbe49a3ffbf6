//! Keepers and spoilers: who decides whether an anchor reaches a wanted point.

use crate::refusal::Refusal;
use crate::sys;

/// Of the peers some are keepers, the others spoilers. In each of the coming rounds, the last of them the anchor's,
/// every peer writes one point that includes at least `quorum` points of the round before, as its side likes, spoilers
/// choosing after keepers. Sets have peer n as the bit of weight 2^n.
#[derive(Clone, Copy, Debug, Default, PartialEq, Eq, Hash)]
pub struct Game {
    pub peers: u32,
    /// some of the peers, all of them or none
    pub keepers: u32,
    /// 1 to the number of peers
    pub quorum: u32,
    /// the peers whose points reach the wanted point now
    pub reaching: u32,
    /// the anchor's, one of the peers
    pub author: u32,
    /// rounds from now to the anchor's, 1 to 255
    pub distance: u32,
}

/// Exactly one of the two holds.
#[derive(Clone, Copy, Debug, PartialEq, Eq, Hash)]
pub enum Reach {
    /// keepers can force the reach
    Forced,
    /// spoilers can prevent it
    Prevented,
}

impl Game {
    /// Refused with 31 only.
    pub fn reach(&self) -> Result<Reach, Refusal> {
        let Game { peers, keepers, quorum, reaching, author, distance } = *self;
        let reach = sys::committer_reach_of(peers, keepers, quorum, reaching, author, distance);
        match (reach.refused, reach.forced) {
            (0, 0) => Ok(Reach::Prevented),
            (0, _) => Ok(Reach::Forced),
            _ => Err(Refusal::BadGame),
        }
    }
}
