//! What a remove answers: the stats of peers and the events of the drained rounds.

use std::fmt;

use crate::anchor::{id, number, taken};
use crate::sys;
use crate::types::{PointId, hex};

/// Of a peer's bytes.
pub const PEER_BYTES: usize = 31;

/// The answer of a remove.
#[derive(Clone, Debug, Default, PartialEq, Eq, Hash)]
pub struct Removal {
    /// by rising number
    pub peers: Vec<MempoolPeerStats>,
    /// by kind, then round, author (or signer) and digest
    pub events: Vec<JournalDagEvent>,
}

/// What a peer did in the reported rounds of which it is a peer, from `stats_since` on.
#[derive(Clone, Copy, Debug, PartialEq, Eq, Hash)]
pub struct MempoolPeerStats {
    pub peer: u32,
    pub first_round: u32,
    pub last_round: u32,
    pub counters: MempoolPeerCounters,
    /// each counter times its weight, summed
    pub score: u32,
}

pub use sys::Counters as MempoolPeerCounters;

impl MempoolPeerCounters {
    /// In their order.
    pub fn list(&self) -> [u16; 9] {
        [
            self.was_leader,
            self.skipped_rounds,
            self.valid_points,
            self.points_proved,
            self.equivocated,
            self.trans_invalid_points,
            self.invalid_points,
            self.ill_formed_points,
            self.references_skipped,
        ]
    }

    /// From a list in their order.
    pub fn of(list: [u16; 9]) -> MempoolPeerCounters {
        MempoolPeerCounters {
            was_leader: list[0],
            skipped_rounds: list[1],
            valid_points: list[2],
            points_proved: list[3],
            equivocated: list[4],
            trans_invalid_points: list[5],
            invalid_points: list[6],
            ill_formed_points: list[7],
            references_skipped: list[8],
        }
    }

    /// Adds those of another answer, each up to 65,535 at most.
    pub fn merge(&mut self, other: MempoolPeerCounters) {
        // Safety: the pointer is that of a value that nothing else uses.
        unsafe { sys::committer_merge(self, other) }
    }
}

/// What is reported of the drained rounds. Lists rise by round, then by digest.
#[derive(Clone, Debug, PartialEq, Eq, Hash)]
pub enum JournalDagEvent {
    TransInvalid(PointId),
    Invalid(PointId),
    IllFormed(PointId),
    Equivocated {
        author: u32,
        round: u32,
        digests: Vec<[u8; 32]>,
    },
    /// the points of a signer that lack a reference, and the proofs of what it signed
    EvidenceNoInclusion {
        signer: u32,
        blamed: Vec<PointId>,
        proofs: Vec<PointId>,
    },
}

impl JournalDagEvent {
    /// 1 to 5.
    pub fn kind(&self) -> u32 {
        match self {
            JournalDagEvent::TransInvalid(_) => 1,
            JournalDagEvent::Invalid(_) => 2,
            JournalDagEvent::IllFormed(_) => 3,
            JournalDagEvent::Equivocated { .. } => 4,
            JournalDagEvent::EvidenceNoInclusion { .. } => 5,
        }
    }

    /// The length in an answer.
    pub fn bytes(&self) -> usize {
        match self {
            JournalDagEvent::Equivocated { digests, .. } => 10 + 32 * digests.len(),
            JournalDagEvent::EvidenceNoInclusion { blamed, proofs, .. } => 10 + 37 * (blamed.len() + proofs.len()),
            _ => 38,
        }
    }
}

impl Removal {
    /// The length of the answer.
    pub fn bytes(&self) -> usize {
        5 + PEER_BYTES * self.peers.len() + self.events.iter().map(JournalDagEvent::bytes).sum::<usize>()
    }
}

// ---- the lines that `replay` writes (docs/FORMATS.md)

impl fmt::Display for MempoolPeerStats {
    fn fmt(&self, f: &mut fmt::Formatter<'_>) -> fmt::Result {
        write!(f, "peer {} first {} last {}", self.peer, self.first_round, self.last_round)?;
        self.counters.list().iter().try_for_each(|counter| write!(f, " {counter}"))?;
        write!(f, " score {}", self.score)
    }
}

impl fmt::Display for JournalDagEvent {
    fn fmt(&self, f: &mut fmt::Formatter<'_>) -> fmt::Result {
        write!(f, "event {}", self.kind())?;
        let ids =
            |f: &mut fmt::Formatter<'_>, ids: &[PointId]| ids.iter().try_for_each(|id| write!(f, " {}", id.text(".")));
        match self {
            JournalDagEvent::TransInvalid(id) | JournalDagEvent::Invalid(id) | JournalDagEvent::IllFormed(id) => {
                write!(f, " {}", id.text("."))
            }
            JournalDagEvent::Equivocated { author, round, digests } => {
                write!(f, " {author} {round}")?;
                digests.iter().try_for_each(|digest| write!(f, " {}", hex(digest)))
            }
            JournalDagEvent::EvidenceNoInclusion { signer, blamed, proofs } => {
                write!(f, " {signer}")?;
                ids(f, blamed)?;
                write!(f, " |")?;
                ids(f, proofs)
            }
        }
    }
}

/// A line for each peer and for each event.
impl fmt::Display for Removal {
    fn fmt(&self, f: &mut fmt::Formatter<'_>) -> fmt::Result {
        self.peers.iter().try_for_each(|peer| writeln!(f, "{peer}"))?;
        self.events.iter().try_for_each(|event| writeln!(f, "{event}"))
    }
}

// ---- reading

/// The answer that stands at the beginning of these bytes; none if they end before it does, or an event has another
/// kind than 1 to 5.
pub fn removal(bytes: &[u8]) -> Option<Removal> {
    let mut rest = bytes;
    let [count] = taken(&mut rest)?;
    let peers = (0..count).map(|_| peer(&mut rest)).collect::<Option<_>>()?;
    let count = number(&mut rest)?;
    let events = (0..count).map(|_| event(&mut rest)).collect::<Option<_>>()?;
    Some(Removal { peers, events })
}

fn peer(rest: &mut &[u8]) -> Option<MempoolPeerStats> {
    let [peer] = taken(rest)?;
    let (first_round, last_round) = (number(rest)?, number(rest)?);
    let mut list = [0; 9];
    for counter in &mut list {
        *counter = u16::from_be_bytes(taken(rest)?);
    }
    let counters = MempoolPeerCounters::of(list);
    Some(MempoolPeerStats { peer: peer.into(), first_round, last_round, counters, score: number(rest)? })
}

fn event(rest: &mut &[u8]) -> Option<JournalDagEvent> {
    let [kind] = taken(rest)?;
    Some(match kind {
        1 => JournalDagEvent::TransInvalid(id(rest)?),
        2 => JournalDagEvent::Invalid(id(rest)?),
        3 => JournalDagEvent::IllFormed(id(rest)?),
        4 => {
            let [author] = taken(rest)?;
            let (round, count) = (number(rest)?, number(rest)?);
            let digests = (0..count).map(|_| taken(rest)).collect::<Option<_>>()?;
            JournalDagEvent::Equivocated { author: author.into(), round, digests }
        }
        5 => {
            let [signer] = taken(rest)?;
            let (blamed, proofs) = (ids(rest)?, ids(rest)?);
            JournalDagEvent::EvidenceNoInclusion { signer: signer.into(), blamed, proofs }
        }
        _ => return None,
    })
}

/// After their number.
fn ids(rest: &mut &[u8]) -> Option<Vec<PointId>> {
    let count = number(rest)?;
    (0..count).map(|_| id(rest)).collect()
}
