//! What both sides are read as, and what they answer.

use std::collections::BTreeMap;

use committer::{Anchor, Look, PointId, Removal};

/// What a side holds.
#[derive(Clone, Debug, Default, PartialEq, Eq)]
pub struct View {
    /// none if not started
    pub state: Option<State>,
    /// by rising round, then digest, then author
    pub points: Vec<Point>,
    pub memory: Memory,
}

/// The inspector's memory of its last round, as the Rust has it: by peer.
#[derive(Clone, Debug, Default, PartialEq, Eq)]
pub struct Memory {
    pub last: u32,
    /// peers with a point or a proof
    pub peers: BTreeMap<u32, PeerMemory>,
}

#[derive(Clone, Debug, Default, PartialEq, Eq)]
pub struct PeerMemory {
    /// its trusted points of that round, by digest
    pub authored: Vec<PointId>,
    /// the digests that it signed and didn't include, each with the proof that tells; ours have the greatest last, the Rust has one
    pub signed: BTreeMap<[u8; 32], Vec<PointId>>,
}

#[derive(Clone, Debug, PartialEq, Eq)]
pub struct State {
    pub bottom: u32,
    pub top: u32,
    pub last_committed_proof: Option<u32>,
    pub full_history_bottom: u32,
    pub first_executable: u32,
    /// none: disarmed; false: waiting for the gap question; true: past it
    pub emit_first_after_gap: Option<bool>,
    pub rounds: Vec<Round>,
}

#[derive(Clone, Copy, Debug, PartialEq, Eq)]
pub struct Round {
    pub round: u32,
    pub peers: u32,
    pub used: Option<u32>,
}

#[derive(Clone, Copy, Debug, PartialEq, Eq)]
pub struct Point {
    pub id: PointId,
    /// 0: not resolved
    pub status: u32,
    /// the certificate word
    pub word: u16,
    /// `payload_len` and `payload_bytes`, as it was resolved; none if it isn't. The Rust has them for statuses 1 to 3
    pub payload: Option<(u32, u32)>,
}

impl Point {
    pub fn is_committed(&self) -> bool {
        self.word & 0x1000 != 0
    }
}

impl View {
    pub fn is_started(&self) -> bool {
        self.state.is_some()
    }

    pub fn holds_round(&self, round: u32) -> bool {
        self.state.as_ref().is_some_and(|state| (state.bottom..=state.top).contains(&round))
    }

    pub fn holds_point(&self, id: &PointId) -> bool {
        self.points.iter().any(|point| point.id == *id)
    }

    pub fn sort(&mut self) {
        self.points.sort_unstable_by_key(|point| (point.id.round, point.id.digest, point.id.author));
    }
}

/// An answer in the terms of document 01.
#[derive(Clone, Debug, PartialEq, Eq)]
pub enum Answer {
    Done,
    Said(bool),
    Anchors(Vec<Anchor>),
    /// of an outlook
    Looked(Vec<Look>),
    Removed(Removal),
    Refused(Refused),
}

#[derive(Clone, Debug, PartialEq, Eq)]
pub struct Refused {
    pub number: u32,
    /// of a history conflict, else 0
    pub round: u32,
    /// the anchors finished before the refusal
    pub finished: Vec<Anchor>,
}

/// What the Rust does with a call.
#[derive(Clone, Debug, PartialEq, Eq)]
pub enum Told {
    Answer(Answer),
    Panicked(String),
    /// the Rust has no such call, or its types can't hold the arguments
    NoCall(&'static str),
}
