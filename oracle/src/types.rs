//! What goes in and out, in the vocabulary of document 01.

#[derive(Clone, Copy, Debug, PartialEq, Eq, PartialOrd, Ord, Hash)]
pub struct Id {
    pub round: u32,
    pub author: u8,
    pub digest: [u8; 32],
}

#[derive(Clone, Copy, Debug, PartialEq, Eq, PartialOrd, Ord, Hash)]
pub struct Link {
    pub peer: u8,
    pub digest: [u8; 32],
}

#[derive(Clone, Debug, PartialEq, Eq, Hash)]
pub struct Start {
    pub genesis: u32,
    /// `commit_history_rounds`, 1 to 255
    pub commit_history_rounds: u32,
    /// at most 65,535
    pub deduplicate_rounds: u32,
    pub bottom: u32,
    /// peers of the bottom, peer n the bit of weight 2^n
    pub peers: u32,
    pub after_gap: bool,
    /// used mark of the bottom
    pub used: Option<u8>,
}

/// What a point resolves to.
#[derive(Clone, Debug, PartialEq, Eq, Hash)]
pub struct Info {
    /// 1 valid, 2 trans-invalid, 3 invalid, 4 ill-formed, 5 not found
    pub status: u8,
    pub proof: bool,
    pub trigger: bool,
    /// the cause has a DAG round
    pub cause: bool,
    /// what `anchor_proof().top().id()` yields; of a point marked as proof that is its own id
    pub top_proof: Id,
    /// signers as a set of peers
    pub evidence: u32,
    pub includes: Vec<Link>,
    pub witness: Vec<Link>,
    /// the Rust keeps neither of these two for statuses 4 and 5
    pub payload_len: u32,
    pub payload_bytes: u32,
}

#[derive(Clone, Debug, PartialEq, Eq, Hash)]
pub enum CommitAnswer {
    /// oldest first
    Anchors(Vec<Anchor>),
    /// its round; anchors finished before it aren't handed out
    HistoryConflict(u32),
}

#[derive(Clone, Debug, PartialEq, Eq, Hash)]
pub struct Anchor {
    pub anchor: Id,
    /// the Rust hands out round and digest; the author is the anchor's, whose next point a proof is
    pub proof: Id,
    pub executable: bool,
    pub prev_anchor: Option<u32>,
    /// the history in the Rust's own order: rounds rise, and inside a round the shuffle is read backwards
    pub points: Vec<Id>,
    /// the sums of `payload_len` and of `payload_bytes` over the history
    pub payload_len: u64,
    pub payload_bytes: u64,
}

/// Peers rise by number, events by kind, round, author and digest, lists by round and digest: the Rust's own order is
/// that of its hash maps.
#[derive(Clone, Debug, PartialEq, Eq, Hash)]
pub struct RemoveAnswer {
    pub peers: Vec<PeerStats>,
    pub events: Vec<Event>,
}

#[derive(Clone, Debug, PartialEq, Eq, Hash)]
pub struct PeerStats {
    pub peer: u8,
    pub first_round: u32,
    pub last_round: u32,
    pub filled_rounds: u32,
    /// in the order of `MempoolPeerCounters`: leader, skipped, valid, proved, equivocated, trans-invalid, invalid,
    /// ill-formed, references skipped
    pub counters: [u16; 9],
}

/// In the order of `take_events`.
#[derive(Clone, Debug, PartialEq, Eq, Hash)]
pub enum Event {
    TransInvalid(Id),
    Invalid(Id),
    IllFormed(Id),
    Equivocated { author: u8, round: u32, digests: Vec<[u8; 32]> },
    EvidenceNoInclusion { signer: u8, blamed: Vec<Id>, proofs: Vec<Id> },
}

#[derive(Clone, Copy, Debug, PartialEq, Eq, Hash)]
pub struct PointState {
    pub id: Id,
    /// 0 unresolved, else as in `Info`
    pub status: u8,
    /// top 8000, started 4000, completed 2000, committed 1000 (hexadecimal), height in the low 12 bits
    pub word: u16,
    /// `payload_len` and `payload_bytes` of its `PointInfo`: statuses 1 to 3
    pub payload: Option<(u32, u32)>,
}

#[derive(Clone, Debug, PartialEq, Eq, Hash)]
pub struct State {
    /// none if no round is held
    pub bottom: Option<u32>,
    pub top: Option<u32>,
    pub last_committed_proof: Option<u32>,
    pub full_history_bottom: u32,
    pub first_executable: u32,
    /// none: disarmed; false: the question isn't put; true: it is
    pub emit_first_after_gap: Option<bool>,
    pub rounds: Vec<RoundState>,
}

#[derive(Clone, Copy, Debug, PartialEq, Eq, Hash)]
pub struct RoundState {
    pub round: u32,
    /// authors with a location: the round's peers, and any other author of a point that was named
    pub authors: u32,
    pub used: Option<u8>,
}

/// The inspector's memory of its last round.
#[derive(Clone, Debug, PartialEq, Eq, Hash)]
pub struct Memory {
    pub last_round: u32,
    pub peers: Vec<PeerMemory>,
}

#[derive(Clone, Debug, PartialEq, Eq, Hash)]
pub struct PeerMemory {
    pub peer: u8,
    /// trusted points of that round
    pub authored: Vec<Id>,
    /// digests that the peer signed and didn't include, each with the proof that holds the signature
    pub signed_proofs: Vec<([u8; 32], Id)>,
}
