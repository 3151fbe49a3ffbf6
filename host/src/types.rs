//! What the calls take, and what is read from the tables.

use crate::sys;

#[derive(Clone, Copy, Debug, Default, PartialEq, Eq, Hash)]
pub struct PointId {
    pub round: u32,
    pub author: u32,
    pub digest: [u8; 32],
}

impl PointId {
    /// Round, author and the digest's 64 hexadecimal digits, with a mark between them.
    pub fn text(&self, mark: &str) -> String {
        format!("{}{mark}{}{mark}{}", self.round, self.author, hex(&self.digest))
    }
}

/// The 64 hexadecimal digits of a digest.
pub(crate) fn hex(digest: &[u8; 32]) -> String {
    digest.iter().map(|byte| format!("{byte:02x}")).collect()
}

/// A link one round down (includes) or two (witness).
#[derive(Clone, Copy, Debug, Default, PartialEq, Eq, Hash)]
pub struct Link {
    pub peer: u32,
    pub digest: [u8; 32],
}

/// The five statuses of a resolved point.
#[derive(Clone, Copy, Debug, PartialEq, Eq, Hash)]
pub enum Status {
    Valid,
    TransInvalid,
    Invalid,
    IllFormed,
    NotFound,
}

impl Status {
    pub fn of(number: u32) -> Option<Status> {
        Some(match number {
            1 => Status::Valid,
            2 => Status::TransInvalid,
            3 => Status::Invalid,
            4 => Status::IllFormed,
            5 => Status::NotFound,
            _ => return None,
        })
    }

    pub fn number(self) -> u32 {
        match self {
            Status::Valid => 1,
            Status::TransInvalid => 2,
            Status::Invalid => 3,
            Status::IllFormed => 4,
            Status::NotFound => 5,
        }
    }
}

/// What a resolution gives. Anything may be asked; what isn't of the right form is refused with 11.
#[derive(Clone, Debug, Default, PartialEq, Eq, Hash)]
pub struct PointInfo {
    /// `Status::number`, 1 to 5
    pub status: u32,
    pub proof: bool,
    pub trigger: bool,
    pub cause: bool,
    /// the id of the top anchor proof; only its author is tested
    pub top_proof: PointId,
    /// a set of peers, peer n the bit of weight 2^n
    pub evidence: u32,
    /// peers strictly rising, at most 32
    pub includes: Vec<Link>,
    /// peers strictly rising, at most 32
    pub witness: Vec<Link>,
    /// any number
    pub payload_len: u32,
    /// any number
    pub payload_bytes: u32,
}

/// What a start takes.
#[derive(Clone, Copy, Debug, Default, PartialEq, Eq, Hash)]
pub struct Start {
    pub genesis: u32,
    /// H, 1 to 255
    pub commit_history_rounds: u32,
    pub deduplicate_rounds: u32,
    pub bottom: u32,
    /// the bottom's peers, as a set
    pub peers: u32,
    pub after_gap: bool,
    /// the author of the bottom's used mark
    pub used: Option<u32>,
}

/// A point in the tables.
#[derive(Clone, Copy, Debug, PartialEq, Eq, Hash)]
pub struct Point {
    pub id: PointId,
    /// none: named and not resolved
    pub status: Option<Status>,
    pub proof: bool,
    pub trigger: bool,
    pub cause: bool,
    /// as it was resolved; 0 if it isn't
    pub payload_len: u32,
    /// as it was resolved; 0 if it isn't
    pub payload_bytes: u32,
    /// the certificate word: top 8000, started 4000, completed 2000, committed 1000 (hexadecimal), height in the low
    /// 12 bits
    pub cert: u16,
}

impl Point {
    pub fn height(&self) -> u16 {
        self.cert & 0x0fff
    }

    pub fn is_top(&self) -> bool {
        self.cert & 0x8000 != 0
    }

    pub fn is_committed(&self) -> bool {
        self.cert & 0x1000 != 0
    }

    pub fn is_certified(&self) -> bool {
        self.height() > 0
    }

    pub fn is_proved(&self) -> bool {
        self.is_certified() && self.is_top()
    }
}

/// A retained round.
#[derive(Clone, Copy, Debug, PartialEq, Eq, Hash)]
pub struct RetainedRound {
    pub round: u32,
    pub peers: u32,
    /// the author of its used mark
    pub used: Option<u32>,
}

/// The state of a started committer, but for its points and the inspector's memory.
#[derive(Clone, Debug, PartialEq, Eq, Hash)]
pub struct Summary {
    pub genesis: u32,
    pub commit_history_rounds: u32,
    pub deduplicate_rounds: u32,
    pub bottom: u32,
    pub top: u32,
    /// round of the last committed proof
    pub last_committed_proof: Option<u32>,
    /// round of the last anchor handed out since the start
    pub last_anchor: Option<u32>,
    pub full_history_bottom: u32,
    pub first_executable: u32,
    /// none: disarmed; false: waiting for the gap question; true: past it
    pub emit_first_after_gap: Option<bool>,
    /// from bottom to top
    pub rounds: Vec<RetainedRound>,
}

/// The inspector's memory of the last round that it inspected.
#[derive(Clone, Debug, PartialEq, Eq, Hash)]
pub struct Memory {
    pub last: u32,
    /// by rising digest
    pub entries: Vec<Entry>,
}

/// A trusted point of that round.
#[derive(Clone, Copy, Debug, PartialEq, Eq, Hash)]
pub struct Entry {
    pub author: u32,
    pub digest: [u8; 32],
    /// the digest of its previous point
    pub previous: Option<[u8; 32]>,
    /// the peers that signed the previous point and have no trusted point of that round that includes it, as a set
    pub unreferenced_by: u32,
}

impl From<&sys::Entry> for Entry {
    fn from(entry: &sys::Entry) -> Entry {
        Entry {
            author: entry.author,
            digest: digest_bytes(&entry.digest),
            previous: (entry.has_previous != 0).then(|| digest_bytes(&entry.previous)),
            unreferenced_by: entry.unreferenced_by,
        }
    }
}

/// The four words of a digest, the most significant first.
pub fn digest_words(digest: &[u8; 32]) -> sys::Digest {
    std::array::from_fn(|i| u64::from_be_bytes(std::array::from_fn(|k| digest[8 * i + k])))
}

/// The 32 bytes of a digest's words.
pub fn digest_bytes(words: &sys::Digest) -> [u8; 32] {
    std::array::from_fn(|i| words[i / 8].to_be_bytes()[i % 8])
}

impl From<&PointId> for sys::PointId {
    fn from(id: &PointId) -> sys::PointId {
        sys::PointId { round: id.round, author: id.author, digest: digest_words(&id.digest) }
    }
}

impl From<&Start> for sys::Start {
    fn from(with: &Start) -> sys::Start {
        sys::Start {
            genesis: with.genesis,
            commit_history_rounds: with.commit_history_rounds,
            deduplicate_rounds: with.deduplicate_rounds,
            bottom: with.bottom,
            peers: with.peers,
            after_gap: with.after_gap.into(),
            // an author of NOBODY's number is no less out of range one below it
            used: with.used.map_or(sys::NOBODY, |author| author.min(sys::NOBODY - 1)),
        }
    }
}

impl From<&PointInfo> for sys::Resolution {
    fn from(info: &PointInfo) -> sys::Resolution {
        sys::Resolution {
            status: info.status,
            marks: info.marks(),
            top_proof: (&info.top_proof).into(),
            evidence: info.evidence,
            includes: info.includes.len(),
            witness: info.witness.len(),
            payload_len: info.payload_len,
            payload_bytes: info.payload_bytes,
        }
    }
}

impl PointInfo {
    /// Bit 0 proof, 1 trigger, 2 cause.
    pub(crate) fn marks(&self) -> u32 {
        u32::from(self.proof) | u32::from(self.trigger) << 1 | u32::from(self.cause) << 2
    }

    /// The links as the library is lent them: five words each, the includes first.
    pub(crate) fn refs(&self) -> Vec<u64> {
        let mut refs = Vec::with_capacity(5 * (self.includes.len() + self.witness.len()));
        for link in self.includes.iter().chain(&self.witness) {
            refs.push(link.peer.into());
            refs.extend(digest_words(&link.digest));
        }
        refs
    }
}
