//! Why a call is refused.

use std::fmt;

/// One case for each number of document 01's table, and for those of document 02. 13 to 22 and 25 are of commits and, but
/// for 20, of outlooks; 21 and 23 of remove; 26 and 27 of a trace's records, 26 and 21 of writing one.
#[derive(Clone, Copy, Debug, PartialEq, Eq, Hash)]
pub enum Refusal {
    BadStart,
    WrongPhase,
    RoundAhead,
    Full,
    NotAPeer,
    NotRetained,
    DigestNamed,
    FifthDigest,
    NotNamed,
    Resolved,
    BadInfo,
    LinkNotNamed,
    Conflict {
        round: u32,
    },
    PointMissing,
    Unusable,
    BrokenChain,
    RoundsMissing,
    NotCertified,
    ChainEndsEarly,
    GapQuestion,
    NoRoom,
    AtGenesis,
    RemoveAhead,
    /// of a commit, document 02's
    BadLists,
    /// of a commit or an outlook, document 02's
    NeverNamed,
    /// of a record, document 02's: cut short, of a wrong length, or of a call that has no room in one
    BadRecord,
    /// of a record, document 02's
    UnknownRecord,
    /// of a game of keepers and spoilers, document 02's
    BadGame,
}

impl Refusal {
    /// The refusal of a number, if it is one's. `round` is that of a conflict.
    pub fn of(number: u32, round: u32) -> Option<Refusal> {
        Some(match number {
            1 => Refusal::BadStart,
            2 => Refusal::WrongPhase,
            3 => Refusal::RoundAhead,
            4 => Refusal::Full,
            5 => Refusal::NotAPeer,
            6 => Refusal::NotRetained,
            7 => Refusal::DigestNamed,
            8 => Refusal::FifthDigest,
            9 => Refusal::NotNamed,
            10 => Refusal::Resolved,
            11 => Refusal::BadInfo,
            12 => Refusal::LinkNotNamed,
            13 => Refusal::Conflict { round },
            14 => Refusal::PointMissing,
            15 => Refusal::Unusable,
            16 => Refusal::BrokenChain,
            17 => Refusal::RoundsMissing,
            18 => Refusal::NotCertified,
            19 => Refusal::ChainEndsEarly,
            20 => Refusal::GapQuestion,
            21 => Refusal::NoRoom,
            22 => Refusal::AtGenesis,
            23 => Refusal::RemoveAhead,
            24 => Refusal::BadLists,
            25 => Refusal::NeverNamed,
            26 => Refusal::BadRecord,
            27 => Refusal::UnknownRecord,
            31 => Refusal::BadGame,
            _ => return None,
        })
    }

    /// Its number.
    pub fn number(self) -> u32 {
        match self {
            Refusal::BadStart => 1,
            Refusal::WrongPhase => 2,
            Refusal::RoundAhead => 3,
            Refusal::Full => 4,
            Refusal::NotAPeer => 5,
            Refusal::NotRetained => 6,
            Refusal::DigestNamed => 7,
            Refusal::FifthDigest => 8,
            Refusal::NotNamed => 9,
            Refusal::Resolved => 10,
            Refusal::BadInfo => 11,
            Refusal::LinkNotNamed => 12,
            Refusal::Conflict { .. } => 13,
            Refusal::PointMissing => 14,
            Refusal::Unusable => 15,
            Refusal::BrokenChain => 16,
            Refusal::RoundsMissing => 17,
            Refusal::NotCertified => 18,
            Refusal::ChainEndsEarly => 19,
            Refusal::GapQuestion => 20,
            Refusal::NoRoom => 21,
            Refusal::AtGenesis => 22,
            Refusal::RemoveAhead => 23,
            Refusal::BadLists => 24,
            Refusal::NeverNamed => 25,
            Refusal::BadRecord => 26,
            Refusal::UnknownRecord => 27,
            Refusal::BadGame => 31,
        }
    }

    /// What it means, in the words of `committer_refusal_text`.
    pub fn text(self) -> &'static str {
        match self {
            Refusal::BadStart => "what a start takes, or the tables' lengths, out of range",
            Refusal::WrongPhase => "not started, or started twice",
            Refusal::RoundAhead => "round beyond top + 1, or above 4,000,000,000",
            Refusal::Full => "512 rounds, or no place free",
            Refusal::NotAPeer => "author not a peer of its round",
            Refusal::NotRetained => "round not retained",
            Refusal::DigestNamed => "digest named in this round",
            Refusal::FifthDigest => "a fifth digest of its author and round",
            Refusal::NotNamed => "id not named, or trigger not resolved",
            Refusal::Resolved => "resolved already",
            Refusal::BadInfo => "what a resolution gives has a wrong form",
            Refusal::LinkNotNamed => "link into a retained round, not named",
            Refusal::Conflict { .. } => "history conflict",
            Refusal::PointMissing => "point needed, named and not resolved",
            Refusal::Unusable => "status neither usable nor certified",
            Refusal::BrokenChain => "no previous point, or the sought proof isn't where and what it must be",
            Refusal::RoundsMissing => "limit at or above the full-history bottom, rounds missing",
            Refusal::NotCertified => "history point of height 0",
            Refusal::ChainEndsEarly => "oldest link above the walk's lowest round",
            Refusal::GapQuestion => "gap question not put",
            Refusal::NoRoom => "answer larger than the buffer left",
            Refusal::AtGenesis => "anchor at genesis",
            Refusal::RemoveAhead => "remove above the last anchor handed out since the start, or none",
            Refusal::BadLists => "place list that isn't each place from 0 once",
            Refusal::NeverNamed => "point needed, never named",
            Refusal::BadRecord => "record of a trace cut short or of wrong length, or a call that has no room in one",
            Refusal::UnknownRecord => "record of a trace of an unknown version or kind",
            Refusal::BadGame => "numbers or sets of a game of keepers and spoilers out of range",
        }
    }
}

impl fmt::Display for Refusal {
    fn fmt(&self, f: &mut fmt::Formatter<'_>) -> fmt::Result {
        write!(f, "{} ({})", self.text(), self.number())?;
        match self {
            Refusal::Conflict { round } => write!(f, " at round {round}"),
            _ => Ok(()),
        }
    }
}

/// A refused call. It changed nothing, but for the anchors that a commit finished before.
#[derive(Clone, Copy, Debug, PartialEq, Eq, Hash)]
pub struct Refused {
    pub refusal: Refusal,
    /// anchors finished before the refusal; 0 in every call but commit
    pub finished: u32,
}

impl Refused {
    pub fn number(&self) -> u32 {
        self.refusal.number()
    }
}

impl fmt::Display for Refused {
    fn fmt(&self, f: &mut fmt::Formatter<'_>) -> fmt::Result {
        write!(f, "refused: {}", self.refusal)?;
        match self.finished {
            0 => Ok(()),
            n => write!(f, ", after {n} anchors"),
        }
    }
}

impl std::error::Error for Refused {}
