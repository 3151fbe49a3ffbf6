//! The link behind each point of an anchor record: which point of the same record links to it, and how.

use std::fmt;

use crate::anchor::ID_BYTES;
use crate::types::PointId;

/// Of a word's bytes.
pub const WORD_BYTES: usize = 8;
/// Of a link's bytes in a record: an id and a word.
pub const LINK_BYTES: usize = ID_BYTES + WORD_BYTES;

/// The kind of a link behind a point.
#[derive(Clone, Copy, Debug, PartialEq, Eq, Hash)]
pub enum Word {
    /// from one round above
    Includes,
    /// from two rounds above
    Witness,
    /// none: the point is the anchor itself
    Anchor,
}

impl Word {
    pub const ALL: [Word; 3] = [Word::Includes, Word::Witness, Word::Anchor];

    /// As it stands in a record, filled with zero bytes.
    pub const fn bytes(self) -> [u8; WORD_BYTES] {
        match self {
            Word::Includes => *b"includes",
            Word::Witness => *b"witness\0",
            Word::Anchor => *b"anchor\0\0",
        }
    }

    /// The word of these bytes, all of which are compared.
    pub fn of(bytes: &[u8; WORD_BYTES]) -> Option<Word> {
        Word::ALL.into_iter().find(|word| word.bytes() == *bytes)
    }
}

impl fmt::Display for Word {
    fn fmt(&self, f: &mut fmt::Formatter<'_>) -> fmt::Result {
        f.write_str(match self {
            Word::Includes => "includes",
            Word::Witness => "witness",
            Word::Anchor => "anchor",
        })
    }
}

/// Why a point is in a record.
#[derive(Clone, Copy, Debug, PartialEq, Eq, Hash)]
pub struct LinkBehind {
    /// a point of the same record that links to it: of several the one in the highest round, then with the lowest digest;
    /// behind the anchor the anchor itself
    pub by: PointId,
    pub word: Word,
}

impl fmt::Display for LinkBehind {
    fn fmt(&self, f: &mut fmt::Formatter<'_>) -> fmt::Result {
        write!(f, "by {} {}", self.by.text("."), self.word)
    }
}
