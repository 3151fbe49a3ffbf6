//! Anchor records, as a commit writes them, and what an outlook writes for each anchor.

use std::fmt;

use crate::behind::{LINK_BYTES, LinkBehind, WORD_BYTES, Word};
use crate::sys::State;
use crate::types::PointId;

/// Of a point id's bytes.
pub(crate) const ID_BYTES: usize = 37;
/// Of a record's bytes before the ids of its points.
const HEAD_BYTES: usize = 2 * ID_BYTES + 9;
/// Of a record's bytes beside those of its points: 83 before them, the two sums after them.
pub const RECORD_BYTES: usize = HEAD_BYTES + 2 * 8;
/// Of a record's bytes for each point: its id, and the link behind it.
pub const POINT_BYTES: usize = ID_BYTES + LINK_BYTES;
/// Of what an outlook writes for an anchor, before the counts of its rounds.
pub const LOOK_BYTES: usize = ID_BYTES + 4;
/// Of the count of a round.
pub(crate) const COUNT_BYTES: usize = 4;

/// What a commit hands out for an anchor.
#[derive(Clone, Debug, PartialEq, Eq, Hash)]
pub struct Anchor {
    pub anchor: PointId,
    pub proof: PointId,
    pub executable: bool,
    /// round of the previous anchor; 0 for none
    pub previous: u32,
    /// the history: by rising round; inside a round in the reverse of the order that its place list says
    pub points: Vec<PointId>,
    /// the link behind each of them, in the same order
    pub links: Vec<LinkBehind>,
    /// the sum over the history
    pub payload_len: u64,
    /// the sum over the history
    pub payload_bytes: u64,
}

/// The lines that `replay` writes for it (docs/FORMATS.md), the last without its newline.
impl fmt::Display for Anchor {
    fn fmt(&self, f: &mut fmt::Formatter<'_>) -> fmt::Result {
        let (anchor, proof) = (self.anchor.text(" "), self.proof.text(" "));
        write!(f, "anchor {anchor} proof {proof} exec {} prev {}", u32::from(self.executable), self.previous)?;
        write!(f, " payload {} {} points {}:", self.payload_len, self.payload_bytes, self.points.len())?;
        self.points.iter().try_for_each(|id| write!(f, " {}", id.text(".")))?;
        let mut links = self.points.iter().zip(&self.links);
        links.try_for_each(|(id, behind)| write!(f, "\nlink {} {behind}", id.text(".")))
    }
}

impl Anchor {
    /// The length of its record.
    pub fn bytes(&self) -> usize {
        record_bytes(self.points.len())
    }

    /// The link behind a point; none if the point isn't in this record.
    pub fn link_behind(&self, id: &PointId) -> Option<&LinkBehind> {
        let at = self.points.iter().position(|point| point == id)?;
        self.links.get(at)
    }
}

/// The length of a record with so many points.
fn record_bytes(points: usize) -> usize {
    RECORD_BYTES + POINT_BYTES * points
}

/// Bytes that aren't the anchor records that they are read as.
#[derive(Clone, Copy, Debug, PartialEq, Eq, Hash)]
pub enum BrokenAnchor {
    /// they end before the record does whose first byte has this offset
    Cut { at: usize },
    /// the word of a link, whose first byte has this offset, is none of the three
    Word { at: usize, bytes: [u8; WORD_BYTES] },
}

impl fmt::Display for BrokenAnchor {
    fn fmt(&self, f: &mut fmt::Formatter<'_>) -> fmt::Result {
        match self {
            BrokenAnchor::Cut { at } => write!(f, "the anchor record at byte {at} is cut short"),
            BrokenAnchor::Word { at, bytes } => {
                let shown = bytes.escape_ascii();
                write!(f, "the word of a link at byte {at} is none of includes, witness and anchor: {shown}")
            }
        }
    }
}

impl std::error::Error for BrokenAnchor {}

/// The anchors of so many records that stand one after the other from the first byte on.
pub fn anchors(bytes: &[u8], count: u32) -> Result<Vec<Anchor>, BrokenAnchor> {
    let mut begin = 0;
    let next = |_| {
        let anchor = anchor(bytes, begin)?;
        begin += anchor.bytes();
        Ok(anchor)
    };
    (0..count).map(next).collect()
}

/// The anchor of the record that begins here.
fn anchor(bytes: &[u8], begin: usize) -> Result<Anchor, BrokenAnchor> {
    let (mut anchor, told) = fields(&mut &bytes[begin..]).ok_or(BrokenAnchor::Cut { at: begin })?;
    let links_at = begin + HEAD_BYTES + ID_BYTES * anchor.points.len();
    for (n, (by, bytes)) in told.iter().enumerate() {
        let at = links_at + LINK_BYTES * n + ID_BYTES;
        let word = Word::of(bytes).ok_or(BrokenAnchor::Word { at, bytes: *bytes })?;
        anchor.links.push(LinkBehind { by: *by, word });
    }
    Ok(anchor)
}

/// The id and the bytes of the word of a link.
type Told = (PointId, [u8; WORD_BYTES]);

/// An anchor without its links, and these as they stand in its record. None if the bytes end before the record does.
fn fields(rest: &mut &[u8]) -> Option<(Anchor, Vec<Told>)> {
    let (anchor, proof) = (id(rest)?, id(rest)?);
    let [executable] = taken(rest)?;
    let (executable, previous, count) = (executable != 0, number(rest)?, number(rest)?);
    let points = (0..count).map(|_| id(rest)).collect::<Option<_>>()?;
    let told = (0..count).map(|_| Some((id(rest)?, taken(rest)?))).collect::<Option<_>>()?;
    let [payload_len, payload_bytes] = [taken(rest)?, taken(rest)?].map(u64::from_be_bytes);
    let links = Vec::new();
    Some((Anchor { anchor, proof, executable, previous, points, links, payload_len, payload_bytes }, told))
}

/// What an outlook tells of an anchor. Its counts suppose that the anchors before it in the same outlook have been
/// committed; if no call lies between and the commit isn't refused, they are the commit's.
#[derive(Clone, Debug, PartialEq, Eq, Hash)]
pub struct Look {
    pub anchor: PointId,
    /// of its history, as many as the commit hands out with it
    pub points: u32,
    /// how many points are linked in each round of its history, the anchor and committed ones too, the anchor's round
    /// first: the lengths of its place lists
    pub linked: Vec<u32>,
}

/// The line that `replay` writes for it (docs/FORMATS.md).
impl fmt::Display for Look {
    fn fmt(&self, f: &mut fmt::Formatter<'_>) -> fmt::Result {
        write!(f, "outlook {} {} linked", self.anchor.text(" "), self.points)?;
        self.linked.iter().try_for_each(|count| write!(f, " {count}"))
    }
}

impl Look {
    /// The length of what the outlook writes for it.
    pub fn bytes(&self) -> usize {
        LOOK_BYTES + COUNT_BYTES * self.linked.len()
    }

    /// The place lists of a shuffle that leaves every round's points by rising digest; they come out by falling digest.
    pub fn lists_in_order(&self) -> Vec<u8> {
        self.linked.iter().flat_map(|count| (0..*count).map(|place| place as u8)).collect()
    }
}

/// The place lists of all anchors of an outlook, as a commit is lent them, each as [`Look::lists_in_order`] makes it.
pub fn lists_in_order(looks: &[Look]) -> Vec<u8> {
    looks.iter().flat_map(Look::lists_in_order).collect()
}

/// What the commit of all anchors of an outlook takes and hands out.
#[derive(Clone, Copy, Debug, Default, PartialEq, Eq, Hash)]
pub struct CommitSizes {
    /// points of all histories
    pub points: usize,
    /// bytes of all place lists; [`Look::linked`] has the length of each
    pub lists: usize,
    /// bytes of all records: as many as its buffer needs
    pub records: usize,
}

impl CommitSizes {
    pub fn of(looks: &[Look]) -> CommitSizes {
        let points = || looks.iter().map(|look| look.points as usize);
        CommitSizes {
            points: points().sum(),
            lists: looks.iter().flat_map(|look| &look.linked).map(|count| *count as usize).sum(),
            records: points().map(record_bytes).sum(),
        }
    }
}

impl State {
    /// The lowest round of an anchor's history: H rounds below the anchor, but above genesis and not below the bottom.
    pub fn lowest_round(&self, anchor: u32) -> u32 {
        let limit = anchor.saturating_sub(self.commit_history_rounds).max(self.genesis.saturating_add(1));
        limit.max(self.bottom)
    }
}

/// What an outlook in this state wrote for so many anchors, from the first byte on. Fewer if the bytes end before.
pub fn looks(bytes: &[u8], count: u32, state: &State) -> Vec<Look> {
    let mut rest = bytes;
    (0..count).map_while(|_| look(&mut rest, state)).collect()
}

fn look(rest: &mut &[u8], state: &State) -> Option<Look> {
    let (anchor, points) = (id(rest)?, number(rest)?);
    let rounds = state.lowest_round(anchor.round)..=anchor.round;
    let linked = rounds.map(|_| number(rest)).collect::<Option<_>>()?;
    Some(Look { anchor, points, linked })
}

pub(crate) fn id(rest: &mut &[u8]) -> Option<PointId> {
    let round = number(rest)?;
    let [author] = taken(rest)?;
    Some(PointId { round, author: author.into(), digest: taken(rest)? })
}

/// The number in the next four bytes.
pub(crate) fn number(rest: &mut &[u8]) -> Option<u32> {
    taken(rest).map(u32::from_be_bytes)
}

/// The next bytes.
pub(crate) fn taken<const N: usize>(rest: &mut &[u8]) -> Option<[u8; N]> {
    let (first, after) = rest.split_first_chunk()?;
    *rest = after;
    Some(*first)
}
