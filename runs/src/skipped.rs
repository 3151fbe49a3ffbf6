//! Skipped triggers (02, N9). A board that was busy sees only a later trigger: from the same state one board commits S and then T, another only T, on
//! copies of both sides. If T's chain passes the proof that S's chain began with, both hand out the same records and leave the same. Whether it
//! passes is told by the resolutions that both took and the Rust's anchors, not by the library.

use std::fmt;

use committer::{Anchor, PointId};
use oracle::PlaceLists;

use crate::compare::in_a_row;
use crate::library::{Made, Side, UNTOUCHED, records};
use crate::needed::Log;
use crate::random::Random;
use crate::view::{Answer, Told, View};

/// So many others of T's round or below it are taken, the highest ones.
const HIGHEST: usize = 2;
/// T itself is taken once in so many commits.
const ITSELF: u32 = 8;

/// The triggers held that are committed before T: the highest others up to its round, one drawn from those left, which may stand above it and
/// then isn't passed, and at times T itself.
pub fn chosen(later: &PointId, log: &Log, view: &View, random: &mut Random) -> Vec<PointId> {
    let is_other = |id: &PointId| id != later && log.info(id).is_some_and(|info| info.trigger);
    let others = view.points.iter().map(|point| point.id).filter(is_other);
    let (mut below, above): (Vec<PointId>, Vec<PointId>) = others.partition(|id| id.round <= later.round);
    let mut chosen = below.split_off(below.len().saturating_sub(HIGHEST));
    below.extend(above);
    if !below.is_empty() {
        chosen.push(*random.pick(&below));
    }
    if random.below(ITSELF) == 0 {
        chosen.push(*later);
    }
    chosen
}

/// Whether T's chain passes the proof that S's chain begins with, S's previous point: it seeks T's previous point, and then the top proof of each
/// anchor that T alone yields. T is a valid trigger; any other is turned away and has no chain. Both are held.
fn passes(skipped: &PointId, later: &PointId, alone: &[Anchor], log: &Log, view: &View) -> bool {
    let fires = log.info(later).is_some_and(|info| info.status == 1 && info.trigger);
    if !fires || !view.holds_point(skipped) || !view.holds_point(later) {
        return false;
    }
    let (Some(begin), Some(first)) = (log.previous(skipped), log.previous(later)) else {
        return false;
    };
    let top_proofs = alone.iter().filter_map(|anchor| log.info(&anchor.anchor)).map(|info| info.top_proof);
    std::iter::once(first).chain(top_proofs).any(|sought| sought == begin)
}

/// A commit of the Rust: its trigger, what it answers, and what its shuffles kept.
pub type Commit = (PointId, Told, PlaceLists);

/// Commits one after the other, none refused.
pub struct Board {
    /// the Rust's anchors of each commit, and its place lists, which ours was lent
    anchors: Vec<Vec<Anchor>>,
    lists: PlaceLists,
    /// what the Rust holds after them
    view: View,
    /// ours: the number of anchors, the bytes of their records, every word after them
    count: u32,
    records: Vec<u8>,
    fingerprint: u64,
}

impl Board {
    /// The Rust's commits, which leave this, and ours on a copy. None if one of them is refused or panics.
    pub fn of<S: Side>(ours: &S, commits: &[Commit], view: View) -> Result<Option<Board>, String> {
        let handed = commits.iter().map(|(_, told, _)| match told {
            Told::Answer(Answer::Anchors(anchors)) => Some(anchors.clone()),
            _ => None,
        });
        let Some(anchors) = handed.collect::<Option<Vec<_>>>() else {
            return Ok(None);
        };
        let lent: Vec<_> = commits.iter().map(|(trigger, _, lists)| (*trigger, in_a_row(lists))).collect();
        let (made, fingerprint) = ours.would_commit_in_turn(&lent);
        let Ok(counts) = made.iter().map(|(given, _)| *given).collect::<Result<Vec<u32>, _>>() else {
            return Ok(None);
        };
        let records = made.iter().map(written).collect::<Result<Vec<_>, _>>()?.concat();
        let lists = commits.iter().flat_map(|(_, _, lists)| lists).cloned().collect();
        Ok(Some(Board { anchors, lists, view, count: counts.iter().sum(), records, fingerprint }))
    }

    /// Whether the nth commit yields anchors.
    fn hands_out(&self, n: usize) -> bool {
        !self.anchors[n].is_empty()
    }
}

/// The records of a commit, if no byte beyond them is written.
fn written((given, buffer): &Made) -> Result<&[u8], String> {
    let length = records(buffer, given.unwrap_or(0)).iter().map(Anchor::bytes).sum();
    let (records, rest) = buffer.split_at(length);
    if rest.iter().any(|byte| *byte != UNTOUCHED) {
        return Err(format!("bytes beyond the records, which have {length}, are written"));
    }
    Ok(records)
}

/// How many pairs were tried, and what they gave.
#[derive(Clone, Copy, Debug, Default, PartialEq, Eq)]
pub struct Seen {
    pub pairs: u64,
    /// one of the three commits is refused or panics
    pub refused: u64,
    /// T's chain passes the proof: all, those where S yields anchors, those of them where T does after it
    pub passed: [u64; 3],
    /// it doesn't: all, those where S yields anchors, those of them whose records differ
    pub others: [u64; 3],
}

impl Seen {
    fn refused() -> Seen {
        Seen { pairs: 1, refused: 1, ..Seen::default() }
    }

    pub fn add(&mut self, other: &Seen) {
        self.pairs += other.pairs;
        self.refused += other.refused;
        self.passed.iter_mut().zip(other.passed).for_each(|(ours, others)| *ours += others);
        self.others.iter_mut().zip(other.others).for_each(|(ours, others)| *ours += others);
    }
}

impl fmt::Display for Seen {
    fn fmt(&self, f: &mut fmt::Formatter<'_>) -> fmt::Result {
        let (passed, others) = (self.passed, self.others);
        write!(f, "{} pairs, with a refused commit {}; ", self.pairs, self.refused)?;
        write!(f, "passed {}, of them with anchors of the first {}, of both {}; ", passed[0], passed[1], passed[2])?;
        write!(f, "not passed {}, of them with anchors of the first {}, ", others[0], others[1])?;
        write!(f, "of these with other records {}", others[2])
    }
}

/// What S and T are committed on: the calls that both took, what is held after them, and T alone.
pub struct Pairs<'a> {
    pub later: PointId,
    pub log: Log<'a>,
    pub view: &'a View,
    /// none if it is refused
    pub alone: Option<Board>,
}

impl Pairs<'_> {
    /// S and then T beside T alone; the commits of the pair are made only where T alone isn't refused.
    pub fn compared<S: Side>(
        &self,
        skipped: &PointId,
        pair: impl FnOnce() -> Result<Option<Board>, String>,
    ) -> Result<Seen, String> {
        let Some(alone) = &self.alone else {
            return Ok(Seen::refused());
        };
        let Some(pair) = pair()? else {
            return Ok(Seen::refused());
        };
        let first = pair.hands_out(0);
        let counted = |third: bool| [1, u64::from(first), u64::from(first && third)];
        if S::passes(passes(skipped, &self.later, &alone.anchors[0], &self.log, self.view)) {
            same(&pair, alone)?;
            return Ok(Seen { pairs: 1, passed: counted(pair.hands_out(1)), ..Seen::default() });
        }
        Ok(Seen { pairs: 1, others: counted(pair.records != alone.records), ..Seen::default() })
    }
}

/// Lists, anchors, records and what is left are the same on both boards. The lists of an anchor are by round.
fn same(pair: &Board, alone: &Board) -> Result<(), String> {
    let (anchors, due) = (pair.anchors.concat(), alone.anchors.concat());
    if anchors != due {
        return Err(format!("the Rust hands out {}, and {} for the later one alone", shown(&anchors), shown(&due)));
    }
    if pair.lists != alone.lists {
        return Err(format!("the Rust's place lists {:?}, and {:?} for the later one alone", pair.lists, alone.lists));
    }
    if pair.view != alone.view {
        return Err("the Rust is left with other things than by the later one alone".into());
    }
    if pair.count != alone.count || pair.records != alone.records {
        let at = pair.records.iter().zip(&alone.records).take_while(|(ours, due)| ours == due).count();
        let (ours, due) = (pair.count, alone.count);
        return Err(format!("{ours} records, {due} of the later one alone, and other bytes from byte {at} on"));
    }
    if pair.fingerprint != alone.fingerprint {
        return Err("the records of the later one alone, and other words are left".into());
    }
    Ok(())
}

fn shown(anchors: &[Anchor]) -> String {
    format!("[{}]", anchors.iter().map(|anchor| anchor.anchor.text(".")).collect::<Vec<_>>().join(", "))
}
