//! The differences that docs/DIFFERENCES.md lists, and which of them a call has met. What none of them names fails the run.

use std::collections::BTreeSet;
use std::fmt;

use committer::{Call, PointId, PointInfo, ROUND_MAX, Start};

use crate::needed;
use crate::view::{Answer, Refused, Told, View};

/// An entry of DIFFERENCES.md, or a row of its table of refusals.
#[derive(Clone, Copy, Debug, PartialEq, Eq, PartialOrd, Ord, Hash)]
pub enum Known {
    Entry(u32),
    Row(u32),
}

/// The titles of the entries, numbered from 1.
pub const ENTRIES: [&str; 15] = [
    "A trigger that is neither valid nor certified",
    "Calls on tables that aren't started",
    "Drop keeps the last committed proof",
    "Records before a later conflict are handed out",
    "Which faulty point of a round is met first",
    "Order of points inside a round of a history",
    "Rounds below 0",
    "Two proofs of one previous point, and the order of remove's lists",
    "Remove above the last anchor",
    "Authors that aren't peers, twin digests, a fifth digest",
    "Links to points that aren't named",
    "A trigger that the store doesn't have",
    "Peer sets",
    "Buffers",
    "A proof's top proof",
];

/// The rows are numbered from 1.
pub const ROWS: u32 = 25;

/// The entry that a row of the table only points to.
pub fn row_is_entry(row: u32) -> Option<u32> {
    match row {
        7 | 8 => Some(10),
        12 => Some(11),
        23 => Some(9),
        _ => None,
    }
}

impl fmt::Display for Known {
    fn fmt(&self, f: &mut fmt::Formatter<'_>) -> fmt::Result {
        match self {
            Known::Entry(n) => write!(f, "entry {n}"),
            Known::Row(n) => write!(f, "row {n}"),
        }
    }
}

const EMPTY: &str = "DAG cannot be empty if properly initialized";
const UNDERFLOW: &str = "DAG round number underflow";
const ONE_PEER: &str = "genesis round must have one peer";
const BELOW_GENESIS: &str = "not allowed before genesis";

fn panics(told: &Told, part: &str) -> bool {
    matches!(told, Told::Panicked(message) if message.contains(part))
}

fn no_call(told: &Told) -> bool {
    matches!(told, Told::NoCall(_))
}

fn answers(told: &Told, answer: &Answer) -> bool {
    matches!(told, Told::Answer(given) if given == answer)
}

fn done(told: &Told) -> bool {
    answers(told, &Answer::Done)
}

fn no_anchors(told: &Told) -> bool {
    answers(told, &Answer::Anchors(Vec::new()))
}

/// What is known when the library has refused a call and an oracle in the same state was given it.
pub struct Tried<'a> {
    pub refused: &'a Refused,
    pub call: &'a Call,
    /// both sides before the call
    pub before: &'a View,
    pub told: &'a Told,
    /// the calls that both took
    pub taken: &'a [&'a Call],
    /// the last start
    pub start: Start,
    /// how many more points the Rust holds after it, and its bottom then, if it holds a round
    pub added: usize,
    pub bottom: Option<u32>,
    pub places: usize,
}

impl Tried<'_> {
    /// Which entry or row names what the Rust did, if one does.
    pub fn known(&self) -> Option<Known> {
        if self.below_zero() {
            return Some(Known::Entry(7));
        }
        match self.refused.number {
            1 => self.bad_start(),
            2 => self.wrong_phase(),
            3 => self.round_ahead(),
            4 => self.full(),
            5 => self.not_a_peer(),
            6 | 9 => self.not_there(),
            7 | 8 => self.named_before(),
            10 => no_call(self.told).then_some(Known::Row(10)),
            11 => self.bad_info(),
            12 => self.link_not_named(),
            23 => self.remove_ahead(),
            number => self.commit_refused(number),
        }
    }

    /// A commit whose refusal the Rust doesn't come to: it panics at a trigger or a proof in round 0, where it looks for the previous point,
    /// or at a finished anchor whose top proof is in round 0, which then has no previous anchor.
    fn below_zero(&self) -> bool {
        let Call::Commit(trigger, _) = self.call else {
            return false;
        };
        let from_zero = self.before.state.as_ref().is_some_and(|state| state.bottom == 0);
        let finished = &self.refused.finished;
        let at_zero = trigger.round == 0
            || from_zero && self.refused.number == 16 && finished.is_empty()
            || finished.iter().any(|anchor| anchor.previous == 0);
        at_zero && panics(self.told, UNDERFLOW)
    }

    fn when(&self, as_named: bool, known: Known) -> Option<Known> {
        as_named.then_some(known)
    }

    fn bad_start(&self) -> Option<Known> {
        let Call::Start(with) = self.call else {
            return None;
        };
        if !fits_types(with) {
            return self.when(no_call(self.told), Known::Row(1));
        }
        if lone_peer_missing(with.bottom, with.peers) {
            return self.when(panics(self.told, ONE_PEER), Known::Entry(13));
        }
        if self.before.is_started() {
            return self.when(panics(self.told, "already init"), Known::Row(2));
        }
        let asked = with.bottom.max(with.genesis) > ROUND_MAX
            || with.bottom < with.genesis
            || with.used.is_some_and(|used| used > 31)
            || !(1..=4096).contains(&self.places);
        self.when(asked && done(self.told), Known::Row(1))
    }

    fn wrong_phase(&self) -> Option<Known> {
        let entry = Known::Entry(2);
        match self.call {
            Call::Start(with) if lone_peer_missing(with.bottom, with.peers) => {
                self.when(panics(self.told, ONE_PEER), Known::Entry(13))
            }
            Call::Start(_) => self.when(panics(self.told, "already init"), Known::Row(2)),
            Call::Reset => self.when(done(self.told), entry),
            Call::Gap => self.when(answers(self.told, &Answer::Said(false)), entry),
            Call::Name(_) | Call::Resolve(..) | Call::Certify(_) => self.when(no_call(self.told), entry),
            Call::Round { .. } | Call::Drop(_) | Call::Commit(..) | Call::Remove { .. } => {
                self.when(panics(self.told, EMPTY), entry)
            }
            Call::Outlook(_) => None,
        }
    }

    fn round_ahead(&self) -> Option<Known> {
        let (Call::Round { round, .. }, Some(state)) = (self.call, &self.before.state) else {
            return None;
        };
        let next = state.top.checked_add(1) == Some(*round);
        let as_named = if next { done(self.told) } else { panics(self.told, "must not contain gaps") };
        self.when(as_named, Known::Row(3))
    }

    fn full(&self) -> Option<Known> {
        let added = match self.call {
            Call::Round { .. } => 0,
            Call::Name(_) => 1,
            _ => return None,
        };
        self.when(done(self.told) && self.added == added, Known::Row(4))
    }

    fn not_a_peer(&self) -> Option<Known> {
        match self.call {
            Call::Name(id) if self.before.holds_round(id.round) => {
                self.when(done(self.told) && self.added == 1, Known::Entry(10))
            }
            Call::Name(_) | Call::Resolve(..) | Call::Certify(_) => self.when(no_call(self.told), Known::Row(5)),
            Call::Commit(id, _) if self.below_bottom(id) => self.when(no_anchors(self.told), Known::Entry(12)),
            Call::Commit(..) => self.when(no_call(self.told), Known::Entry(12)),
            _ => None,
        }
    }

    fn below_bottom(&self, id: &PointId) -> bool {
        self.before.state.as_ref().is_some_and(|state| id.round < state.bottom)
    }

    fn not_there(&self) -> Option<Known> {
        let known = match self.call {
            Call::Commit(..) => Known::Entry(12),
            _ => Known::Row(self.refused.number),
        };
        self.when(no_call(self.told), known)
    }

    /// A twin digest and a fifth one are taken; the same id again is the version that is there.
    fn named_before(&self) -> Option<Known> {
        let Call::Name(id) = self.call else {
            return None;
        };
        let added = usize::from(!self.before.holds_point(id));
        self.when(done(self.told) && self.added == added, Known::Entry(10))
    }

    /// What the types hold is taken. That goes for links below round 0 too: `Round::prev` panics where such a link is read, in validation
    /// and in a commit, and not where it is set.
    fn bad_info(&self) -> Option<Known> {
        let Call::Resolve(id, info) = self.call else {
            return None;
        };
        let as_named = if expressible(info) {
            done(self.told) && self.added == missing(self.before, id, info)
        } else {
            no_call(self.told)
        };
        self.when(as_named, Known::Row(11))
    }

    /// The Rust names the missing points.
    fn link_not_named(&self) -> Option<Known> {
        let Call::Resolve(id, info) = self.call else {
            return None;
        };
        let added = missing(self.before, id, info);
        self.when(done(self.told) && added > 0 && self.added == added, Known::Entry(11))
    }

    /// The Rust drains up to H rounds below the given one, all of its rounds too; further up it panics. It also panics where it looks for
    /// the round before the first executable one or before one that it inspects, and that is round 0.
    fn remove_ahead(&self) -> Option<Known> {
        let (Call::Remove { round, .. }, Some(state)) = (self.call, &self.before.state) else {
            return None;
        };
        let low = round.saturating_sub(self.start.commit_history_rounds);
        if low > state.top + 1 {
            return self.when(panics(self.told, "drained not contiguous dag part"), Known::Entry(9));
        }
        let last_non_executable = state.first_executable.saturating_sub(1).max(self.start.genesis);
        if state.first_executable == 0 || last_non_executable == 0 && state.bottom == 0 && low > 0 {
            return self.when(panics(self.told, UNDERFLOW), Known::Entry(7));
        }
        let bottom = (low <= state.top).then(|| low.max(state.bottom));
        let drained = matches!(self.told, Told::Answer(Answer::Removed(_))) && self.bottom == bottom;
        self.when(drained, Known::Entry(9))
    }

    /// Which of 14 and 25 is due.
    fn needed(&self) -> Option<u32> {
        match self.call {
            Call::Commit(trigger, _) => needed::number(trigger, self.taken, self.before),
            _ => None,
        }
    }

    /// 14 and up, of a commit.
    fn commit_refused(&self, number: u32) -> Option<Known> {
        let parts: &[&str] = match number {
            14 | 25 if self.needed() == Some(number) => &["point to commit must be resolved"],
            15 if no_anchors(self.told) => return Some(Known::Entry(1)),
            15 => &["chained anchor proof", "anchor candidate", "not committable"],
            16 => &[
                "anchor trigger without prev point",
                "anchor proof doesn't have a prev point",
                "iter skipped proof round",
                "broken anchor chain",
                "skipped anchor proofs are not allowed",
            ],
            17 => &["doesn't contain full anchor history"],
            18 => &["not certified by anchor"],
            19 => &["chain does not link across bottom"],
            20 => &["gap flag was not consumed before commit"],
            22 => &["range start is greater than range end"],
            _ => return None,
        };
        self.when(parts.iter().any(|part| panics(self.told, part)), Known::Row(number))
    }
}

/// What covers a call that the library took and the Rust didn't answer.
pub fn taken(call: &Call, told: &Told) -> Option<Known> {
    match call {
        Call::Start(Start { bottom: round, peers, .. }) | Call::Round { round, peers } => {
            (lone_peer_missing(*round, *peers) && panics(told, ONE_PEER)).then_some(Known::Entry(13))
        }
        // the top proof of an anchor in round 0
        Call::Commit(..) => panics(told, UNDERFLOW).then_some(Known::Entry(7)),
        _ => None,
    }
}

/// What a start does on an oracle with the Rust's own assertions.
pub enum Strict {
    /// no more than on the other
    Same,
    Named(Known),
    Unnamed,
}

pub fn strict_start(with: &Start, told: &Told) -> Strict {
    let same = if done(told) { Strict::Same } else { Strict::Unnamed };
    let named = |part, known| if panics(told, part) { Strict::Named(known) } else { Strict::Unnamed };
    if with.bottom > with.genesis {
        same
    } else if with.genesis == 0 {
        named(UNDERFLOW, Known::Entry(7))
    } else if with.bottom + 1 < with.genesis {
        named(BELOW_GENESIS, Known::Row(1))
    } else if with.peers.count_ones() != 1 {
        named(ONE_PEER, Known::Entry(13))
    } else {
        same
    }
}

/// Whether the Rust's types hold the numbers of a start.
pub fn fits_types(with: &Start) -> bool {
    (1..=255).contains(&with.commit_history_rounds)
        && with.deduplicate_rounds <= 65_535
        && with.used.is_none_or(|used| used <= 255)
}

/// Round 0 is made as the one before genesis, which must have one peer.
fn lone_peer_missing(round: u32, peers: u32) -> bool {
    round == 0 && peers.count_ones() != 1
}

/// Whether the Rust's types hold a resolution. A proof whose top proof isn't itself is left out here: no list has one.
fn expressible(info: &PointInfo) -> bool {
    let bare = info.includes.is_empty() && info.witness.is_empty() && info.evidence == 0;
    let distinct =
        |links: &[committer::Link]| links.iter().map(|link| link.peer).collect::<BTreeSet<_>>().len() == links.len();
    match info.status {
        1..=3 => distinct(&info.includes) && distinct(&info.witness),
        4 | 5 => bare,
        _ => false,
    }
}

/// How many points in retained rounds a resolution links to that aren't named.
fn missing(before: &View, id: &PointId, info: &PointInfo) -> usize {
    let mut absent = BTreeSet::new();
    for (down, links) in [(1, &info.includes), (2, &info.witness)] {
        for link in links {
            let Some(round) = id.round.checked_sub(down) else {
                continue;
            };
            let target = PointId { round, author: link.peer, digest: link.digest };
            if before.holds_round(round) && !before.holds_point(&target) {
                absent.insert((round, link.peer, link.digest));
            }
        }
    }
    absent.len()
}
