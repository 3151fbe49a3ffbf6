//! What a run has done, so that an empty comparison shows.

use std::collections::BTreeMap;
use std::fmt;

use committer::{Anchor, Call, Removal};
use oracle::PlaceLists;

use crate::behind::Seen;
use crate::known::{ENTRIES, Known, ROWS, row_is_entry};
use crate::outlook::Compared;
use crate::skipped;
use crate::view::{Memory, Point, View};

#[derive(Clone, Debug, Default)]
pub struct Counts {
    /// lists of each family
    pub lists: BTreeMap<&'static str, u64>,
    /// by kind: calls, and those refused
    pub kinds: BTreeMap<&'static str, [u64; 2]>,
    pub refusals: BTreeMap<u32, u64>,
    /// refused calls that the Rust was given, by number and by what names the Rust's doing
    pub tried: BTreeMap<(u32, Known), u64>,
    /// other calls where the Rust did something else, by what names it
    pub known: BTreeMap<Known, u64>,
    /// pairs of points, and pairs of states, that were compared
    pub points: u64,
    pub states: u64,
    /// of the points those with a payload that isn't 0 and 0, and those of them that are ill-formed or not found, of which the Rust has none
    pub payloads: u64,
    pub payloads_ours: u64,
    /// anchor records compared with the Rust's
    pub anchors: u64,
    /// of them those with sums that aren't 0, and those with one that needs more than 32 bits
    pub sums: u64,
    pub wide_sums: u64,
    /// of them those with three linked points or more in a round, and of these those in the Rust's own order
    pub three_linked: u64,
    pub own_order: u64,
    /// links behind the points of records, also of those before a refusal
    pub links: Seen,
    /// commits with a damaged place list
    pub damaged_lists: u64,
    /// commits that handed out so many anchors, and that were refused after so many
    pub commits: [BTreeMap<usize, u64>; 2],
    /// outlooks compared with the commit on a copy, by anchors
    pub outlooks: BTreeMap<usize, u64>,
    /// outlooks refused as the commit is, by number
    pub outlooks_refused: BTreeMap<u32, u64>,
    /// outlooks into smaller buffers
    pub outlook_buffers: u64,
    /// anchors of outlooks whose linked counts are the lengths of the Rust's shuffles: the first ones, those after them
    pub outlooks_shuffled: [u64; 2],
    /// commits that weren't refused and had the counts of the outlook before them, by anchors
    pub as_told: BTreeMap<usize, u64>,
    /// pairs of triggers, the first of which a board may skip
    pub skipped: skipped::Seen,
    /// removes that both took, by rounds drained
    pub removes: BTreeMap<usize, u64>,
    /// removes into smaller buffers
    pub remove_buffers: u64,
    /// stats of peers and events that both reported, these by kind
    pub peer_stats: u64,
    pub events: BTreeMap<u32, u64>,
    /// memories that weren't empty after a remove
    pub memories: u64,
    /// proofs in them of which the Rust keeps a lesser one
    pub memory_lesser: u64,
}

impl Counts {
    pub fn calls(&self) -> u64 {
        self.kinds.values().map(|counts| counts[0]).sum()
    }

    pub fn call(&mut self, call: &Call, refused: Option<u32>) {
        let counts = self.kinds.entry(kind(call)).or_default();
        counts[0] += 1;
        if let Some(number) = refused {
            counts[1] += 1;
            *self.refusals.entry(number).or_default() += 1;
        }
    }

    pub fn tried(&mut self, number: u32, known: Known) {
        *self.tried.entry((number, known)).or_default() += 1;
    }

    /// How many calls refused with a number the Rust was given.
    pub fn tried_of(&self, number: u32) -> u64 {
        self.tried.iter().filter(|((of, _), _)| *of == number).map(|(_, times)| times).sum()
    }

    pub fn met(&mut self, known: Known) {
        self.times_met(known, 1);
    }

    pub fn times_met(&mut self, known: Known, times: u64) {
        if times > 0 {
            *self.known.entry(known).or_default() += times;
        }
    }

    /// A state with these points.
    pub fn held(&mut self, points: &[Point]) {
        self.states += 1;
        self.points += points.len() as u64;
        for point in points.iter().filter(|point| point.payload.is_some_and(|payload| payload != (0, 0))) {
            self.payloads += 1;
            self.payloads_ours += u64::from(point.status > 3);
        }
    }

    /// Anchor records, their place lists, and whether these are the Rust's own.
    pub fn compared(&mut self, anchors: &[Anchor], lists: &PlaceLists, own: bool) {
        for greatest in anchors.iter().map(|anchor| anchor.payload_len.max(anchor.payload_bytes)) {
            self.sums += u64::from(greatest > 0);
            self.wide_sums += u64::from(greatest > u32::MAX.into());
        }
        let three = lists.iter().filter(|rounds| rounds.iter().any(|list| list.len() >= 3)).count() as u64;
        self.anchors += anchors.len() as u64;
        self.three_linked += three;
        self.own_order += if own { three } else { 0 };
    }

    pub fn linked(&mut self, seen: &Seen) {
        self.links.add(seen);
    }

    pub fn damaged(&mut self, lists: u64) {
        self.damaged_lists += lists;
        self.times_met(Known::Entry(6), lists);
    }

    pub fn handed(&mut self, anchors: usize, refused: bool) {
        *self.commits[usize::from(refused)].entry(anchors).or_default() += 1;
    }

    pub fn looked(&mut self, compared: &Compared) {
        match compared {
            Compared::Anchors { looks, buffers, shuffled } => {
                self.outlooks_shuffled[0] += u64::from(*shuffled > 0);
                self.outlooks_shuffled[1] += shuffled.saturating_sub(1) as u64;
                *self.outlooks.entry(looks.len()).or_default() += 1;
                self.outlook_buffers += buffers;
            }
            Compared::Refused(why) => *self.outlooks_refused.entry(why.number()).or_default() += 1,
        }
    }

    /// A commit of so many anchors that had the outlook's counts.
    pub fn as_told(&mut self, anchors: usize) {
        *self.as_told.entry(anchors).or_default() += 1;
    }

    /// Those of two anchors or more.
    pub fn several_as_told(&self) -> u64 {
        self.as_told.iter().filter(|(anchors, _)| **anchors > 1).map(|(_, times)| times).sum()
    }

    pub fn removes_cut(&mut self, buffers: u64) {
        self.remove_buffers += buffers;
        self.times_met(Known::Entry(14), buffers);
    }

    /// What both reported, so many events with another proof in the Rust.
    pub fn removed(&mut self, told: &Removal, lesser: u64, before: &View, after: &View) {
        let rounds = |view: &View| view.state.as_ref().map_or(0, |state| state.rounds.len());
        *self.removes.entry(rounds(before) - rounds(after)).or_default() += 1;
        self.peer_stats += told.peers.len() as u64;
        for event in &told.events {
            *self.events.entry(event.kind()).or_default() += 1;
        }
        self.times_met(Known::Entry(8), lesser);
    }

    pub fn remembered(&mut self, memory: &Memory, lesser: u64) {
        self.memories += u64::from(!memory.peers.is_empty());
        self.memory_lesser += lesser;
    }

    /// Removes that both took.
    pub fn removes_taken(&self) -> u64 {
        self.removes.values().sum()
    }

    /// Outlooks that told anchors.
    pub fn outlooks_with_anchors(&self) -> u64 {
        self.outlooks.iter().filter(|(anchors, _)| **anchors > 0).map(|(_, times)| times).sum()
    }

    pub fn add(&mut self, other: &Counts) {
        for (family, lists) in &other.lists {
            *self.lists.entry(family).or_default() += lists;
        }
        for (kind, [calls, refused]) in &other.kinds {
            let counts = self.kinds.entry(kind).or_default();
            counts[0] += calls;
            counts[1] += refused;
        }
        for (number, times) in &other.refusals {
            *self.refusals.entry(*number).or_default() += times;
        }
        for (tried, times) in &other.tried {
            *self.tried.entry(*tried).or_default() += times;
        }
        for (known, times) in &other.known {
            *self.known.entry(*known).or_default() += times;
        }
        self.points += other.points;
        self.states += other.states;
        self.payloads += other.payloads;
        self.payloads_ours += other.payloads_ours;
        self.anchors += other.anchors;
        self.sums += other.sums;
        self.wide_sums += other.wide_sums;
        self.three_linked += other.three_linked;
        self.own_order += other.own_order;
        self.links.add(&other.links);
        self.damaged_lists += other.damaged_lists;
        for (ours, others) in self.commits.iter_mut().zip(&other.commits) {
            for (anchors, times) in others {
                *ours.entry(*anchors).or_default() += times;
            }
        }
        for (anchors, times) in &other.outlooks {
            *self.outlooks.entry(*anchors).or_default() += times;
        }
        for (number, times) in &other.outlooks_refused {
            *self.outlooks_refused.entry(*number).or_default() += times;
        }
        self.outlook_buffers += other.outlook_buffers;
        for (ours, others) in self.outlooks_shuffled.iter_mut().zip(other.outlooks_shuffled) {
            *ours += others;
        }
        for (anchors, times) in &other.as_told {
            *self.as_told.entry(*anchors).or_default() += times;
        }
        self.skipped.add(&other.skipped);
        for (rounds, times) in &other.removes {
            *self.removes.entry(*rounds).or_default() += times;
        }
        self.remove_buffers += other.remove_buffers;
        self.peer_stats += other.peer_stats;
        for (kind, times) in &other.events {
            *self.events.entry(*kind).or_default() += times;
        }
        self.memories += other.memories;
        self.memory_lesser += other.memory_lesser;
    }

    pub fn times(&self, known: Known) -> u64 {
        let tried = self.tried.iter().filter(|((_, named), _)| *named == known).map(|(_, times)| times);
        tried.chain(self.known.get(&known)).sum()
    }
}

pub fn kind(call: &Call) -> &'static str {
    match call {
        Call::Start(_) => "start",
        Call::Round { .. } => "round",
        Call::Name(_) => "name",
        Call::Resolve(..) => "resolve",
        Call::Certify(_) => "certify",
        Call::Commit(..) => "commit",
        Call::Remove { .. } => "remove",
        Call::Drop(_) => "drop",
        Call::Gap => "gap question",
        Call::Reset => "reset",
        Call::Outlook(_) => "outlook",
    }
}

impl fmt::Display for Counts {
    fn fmt(&self, f: &mut fmt::Formatter<'_>) -> fmt::Result {
        for (family, lists) in &self.lists {
            writeln!(f, "lists, {family}: {lists}")?;
        }
        writeln!(f, "calls: {}", self.calls())?;
        for (kind, [calls, refused]) in &self.kinds {
            writeln!(f, "  {kind}: {calls}, of them refused {refused}")?;
        }
        writeln!(f, "compared: {} states, {} points, {} anchor records", self.states, self.points, self.anchors)?;
        writeln!(
            f,
            "points with a payload: {}, of them ill-formed or not found, where the Rust has none: {}",
            self.payloads, self.payloads_ours
        )?;
        writeln!(
            f,
            "anchor records with sums that aren't 0: {}, with one of more than 32 bits: {}",
            self.sums, self.wide_sums
        )?;
        writeln!(
            f,
            "anchor records with three linked points or more in a round: {}, in the Rust's own order {}",
            self.three_linked, self.own_order
        )?;
        let links = self.links.named().map(|(what, times)| format!("{what} {times}"));
        writeln!(f, "links behind points: {}", links.join(", "))?;
        writeln!(f, "commits with a damaged place list: {}", self.damaged_lists)?;
        for (commits, what) in self.commits.iter().zip(["handed out", "finished before a refusal"]) {
            writeln!(f, "commits by anchors {what}: {}", listed(commits))?;
        }
        let all: u64 = self.outlooks.values().chain(self.outlooks_refused.values()).sum();
        writeln!(
            f,
            "outlooks compared with the commit on a copy: {all}, with anchors {}",
            self.outlooks_with_anchors()
        )?;
        writeln!(f, "outlooks by anchors: {}", listed(&self.outlooks))?;
        let [first, later] = self.outlooks_shuffled;
        writeln!(
            f,
            "anchors of outlooks with the counts of the Rust's shuffles: {first} first ones, {later} later ones"
        )?;
        let several = self.several_as_told();
        writeln!(
            f,
            "commits with the outlook's counts, by anchors: {}; of two or more: {several}",
            listed(&self.as_told)
        )?;
        writeln!(f, "outlooks refused as the commit is, by number: {}", listed(&self.outlooks_refused))?;
        writeln!(f, "outlooks into buffers that are too small: {}", self.outlook_buffers)?;
        writeln!(f, "skipped triggers: {}", self.skipped)?;
        writeln!(f, "removes by rounds drained: {}", listed(&self.removes))?;
        writeln!(f, "of removes: {} stats of peers; events by kind: {}", self.peer_stats, listed(&self.events))?;
        writeln!(
            f,
            "memories with entries after a remove: {}, lesser proofs in the Rust's: {}",
            self.memories, self.memory_lesser
        )?;
        writeln!(f, "removes into buffers that are too small: {}", self.remove_buffers)?;
        writeln!(f, "refusals:")?;
        for (number, times) in &self.refusals {
            write!(f, "  {number}: {times}, given to the Rust {}", self.tried_of(*number))?;
            for ((_, known), times) in self.tried.iter().filter(|((of, _), _)| of == number) {
                write!(f, "; {known} {times}")?;
            }
            writeln!(f)?;
        }
        writeln!(f, "differences of docs/DIFFERENCES.md:")?;
        for (n, title) in (1..).zip(ENTRIES) {
            writeln!(f, "  entry {n}, {title}: {}", Met(self.times(Known::Entry(n))))?;
        }
        for n in 1..=ROWS {
            match row_is_entry(n) {
                Some(entry) => writeln!(f, "  row {n}: as entry {entry}, {}", Met(self.tried_of(n)))?,
                None => writeln!(f, "  row {n}: {}", Met(self.times(Known::Row(n))))?,
            }
        }
        Ok(())
    }
}

fn listed<K: fmt::Display>(counts: &BTreeMap<K, u64>) -> String {
    counts.iter().map(|(of, times)| format!("{of}: {times}")).collect::<Vec<_>>().join(", ")
}

struct Met(u64);

impl fmt::Display for Met {
    fn fmt(&self, f: &mut fmt::Formatter<'_>) -> fmt::Result {
        match self.0 {
            0 => write!(f, "not met"),
            times => write!(f, "met {times} times"),
        }
    }
}
