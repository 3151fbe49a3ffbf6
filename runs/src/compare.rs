//! One list of calls on both sides, compared after each call.

use std::collections::HashMap;
use std::fmt;

use committer::{Anchor, Call, PointId, Start};
use oracle::{HAS_OWN_ORDER, OWN_ORDER, PlaceLists};

use crate::behind::{self, Linkers};
use crate::counts::Counts;
use crate::known::{self, Known, Strict, Tried};
use crate::library::{COPIED, Side};
use crate::lists::commit;
use crate::needed::Log;
use crate::outlook::{self, Compared};
use crate::random::Random;
use crate::removes;
use crate::rules::{Due, due};
use crate::rust::Rust;
use crate::skipped::{self, Board, Pairs};
use crate::view::{Answer, Point, Refused, State, Told, View};

/// Calls on tables of so many places, from zeroed tables on. The place lists of its commits are the Rust's, by this order of its shuffle.
#[derive(Clone, Debug, PartialEq, Eq)]
pub struct List {
    pub places: usize,
    pub calls: Vec<Call>,
    pub order: u64,
}

/// A difference that no entry names.
#[derive(Clone, Debug, PartialEq, Eq)]
pub struct Difference {
    /// which call shows it
    pub at: usize,
    pub kind: Kind,
    pub text: String,
}

/// A shorter list shows the same difference if it has the same kind.
#[derive(Clone, Copy, Debug, PartialEq, Eq)]
pub enum Kind {
    /// both took the call and answer otherwise
    Answer,
    State,
    Points,
    /// refused with another number than document 01's, or not refused
    Rule,
    /// a refused call changed something
    Changed,
    /// refused with this number, and the Rust does what nothing names
    Refused(u32),
    /// taken, and the Rust panics or has no such call
    Taken,
    /// a start, by the Rust's own assertions
    Strict,
    /// the records of a commit aren't the points that it marked
    Records,
    /// the links behind the points of a record aren't those of its points
    Links,
    /// a commit or a remove into a smaller buffer
    Buffer,
    /// a commit with a damaged place list
    Lists,
    /// the inspector's memory
    Memory,
    /// an outlook tells other anchors or counts than the commit hands out, or isn't refused as it is
    Outlook,
    /// a commit after that of a trigger whose proof its chain passes, and the commit alone: other records, or other things are left
    Skipped,
}

impl fmt::Display for Difference {
    fn fmt(&self, f: &mut fmt::Formatter<'_>) -> fmt::Result {
        write!(f, "call {}: {}", self.at + 1, self.text)
    }
}

/// Whether the list goes on.
enum Next {
    On,
    /// the Rust has panicked, as an entry says
    Ends,
}

/// Plays a list on both sides.
pub fn compare<S: Side>(list: &List, counts: &mut Counts) -> Result<(), Difference> {
    Pair::<S>::new(list).play(list, counts)
}

/// The list with the place lists that its commits are lent, and how it ends. Commits after a difference, or after the Rust has panicked,
/// have none.
pub fn lent<S: Side>(list: &List, counts: &mut Counts) -> (List, Result<(), Difference>) {
    let mut pair = Pair::<S>::new(list);
    let ended = pair.play(list, counts);
    let mut list = list.clone();
    let commits = list.calls.iter_mut().filter_map(|call| match call {
        Call::Commit(_, lists) => Some(lists),
        _ => None,
    });
    for (lists, lent) in commits.zip(pair.lent) {
        *lists = lent;
    }
    (list, ended)
}

type Found = (Kind, String);

/// The family that no list has, for the triggers drawn.
const SKIPPED: u64 = 101;

/// A commit that the Rust made before ours.
struct First {
    told: Told,
    /// kept by its shuffles
    lists: PlaceLists,
}

struct Pair<'a, S> {
    places: usize,
    ours: S,
    rust: Rust,
    order: u64,
    /// the calls that both took
    taken: Vec<&'a Call>,
    /// the payloads of the points that the Rust has none of: ill-formed and not found ones
    given: HashMap<PointId, (u32, u32)>,
    /// the place lists of the commits
    lent: Vec<Vec<u8>>,
    /// the round of the last anchor handed out since the start
    last_anchor: Option<u32>,
    /// ours after the last call
    view: View,
    fingerprint: u64,
}

impl<'a, S: Side> Pair<'a, S> {
    fn new(list: &List) -> Self {
        let ours = S::new(list.places);
        let (view, fingerprint) = (ours.view(), ours.fingerprint());
        oracle::set_shuffle_order(list.order);
        let (rust, order) = (Rust::default(), list.order);
        let (taken, given, lent) = (Vec::new(), HashMap::new(), Vec::new());
        Pair { places: list.places, ours, rust, order, taken, given, lent, last_anchor: None, view, fingerprint }
    }

    fn play(&mut self, list: &'a List, counts: &mut Counts) -> Result<(), Difference> {
        for (at, call) in list.calls.iter().enumerate() {
            match self.step(call, counts) {
                Ok(Next::On) => {}
                Ok(Next::Ends) => break,
                Err((kind, text)) => return Err(Difference { at, kind, text }),
            }
        }
        Ok(())
    }

    fn step(&mut self, call: &'a Call, counts: &mut Counts) -> Result<Next, Found> {
        let first = self.first(call);
        let told = self.before(call, first.as_ref(), counts)?;
        let answer = self.answer(call, first.as_ref());
        self.by_rule(call, &answer)?;
        let fingerprint = self.ours.fingerprint();
        let view = self.ours.view();
        if let (Call::Commit(..), Some(first)) = (call, &first) {
            self.records(&answer, &first.lists, &view, counts)?;
        }
        if let (Answer::Anchors(anchors), Some(told), Some(first)) = (&answer, &told, &first) {
            outlook::handed_as_told(told, anchors, &first.lists).map_err(of_outlook)?;
            counts.as_told(anchors.len());
        }
        if let Answer::Refused(why) = &answer {
            counts.call(call, Some(why.number));
            if why.finished.is_empty() {
                self.unchanged(call, why, fingerprint, &view)?;
                // the Rust has no outlook
                if !matches!(call, Call::Outlook(_)) {
                    self.tried(call, why, first, counts)?;
                }
                refused_as_told(told.as_ref(), &answer)?;
                return Ok(Next::On);
            }
        } else {
            counts.call(call, None);
            self.strictly(call, counts)?;
        }
        self.fingerprint = fingerprint;
        self.follow(call, &answer);
        let before = std::mem::replace(&mut self.view, view);
        let next = self.both(call, &answer, &before, first, counts)?;
        refused_as_told(told.as_ref(), &answer)?;
        Ok(next)
    }

    /// What is tried on copies before a call: an outlook, the commit after others, a remove into smaller buffers.
    fn before(&self, call: &Call, first: Option<&First>, counts: &mut Counts) -> Result<Option<Compared>, Found> {
        match (call, first) {
            (Call::Commit(trigger, _), Some(first)) => {
                let told = self.outlook(trigger, &first.lists, counts)?;
                self.skipped(trigger, first, counts)?;
                Ok(Some(told))
            }
            (Call::Outlook(trigger), Some(first)) => self.outlook(trigger, &first.lists, counts).map(Some),
            (Call::Remove { round, since }, _) => {
                let tried = removes::smaller_buffers(&self.ours, *round, *since, &self.view);
                counts.removes_cut(tried.map_err(|text| (Kind::Buffer, format!("remove: {text}")))?);
                Ok(None)
            }
            _ => Ok(None),
        }
    }

    /// The Rust commits first: what its shuffles keep is lent to ours. For an outlook another oracle does.
    fn first(&mut self, call: &Call) -> Option<First> {
        match call {
            Call::Commit(..) => {
                let told = self.rust.call(call);
                Some(First { told, lists: self.rust.place_lists().clone() })
            }
            Call::Outlook(trigger) => {
                let mut second = self.another();
                let told = second.call(&commit(*trigger));
                Some(First { told, lists: second.place_lists().clone() })
            }
            _ => None,
        }
    }

    /// An oracle in the state that both are in. Points are tested by rising digest, since a commit that met a conflict so may panic in
    /// another order (entry 5).
    fn another(&self) -> Rust {
        oracle::set_shuffle_order(0);
        let rust = Rust::after(self.taken.iter().copied());
        oracle::set_shuffle_order(self.order);
        rust
    }

    /// Ours; a commit is lent the Rust's numbers in a row.
    fn answer(&mut self, call: &Call, first: Option<&First>) -> Answer {
        match (call, first) {
            (Call::Commit(trigger, _), Some(first)) => {
                let lists = in_a_row(&first.lists);
                self.lent.push(lists.clone());
                self.ours.call(&Call::Commit(*trigger, lists))
            }
            _ => self.ours.call(call),
        }
    }

    /// Which anchor was handed out last.
    fn follow(&mut self, call: &Call, answer: &Answer) {
        let anchors = match answer {
            Answer::Anchors(anchors) => anchors,
            Answer::Refused(why) => &why.finished,
            _ => {
                return if matches!(call, Call::Start(_) | Call::Reset) {
                    self.last_anchor = None
                };
            }
        };
        self.last_anchor = anchors.last().map(|last| last.anchor.round).or(self.last_anchor);
    }

    /// The outlook of a trigger tells what its commit does, on a copy.
    fn outlook(&self, trigger: &PointId, lists: &PlaceLists, counts: &mut Counts) -> Result<Compared, Found> {
        let compared = outlook::compared(&self.ours, trigger, lists, &self.taken, &self.view).map_err(of_outlook)?;
        counts.looked(&compared);
        Ok(compared)
    }

    /// The commit of a trigger after that of some others, on copies, beside the commit alone, which the Rust has made.
    fn skipped(&self, later: &PointId, first: &First, counts: &mut Counts) -> Result<(), Found> {
        let log = Log::of(&self.taken);
        let mut random = Random::of(self.order, SKIPPED, self.taken.len() as u64);
        let chosen = skipped::chosen(later, &log, &self.view, &mut random);
        if chosen.is_empty() || self.places > COPIED {
            return Ok(());
        }
        let alone = [(*later, first.told.clone(), first.lists.clone())];
        let alone = Board::of(&self.ours, &alone, self.rust.view()).map_err(|text| (Kind::Skipped, text))?;
        let pairs = Pairs { later: *later, log, view: &self.view, alone };
        for skipped in chosen {
            let compared = pairs.compared::<S>(&skipped, || self.in_turn([skipped, *later]));
            let with_name = |text| (Kind::Skipped, format!("commit after that of {}: {text}", skipped.text(".")));
            counts.skipped.add(&compared.map_err(with_name)?);
        }
        Ok(())
    }

    /// Commits of these triggers one after the other, on copies.
    fn in_turn<const N: usize>(&self, triggers: [PointId; N]) -> Result<Option<Board>, String> {
        let mut rust = self.another();
        let commits = triggers.map(|trigger| {
            let told = rust.call(&commit(trigger));
            (trigger, told, rust.place_lists().clone())
        });
        Board::of(&self.ours, &commits, rust.view())
    }

    /// 1 to 12 and 23 are given where document 01 asks for them and nowhere else.
    fn by_rule(&self, call: &Call, answer: &Answer) -> Result<(), Found> {
        let given = match answer {
            Answer::Refused(why) if why.number <= 12 || why.number == 23 => Due::Number(why.number),
            _ => Due::None,
        };
        let due = due(call, &self.view, self.places, self.last_anchor);
        if given == due {
            return Ok(());
        }
        Err((Kind::Rule, format!("{}: {}; by document 01: {due:?}", name(call), answer_text(answer))))
    }

    /// The points of a commit's records are those that got their committed mark, each once; the links behind them are those that the points
    /// of the same record have; the records before a refusal, which the Rust loses, have the sums of these points' payloads; smaller buffers
    /// cut the records, and damaged place lists refuse them.
    fn records(&self, answer: &Answer, lists: &PlaceLists, view: &View, counts: &mut Counts) -> Result<(), Found> {
        let records = match answer {
            Answer::Anchors(anchors) => anchors,
            Answer::Refused(why) => &why.finished,
            _ => return Ok(()),
        };
        let mut handed: Vec<PointId> = records.iter().flat_map(|record| &record.points).copied().collect();
        let mut marked: Vec<PointId> = (view.points.iter().zip(&self.view.points))
            .filter(|(after, before)| after.is_committed() != before.is_committed())
            .map(|(after, _)| after.id)
            .collect();
        let order = |id: &PointId| (id.round, id.digest);
        handed.sort_by_key(order);
        marked.sort_by_key(order);
        if handed != marked {
            let text = format!("commit hands out {} points and marks {}", handed.len(), marked.len());
            return Err((Kind::Records, text));
        }
        counts.linked(&self.links_behind(records)?);
        let refused = matches!(answer, Answer::Refused(_));
        if let Some(record) = records.iter().find(|record| refused && !has_sums(record, view)) {
            let anchor = record.anchor.text(".");
            return Err((Kind::Records, format!("commit is refused after {anchor}, and its points have other sums")));
        }
        counts.handed(records.len(), refused);
        let tried = self.ours.smaller_buffers(lists).map_err(|text| (Kind::Buffer, format!("commit: {text}")))?;
        counts.times_met(Known::Entry(14), tried);
        let tried = self.ours.damaged_lists(lists).map_err(|text| (Kind::Lists, format!("commit: {text}")))?;
        counts.damaged(tried);
        Ok(())
    }

    /// What the records of a commit tell of links, beside the links that both took.
    fn links_behind(&self, records: &[Anchor]) -> Result<behind::Seen, Found> {
        let compared = behind::compared(records, &Linkers::of(&self.taken));
        compared.map_err(|text| (Kind::Links, format!("commit: the record of {text}")))
    }

    /// A refused call leaves every word as it was.
    fn unchanged(&self, call: &Call, why: &Refused, fingerprint: u64, view: &View) -> Result<(), Found> {
        if self.fingerprint == fingerprint && *view == self.view {
            return Ok(());
        }
        Err((Kind::Changed, format!("{} was refused with {} and changed something", name(call), why.number)))
    }

    /// Gives a refused call to an oracle of its own, in the state that both are in. A commit the Rust has been given already, so that it is
    /// made anew here.
    fn tried(&mut self, call: &Call, why: &Refused, first: Option<First>, counts: &mut Counts) -> Result<(), Found> {
        let (told, after) = match first {
            None => {
                let mut second = self.another();
                (second.call(call), second.view())
            }
            Some(first) => {
                let by_digest = self.by_digest(call, why, &first.told, &self.view, counts)?;
                let another = self.another();
                let given = std::mem::replace(&mut self.rust, another);
                let (second, told) = by_digest.unwrap_or((given, first.told));
                (told, second.view())
            }
        };
        let held = self.view.points.len();
        let added = after.points.len().saturating_sub(held);
        let bottom = after.state.map(|state| state.bottom);
        let tried = Tried { added, bottom, ..self.at(why, call, &self.view, &told) };
        let conflict = Told::Answer(Answer::Refused(why.clone()));
        match tried.known() {
            Some(known) => counts.tried(why.number, known),
            // the Rust refuses a history conflict too
            None if why.number == 13 && told == conflict => counts.tried(13, Known::Row(13)),
            None => {
                let text = format!("{} is refused with {}; the Rust: {}", name(call), why.number, told_text(&told));
                return Err((Kind::Refused(why.number), text));
            }
        }
        match call {
            Call::Start(with) if why.number == 1 && known::fits_types(with) => self.strictly(call, counts),
            _ => Ok(()),
        }
    }

    /// What is known of a refused call, but for what the Rust holds after it.
    fn at<'b>(&'b self, refused: &'b Refused, call: &'b Call, before: &'b View, told: &'b Told) -> Tried<'b> {
        let start = self.taken.iter().rev().find_map(|call| match call {
            Call::Start(with) => Some(*with),
            _ => None,
        });
        let start = start.unwrap_or(Start::default());
        let (taken, places) = (&self.taken[..], self.places);
        Tried { refused, call, before, told, taken, start, added: 0, bottom: None, places }
    }

    /// Entry 5: a commit refused with 13 to 15, by an oracle that tests the points of a round by rising digest, and what it says. In the
    /// list's order the Rust may have met another faulty point, of the same round or of one that the sorted order doesn't come to; it
    /// doesn't commit.
    fn by_digest(
        &self,
        call: &Call,
        why: &Refused,
        other: &Told,
        before: &View,
        counts: &mut Counts,
    ) -> Result<Option<(Rust, Told)>, Found> {
        if !(13..=15).contains(&why.number) {
            return Ok(None);
        }
        let mut sorted = self.another();
        oracle::set_shuffle_order(0);
        let told = sorted.call(call);
        oracle::set_shuffle_order(self.order);
        if *other != told {
            let faulty = [13, 14, 15].into_iter().any(|number| match other {
                Told::Answer(Answer::Refused(other)) => other.number == number,
                _ => self.at(&Refused { number, ..why.clone() }, call, before, other).known().is_some(),
            });
            if !faulty {
                return Err((Kind::Refused(why.number), format!("commit, in another order: {}", told_text(other))));
            }
            counts.met(Known::Entry(5));
        }
        Ok(Some((sorted, told)))
    }

    /// A start once more, on an oracle that asserts what the Rust asserts of peers and genesis.
    fn strictly(&self, call: &Call, counts: &mut Counts) -> Result<(), Found> {
        let Call::Start(with) = call else {
            return Ok(());
        };
        let told = Rust::strict().call(call);
        match known::strict_start(with, &told) {
            Strict::Named(known) => counts.met(known),
            Strict::Same => {}
            Strict::Unnamed => {
                return Err((Kind::Strict, format!("start, by the Rust's assertions: {}", told_text(&told))));
            }
        }
        Ok(())
    }

    /// A call that changed something, on the Rust, and what both then hold.
    fn both(
        &mut self,
        call: &'a Call,
        answer: &Answer,
        before: &View,
        first: Option<First>,
        counts: &mut Counts,
    ) -> Result<Next, Found> {
        if matches!(answer, Answer::Looked(_)) {
            return Ok(Next::On);
        }
        let (told, lists) = match first {
            Some(first) => (first.told, first.lists),
            None => (self.rust.call(call), PlaceLists::new()),
        };
        if let Answer::Refused(why) = answer {
            return self.finished_before(call, why, before, told, counts);
        }
        if let (Answer::Removed(ours), Told::Answer(Answer::Removed(rust))) = (answer, &told)
            && let Some(lesser) = removes::same(ours, rust, &self.taken, before)
        {
            counts.removed(ours, lesser, before, &self.view);
        } else if told != Told::Answer(without_links(answer)) {
            return match (known::taken(call, &told), &told) {
                (Some(known), _) => {
                    counts.met(known);
                    Ok(Next::Ends)
                }
                (None, Told::Answer(_)) => {
                    let text = format!("{}: {}; the Rust: {}", name(call), answer_text(answer), told_text(&told));
                    Err((Kind::Answer, text))
                }
                (None, _) => Err((Kind::Taken, format!("{} is taken; the Rust: {}", name(call), told_text(&told)))),
            };
        }
        match (answer, call) {
            (Answer::Anchors(anchors), _) => {
                counts.compared(anchors, &lists, self.order == OWN_ORDER && HAS_OWN_ORDER);
            }
            (_, Call::Resolve(id, info)) if info.status > 3 => {
                self.given.insert(*id, (info.payload_len, info.payload_bytes));
            }
            _ => {}
        }
        self.taken.push(call);
        self.same(call, counts)
    }

    /// A commit that is refused after some anchors: a conflict leaves the same in both, else the Rust has panicked.
    fn finished_before(
        &mut self,
        call: &'a Call,
        why: &Refused,
        before: &View,
        told: Told,
        counts: &mut Counts,
    ) -> Result<Next, Found> {
        let told = match self.by_digest(call, why, &told, before, counts)? {
            Some((rust, by_digest)) => {
                self.rust = rust;
                by_digest
            }
            None => told,
        };
        let conflict = Refused { finished: Vec::new(), ..why.clone() };
        if why.number == 13 && told == Told::Answer(Answer::Refused(conflict)) {
            counts.tried(13, Known::Entry(4));
            self.taken.push(call);
            return self.same(call, counts);
        }
        match self.at(why, call, before, &told).known() {
            Some(known) => {
                counts.tried(why.number, known);
                Ok(Next::Ends)
            }
            None => {
                let text = format!("{} is refused with {}; the Rust: {}", name(call), why.number, told_text(&told));
                Err((Kind::Refused(why.number), text))
            }
        }
    }

    /// Both hold the same.
    fn same(&self, call: &Call, counts: &mut Counts) -> Result<Next, Found> {
        let mut rust = self.rust.view();
        if keeps_last_proof(self.view.state.as_ref(), &mut rust) && matches!(call, Call::Drop(_)) {
            counts.met(Known::Entry(3));
        }
        if self.view.state != rust.state {
            let text = format!("after {}: {:?}; the Rust: {:?}", name(call), self.view.state, rust.state);
            return Err((Kind::State, text));
        }
        let Some(lesser) = removes::same_memory(&self.view.memory, &rust.memory) else {
            let text = format!("after {}: {:?}; the Rust: {:?}", name(call), self.view.memory, rust.memory);
            return Err((Kind::Memory, text));
        };
        if matches!(call, Call::Remove { .. }) {
            counts.remembered(&self.view.memory, lesser);
        }
        // the Rust keeps no payload of these
        for point in rust.points.iter_mut().filter(|point| point.status > 3) {
            point.payload = self.given.get(&point.id).copied();
        }
        counts.held(&self.view.points);
        if self.view.points == rust.points {
            return Ok(Next::On);
        }
        Err((Kind::Points, format!("after {}: {}", name(call), points_text(&self.view, &rust))))
    }
}

fn of_outlook(text: String) -> Found {
    (Kind::Outlook, format!("outlook: {text}"))
}

/// The outlook before a refused commit was refused likewise, where it has to be.
fn refused_as_told(told: Option<&Compared>, answer: &Answer) -> Result<(), Found> {
    match (told, answer) {
        (Some(told), Answer::Refused(why)) => outlook::refused_as_told(told, why).map_err(of_outlook),
        _ => Ok(()),
    }
}

/// As the Rust has it, which tells no links.
fn without_links(answer: &Answer) -> Answer {
    let mut answer = answer.clone();
    if let Answer::Anchors(anchors) = &mut answer {
        anchors.iter_mut().for_each(|anchor| anchor.links.clear());
    }
    answer
}

/// The record's sums are those of the points held.
fn has_sums(record: &Anchor, view: &View) -> bool {
    let points = view.points.iter().filter(|point| record.points.contains(&point.id));
    let (len, bytes) = points
        .filter_map(|point| point.payload)
        .fold((0, 0), |(len, bytes), payload| (len + u64::from(payload.0), bytes + u64::from(payload.1)));
    (record.payload_len, record.payload_bytes) == (len, bytes)
}

/// Entry 3: the Rust forgets a last proof below the bottom. Where it has, it is taken as kept.
fn keeps_last_proof(ours: Option<&State>, rust: &mut View) -> bool {
    let (Some(ours), Some(rust)) = (ours, &mut rust.state) else {
        return false;
    };
    let forgotten =
        rust.last_committed_proof.is_none() && ours.last_committed_proof.is_some_and(|proof| proof < rust.bottom);
    if forgotten {
        rust.last_committed_proof = ours.last_committed_proof;
    }
    forgotten
}

/// As they are lent.
pub fn in_a_row(lists: &PlaceLists) -> Vec<u8> {
    lists.concat().concat()
}

fn name(call: &Call) -> &'static str {
    crate::counts::kind(call)
}

fn answer_text(answer: &Answer) -> String {
    format!("{answer:?}")
}

fn told_text(told: &Told) -> String {
    match told {
        Told::Answer(answer) => answer_text(answer),
        Told::Panicked(message) => format!("panics: {message}"),
        Told::NoCall(why) => format!("no such call: {why}"),
    }
}

/// The first point that differs.
fn points_text(ours: &View, rust: &View) -> String {
    let first = ours.points.iter().zip(&rust.points).find(|(ours, rust)| ours != rust);
    match first {
        Some((ours, rust)) => format!("{}; the Rust: {}", point_text(ours), point_text(rust)),
        None => format!("{} points; the Rust: {}", ours.points.len(), rust.points.len()),
    }
}

fn point_text(point: &Point) -> String {
    let id = &point.id;
    let digest: String = id.digest.iter().map(|byte| format!("{byte:02x}")).collect();
    let payload = point.payload.map_or(String::new(), |(len, bytes)| format!(" payload {len} {bytes}"));
    format!("{}.{}.{digest} status {} word {:04x}{payload}", id.round, id.author, point.status, point.word)
}
