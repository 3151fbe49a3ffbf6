//! The proved committer for hosts written in Rust, over the static library that `.ci/build` writes.
//!
//! [`Committer`] owns the tables and the state. Every call on every input has an answer: a call that can't be done is
//! refused with a number ([`Refusal`]) and changes nothing, but for the anchors that a commit finished before. A record
//! tells of each of its points which other one links to it ([`LinkBehind`]). What a commit would hand out, an outlook tells
//! without a change, and how long its lists and records are ([`CommitSizes`]); what a remove drains, it reports.

mod anchor;
mod behind;
mod game;
mod pcg;
pub mod record;
mod refusal;
mod removal;
mod state;
pub mod sys;
mod types;
mod version;

pub use anchor::{
    Anchor, BrokenAnchor, CommitSizes, LOOK_BYTES, Look, POINT_BYTES, RECORD_BYTES, anchors, lists_in_order, looks,
};
pub use behind::{LINK_BYTES, LinkBehind, WORD_BYTES, Word};
pub use game::{Game, Reach};
pub use pcg::Pcg;
pub use record::Call;
pub use refusal::{Refusal, Refused};
pub use removal::{JournalDagEvent, MempoolPeerCounters, MempoolPeerStats, PEER_BYTES, Removal, removal};
pub use state::STATE_BYTES;
pub use sys::{State, Version};
pub use types::{
    Entry, Link, Memory, Point, PointId, PointInfo, RetainedRound, Start, Status, Summary, digest_bytes, digest_words,
};
pub use version::{LAYOUT, VERSION, library_version};

use std::fmt;

pub const PLACES_MAX: usize = 4096;
pub const ROUNDS_MAX: usize = 512;
pub const PEERS_MAX: u32 = 32;
/// Digests of one author in one round.
pub const VERSIONS_MAX: usize = 4;
/// Includes of a point, and witness.
pub const LINKS_MAX: usize = 32;
/// History rounds (H).
pub const HISTORY_MAX: usize = 255;
pub const ROUND_MAX: u32 = 4_000_000_000;
/// A buffer of so many bytes has room for the records of any commit.
pub const COMMIT_BYTES_MAX: usize = (ROUNDS_MAX - 1) * RECORD_BYTES + PLACES_MAX * POINT_BYTES;
/// A buffer of so many bytes has room for any outlook.
pub const OUTLOOK_BYTES_MAX: usize = (ROUNDS_MAX - 1) * (LOOK_BYTES + (HISTORY_MAX + 1) * anchor::COUNT_BYTES);

/// A buffer of so many bytes has room for the answer of any remove; `include/committer.h` derives it.
pub const REMOVE_BYTES_MAX: usize = 5_785_509;

/// Words of a place in each table.
pub const KEY_WORDS: usize = 8;
pub const LINK_WORDS: usize = 328;
/// Which word of a place in `links` holds `payload_len` * 2^32 + `payload_bytes`.
const PAYLOAD_WORD: usize = 7;

/// The tables. `include/committer.h` tells what their words are.
#[derive(Clone, Debug, PartialEq, Eq)]
pub struct Tables {
    pub keys: Vec<u64>,
    pub links: Vec<u64>,
    pub certs: Vec<u64>,
    pub order: Vec<u64>,
}

impl Tables {
    /// Zeroed tables for that many places.
    pub fn new(places: usize) -> Tables {
        Tables {
            keys: vec![0; places * KEY_WORDS],
            links: vec![0; places * LINK_WORDS],
            certs: vec![0; places],
            order: vec![0; places],
        }
    }
}

/// A committer: tables and state.
#[derive(Clone, Debug, PartialEq, Eq)]
pub struct Committer {
    tables: Tables,
    // boxed, because it has 15 KB
    state: Box<State>,
}

/// What [`Committer::call`] answers.
#[derive(Clone, Debug, PartialEq, Eq)]
pub enum Answer {
    Done,
    /// of the gap question and of a drop
    Said(bool),
    /// the anchors of a commit, oldest first
    Handed(Vec<Anchor>),
    /// the anchors that an outlook tells, oldest first
    Looked(Vec<Look>),
    /// what a remove reports
    Removed(Removal),
    /// with the anchors that were finished before; only a commit has any
    Refused(Refused, Vec<Anchor>),
}

impl fmt::Display for Answer {
    fn fmt(&self, f: &mut fmt::Formatter<'_>) -> fmt::Result {
        match self {
            Answer::Done => write!(f, "done"),
            Answer::Said(true) => write!(f, "yes"),
            Answer::Said(false) => write!(f, "no"),
            Answer::Handed(anchors) => write!(f, "{} anchors", anchors.len()),
            Answer::Looked(looks) => write!(f, "an outlook of {} anchors", looks.len()),
            Answer::Removed(told) => write!(f, "{} peers, {} events", told.peers.len(), told.events.len()),
            Answer::Refused(why, _) => why.fmt(f),
        }
    }
}

/// What a call that isn't refused says.
struct Kept {
    said: bool,
    anchors: u32,
}

/// The reply of one C function called with the state, the tables and what else it takes. `$pointer` is the method that
/// gives the tables' pointers.
macro_rules! reply {
    ($state:expr, $tables:expr, $pointer:ident, $function:ident $(, $more:expr)*) => {{
        let tables = $tables;
        // Safety: pointers and lengths are those of vectors, which don't overlap; where the pointers are const, the
        // function only reads.
        unsafe {
            sys::$function(
                $state,
                tables.keys.$pointer(),
                tables.keys.len(),
                tables.links.$pointer(),
                tables.links.len(),
                tables.certs.$pointer(),
                tables.certs.len(),
                tables.order.$pointer(),
                tables.order.len(),
                $($more),*
            )
        }
    }};
}

/// A call that may change the tables; the state that it returns is kept.
macro_rules! run {
    ($committer:expr, $function:ident $(, $more:expr)*) => {{
        let reply = reply!(*$committer.state, &mut $committer.tables, as_mut_ptr, $function $(, $more)*);
        *$committer.state = reply.state;
        kept(&reply)
    }};
}

/// A function that only reads; the state that it returns is let go.
macro_rules! ask {
    ($committer:expr, $function:ident $(, $more:expr)*) => {
        kept(&reply!(*$committer.state, &$committer.tables, as_ptr, $function $(, $more)*))
    };
}

impl Committer {
    /// Zeroed tables for that many places. Any number will do here; a start refuses 0 and more than 4,096.
    pub fn new(places: usize) -> Committer {
        Committer::from_parts(Tables::new(places), Box::default())
    }

    /// Tables and state of the host's own making. They may hold anything and have any lengths.
    pub fn from_parts(tables: Tables, state: Box<State>) -> Committer {
        Committer { tables, state }
    }

    pub fn parts(&self) -> (&Tables, &State) {
        (&self.tables, &self.state)
    }

    /// To write whatever one likes: what breaks a rule that all calls keep counts as not started.
    pub fn parts_mut(&mut self) -> (&mut Tables, &mut State) {
        (&mut self.tables, &mut self.state)
    }

    pub fn into_parts(self) -> (Tables, Box<State>) {
        (self.tables, self.state)
    }

    /// Starts on what doesn't count as started: the tables are cleared, the bottom is retained. Refused with 1, 2.
    pub fn start(&mut self, with: &Start) -> Result<(), Refused> {
        run!(self, committer_start, with.into()).map(drop)
    }

    /// Clears all but the inspector's memory. Refused with 2.
    pub fn reset(&mut self) -> Result<(), Refused> {
        run!(self, committer_reset).map(drop)
    }

    /// Adds the round above the top; one at or below the top does nothing. Refused with 2, 3, 4.
    pub fn round(&mut self, round: u32, peers: u32) -> Result<(), Refused> {
        run!(self, committer_round, round, peers).map(drop)
    }

    /// Yes if the gap question is waited for, and then it is put. Refused with 2.
    pub fn gap_question(&mut self) -> Result<bool, Refused> {
        run!(self, committer_gap).map(|kept| kept.said)
    }

    /// Names a point. Refused with 2, 5, 6, 5, 7, 8, 4.
    pub fn name(&mut self, id: &PointId) -> Result<(), Refused> {
        run!(self, committer_name, id.into()).map(drop)
    }

    /// Resolves a named point, once. Refused with 2, 5, 6, 5, 9, 10, 11, 12.
    pub fn resolve(&mut self, id: &PointId, info: &PointInfo) -> Result<(), Refused> {
        let refs = info.refs();
        run!(self, committer_resolve, id.into(), info.into(), refs.as_ptr(), refs.len()).map(drop)
    }

    /// Certifies a named point, also before it is resolved. Refused with 2, 5, 6, 5, 9.
    pub fn certify(&mut self, id: &PointId) -> Result<(), Refused> {
        run!(self, committer_certify, id.into()).map(drop)
    }

    /// Drops the rounds below, but for the top. Yes if the round isn't above the top. Refused with 2.
    pub fn drop_upto(&mut self, round: u32) -> Result<bool, Refused> {
        run!(self, committer_drop, round).map(|kept| kept.said)
    }

    /// Commits what a trigger yields: the records of the anchors, oldest first, stand at the beginning of the buffer
    /// ([`anchors`] reads them), and their number is returned. `lists` are the place lists of these anchors
    /// (`include/committer.h` tells what they are); bytes beyond them aren't read. Refused with 2, 5, 6, 5, 9, 13, 14, 25,
    /// 15, 16, 19, then for each anchor 22, 13 to 15, 17, 18, 20, 24, 21. The records of the finished anchors
    /// ([`Refused::finished`]) then stand in the buffer, and what these anchors changed stays.
    ///
    /// An outlook tells the lengths of all lists ([`Look::linked`]) and the buffer needed ([`CommitSizes`]), if no call
    /// lies between. With the lists of the first anchors alone it is 24 after these.
    ///
    /// A trigger that was left out is made up for by a later one whose walk seeks the first one's previous point: if no
    /// commit is refused and the lists are the same for each anchor and round, the records of the later one alone are those
    /// of both in a row, byte by byte, and all that is left is the same.
    pub fn commit(&mut self, trigger: &PointId, lists: &[u8], buffer: &mut [u8]) -> Result<u32, Refused> {
        let (room, length) = (buffer.as_mut_ptr(), buffer.len());
        run!(self, committer_commit, trigger.into(), lists.as_ptr(), lists.len(), room, length).map(|kept| kept.anchors)
    }

    /// The anchors that a commit of this trigger would hand out now, oldest first, each with the number of points in
    /// its history and of those linked in each round of it, the anchors before it taken as committed; they stand at the
    /// beginning of the buffer ([`looks`] reads them). Returned is their number. If no call lies between and the commit
    /// isn't refused, its counts are these. Refused as the commit would be, but never with 20 or 24, and with 21 for its
    /// own buffer; then the buffer stays as it is.
    pub fn outlook(&self, trigger: &PointId, buffer: &mut [u8]) -> Result<u32, Refused> {
        ask!(self, committer_outlook, trigger.into(), buffer.as_mut_ptr(), buffer.len()).map(|kept| kept.anchors)
    }

    /// Removes the rounds more than H below an anchor's, but for the top, and reports what the inspector finds in them:
    /// the answer stands at the beginning of the buffer ([`removal`] reads it). Counters are of the rounds from `since`
    /// on; none are counted without it. Refused with 2, 23, 21; then the buffer stays as it is.
    pub fn remove(&mut self, round: u32, since: Option<u32>, buffer: &mut [u8]) -> Result<(), Refused> {
        let (has_since, since) = (since.is_some().into(), since.unwrap_or(0));
        run!(self, committer_remove, round, has_since, since, buffer.as_mut_ptr(), buffer.len()).map(drop)
    }

    /// Makes a call. A commit, an outlook or a remove gets a buffer that is large enough.
    pub fn call(&mut self, call: &Call) -> Answer {
        match call {
            Call::Start(with) => done(self.start(with)),
            Call::Round { round, peers } => done(self.round(*round, *peers)),
            Call::Name(id) => done(self.name(id)),
            Call::Resolve(id, info) => done(self.resolve(id, info)),
            Call::Certify(id) => done(self.certify(id)),
            Call::Drop(round) => said(self.drop_upto(*round)),
            Call::Gap => said(self.gap_question()),
            Call::Reset => done(self.reset()),
            Call::Commit(trigger, lists) => self.handed(trigger, lists),
            Call::Outlook(trigger) => self.looked(trigger),
            Call::Remove { round, since } => self.removed(*round, *since),
        }
    }

    fn handed(&mut self, trigger: &PointId, lists: &[u8]) -> Answer {
        let mut buffer = vec![0; COMMIT_BYTES_MAX];
        match self.commit(trigger, lists, &mut buffer) {
            Ok(count) => Answer::Handed(records(&buffer, count)),
            Err(why) => Answer::Refused(why, records(&buffer, why.finished)),
        }
    }

    fn looked(&self, trigger: &PointId) -> Answer {
        let mut buffer = vec![0; OUTLOOK_BYTES_MAX];
        let told = self.outlook(trigger, &mut buffer);
        told.map_or_else(refused, |count| Answer::Looked(looks(&buffer, count, &self.state)))
    }

    fn removed(&mut self, round: u32, since: Option<u32>) -> Answer {
        let mut buffer = vec![0; REMOVE_BYTES_MAX];
        match self.remove(round, since, &mut buffer) {
            Ok(()) => Answer::Removed(removal(&buffer).expect("a remove writes a whole answer")),
            Err(why) => refused(why),
        }
    }

    /// Whether state and tables count as started.
    pub fn is_started(&self) -> bool {
        // The gap question is refused exactly where nothing is started. What it answers is let go, so it isn't put.
        ask!(self, committer_gap).is_ok()
    }

    /// The points by rising round, then by rising digest; none if not started.
    pub fn points(&self) -> Vec<Point> {
        if !self.is_started() {
            return Vec::new();
        }
        self.tables.order[..self.state.count].iter().map(|place| self.point_at(*place as usize)).collect()
    }

    /// None if not started.
    pub fn summary(&self) -> Option<Summary> {
        let s = &self.state;
        self.is_started().then(|| Summary {
            genesis: s.genesis,
            commit_history_rounds: s.commit_history_rounds,
            deduplicate_rounds: s.deduplicate_rounds,
            bottom: s.bottom,
            top: s.top,
            last_committed_proof: s.last_committed_proof.checked_sub(1),
            last_anchor: s.last_anchor.checked_sub(1),
            full_history_bottom: s.full_history_bottom,
            first_executable: s.first_executable,
            emit_first_after_gap: (s.emit_first_after_gap != 0).then_some(s.emit_first_after_gap != 1),
            rounds: (s.bottom..=s.top).map(|round| self.retained(round)).collect(),
        })
    }

    /// The inspector's memory as it stands in the state; a reset leaves it there.
    pub fn memory(&self) -> Memory {
        let memory = &self.state.memory;
        Memory { last: memory.last, entries: memory.entries.iter().take(memory.count).map(Entry::from).collect() }
    }

    fn retained(&self, round: u32) -> RetainedRound {
        let record = &self.state.rounds[round as usize % ROUNDS_MAX];
        RetainedRound { round, peers: record.peers, used: record.used_anchor_proof.checked_sub(1) }
    }

    /// The point at a used place of started tables: its words are in their ranges.
    fn point_at(&self, place: usize) -> Point {
        let key = &self.tables.keys[place * KEY_WORDS..][..KEY_WORDS];
        let status = Status::of(key[6] as u32);
        // anything may stand there before the resolution
        let payload = status.map_or(0, |_| self.tables.links[place * LINK_WORDS + PAYLOAD_WORD]);
        Point {
            id: PointId {
                round: key[0] as u32,
                author: key[1] as u32,
                digest: digest_bytes(&[key[2], key[3], key[4], key[5]]),
            },
            status,
            proof: key[7] & 1 != 0,
            trigger: key[7] & 2 != 0,
            cause: key[7] & 4 != 0,
            payload_len: (payload >> 32) as u32,
            payload_bytes: payload as u32,
            cert: self.tables.certs[place] as u16,
        }
    }
}

/// The anchors that a commit wrote the records of.
fn records(buffer: &[u8], count: u32) -> Vec<Anchor> {
    anchors(buffer, count).expect("a commit writes whole records")
}

/// What a call said, or why it was refused.
fn kept(reply: &sys::Reply) -> Result<Kept, Refused> {
    if reply.refused == 0 {
        return Ok(Kept { said: reply.said == 1, anchors: reply.anchors });
    }
    let refusal = Refusal::of(reply.refused, reply.conflict).expect("the library refuses with 1 to 25");
    Err(Refused { refusal, finished: reply.anchors })
}

fn done(answer: Result<(), Refused>) -> Answer {
    answer.map_or_else(refused, |()| Answer::Done)
}

fn said(answer: Result<bool, Refused>) -> Answer {
    answer.map_or_else(refused, Answer::Said)
}

fn refused(why: Refused) -> Answer {
    Answer::Refused(why, Vec::new())
}
