//! The library's side: the proved committer behind a trait, so that tests can put a wrong one in its place.

use committer::{Anchor, Call, Committer, Look, OUTLOOK_BYTES_MAX, PointId, Refusal, Status, anchors, looks};
use oracle::PlaceLists;

use crate::commits::Commit;
use crate::view::{Answer, Memory, Point, Refused, Round, State, View};

/// What a commit answers, and the whole buffer after it.
pub type Made = (Result<u32, committer::Refused>, Vec<u8>);

/// The side that is tested.
pub trait Side {
    /// Zeroed tables for that many places.
    fn new(places: usize) -> Self;

    fn call(&mut self, call: &Call) -> Answer;

    fn view(&self) -> View;

    /// A number that changes with any word of the tables and the state.
    fn fingerprint(&self) -> u64;

    /// The outlook of a trigger, into this buffer.
    fn outlook(&self, trigger: &PointId, buffer: &mut [u8]) -> Result<u32, committer::Refused>;

    /// What an outlook wrote for so many anchors.
    fn looks(&self, bytes: &[u8], count: u32) -> Vec<Look>;

    /// What a commit of the trigger with these place lists hands out, or why it is refused, on a copy where the gap question is put. Where
    /// the lists end too soon, those of an outlook follow.
    fn would_commit(&self, trigger: &PointId, lists: &[u8]) -> Result<Vec<Anchor>, committer::Refused>;

    /// Commits of these triggers with their place lists, one after the other on a copy, and the copy's fingerprint after them.
    fn would_commit_in_turn(&self, commits: &[(PointId, Vec<u8>)]) -> (Vec<Made>, u64);

    /// Whether a chain counts as passing a proof where it is found to: always, but for tests.
    fn passes(found: bool) -> bool {
        found
    }

    /// A remove into this buffer, on a copy: what it answers, and the copy's fingerprint after it.
    fn would_remove(&self, round: u32, since: Option<u32>, buffer: &mut [u8]) -> (Result<(), committer::Refused>, u64);

    /// The last call, if it was a commit with these place lists, once more with buffers that are too small: how many, or what is wrong.
    fn smaller_buffers(&self, _lists: &PlaceLists) -> Result<u64, String> {
        Ok(0)
    }

    /// Likewise with each of the lists damaged.
    fn damaged_lists(&self, _lists: &PlaceLists) -> Result<u64, String> {
        Ok(0)
    }
}

/// The library as it is.
pub struct Library {
    committer: Committer,
    /// the last call, if it was a commit, and what was before it
    commit: Option<(PointId, Committer)>,
}

/// Larger tables aren't copied before each commit.
pub(crate) const COPIED: usize = 600;

impl Side for Library {
    fn new(places: usize) -> Library {
        Library { committer: Committer::new(places), commit: None }
    }

    fn call(&mut self, call: &Call) -> Answer {
        self.commit = match call {
            Call::Commit(id, _) if self.committer.parts().0.order.len() <= COPIED => {
                Some((*id, self.committer.clone()))
            }
            _ => None,
        };
        answer(self.committer.call(call))
    }

    fn view(&self) -> View {
        view(&self.committer)
    }

    fn fingerprint(&self) -> u64 {
        fingerprint(&self.committer)
    }

    fn outlook(&self, trigger: &PointId, buffer: &mut [u8]) -> Result<u32, committer::Refused> {
        self.committer.outlook(trigger, buffer)
    }

    fn looks(&self, bytes: &[u8], count: u32) -> Vec<Look> {
        looks(bytes, count, self.committer.parts().1)
    }

    fn would_commit(&self, trigger: &PointId, lists: &[u8]) -> Result<Vec<Anchor>, committer::Refused> {
        let mut copy = self.committer.clone();
        // refused with 2 where nothing is started; so is the commit
        let _ = copy.gap_question();
        let mut buffer = vec![UNTOUCHED; LARGE];
        let short = match copy.commit(trigger, lists, &mut buffer) {
            Ok(count) => return Ok(records(&buffer, count)),
            Err(why) if why.refusal == Refusal::BadLists && (why.finished > 0 || lists.is_empty()) => why,
            Err(why) => return Err(why),
        };
        let mut handed = records(&buffer, short.finished);
        let rest = lists_told(&copy, trigger)?;
        let count = copy.commit(trigger, &rest, &mut buffer)?;
        handed.extend(records(&buffer, count));
        Ok(handed)
    }

    fn would_commit_in_turn(&self, commits: &[(PointId, Vec<u8>)]) -> (Vec<Made>, u64) {
        let mut copy = self.committer.clone();
        let commit = |(trigger, lists): &(PointId, Vec<u8>)| {
            let mut buffer = vec![UNTOUCHED; LARGE];
            (copy.commit(trigger, lists, &mut buffer), buffer)
        };
        let made = commits.iter().map(commit).collect();
        (made, fingerprint(&copy))
    }

    fn would_remove(&self, round: u32, since: Option<u32>, buffer: &mut [u8]) -> (Result<(), committer::Refused>, u64) {
        let mut copy = self.committer.clone();
        let given = copy.remove(round, since, buffer);
        (given, fingerprint(&copy))
    }

    fn smaller_buffers(&self, lists: &PlaceLists) -> Result<u64, String> {
        self.again(lists).map_or(Ok(0), |commit| commit.smaller_buffers())
    }

    fn damaged_lists(&self, lists: &PlaceLists) -> Result<u64, String> {
        self.again(lists).map_or(Ok(0), |commit| commit.damaged_lists(lists))
    }
}

impl Library {
    fn again(&self, lists: &PlaceLists) -> Option<Commit<'_>> {
        self.commit.as_ref().map(|(trigger, before)| Commit::new(trigger, lists, before, &self.committer))
    }
}

/// The place lists of all anchors that a commit hands out, nothing shuffled, as long as its outlook tells.
fn lists_told(committer: &Committer, trigger: &PointId) -> Result<Vec<u8>, committer::Refused> {
    let mut buffer = vec![UNTOUCHED; OUTLOOK_BYTES_MAX];
    let count = committer.outlook(trigger, &mut buffer)?;
    Ok(committer::lists_in_order(&looks(&buffer, count, committer.parts().1)))
}

/// The call, or the commit with the place lists of all its anchors on this committer, nothing shuffled; with none where its outlook is refused.
pub fn with_lists(committer: &Committer, call: &Call) -> Call {
    match call {
        Call::Commit(trigger, _) => Call::Commit(*trigger, lists_told(committer, trigger).unwrap_or_default()),
        _ => call.clone(),
    }
}

/// The records that a commit wrote.
pub fn records(buffer: &[u8], count: u32) -> Vec<Anchor> {
    anchors(buffer, count).expect("a commit writes whole records")
}

pub(crate) const LARGE: usize = committer::COMMIT_BYTES_MAX;
/// What is in a buffer before a call.
pub const UNTOUCHED: u8 = 0xa5;

fn fingerprint(committer: &Committer) -> u64 {
    let (tables, state) = committer.parts();
    let mut sum = Sum::new();
    for table in [&tables.keys, &tables.links, &tables.certs, &tables.order] {
        sum.words(table);
    }
    sum.bytes(&state.to_bytes());
    sum.total()
}

/// What it holds.
pub fn view(committer: &Committer) -> View {
    let memory = memory(&committer.memory());
    let Some(summary) = committer.summary() else {
        return View { memory, ..View::default() };
    };
    let state = State {
        bottom: summary.bottom,
        top: summary.top,
        last_committed_proof: summary.last_committed_proof,
        full_history_bottom: summary.full_history_bottom,
        first_executable: summary.first_executable,
        emit_first_after_gap: summary.emit_first_after_gap,
        rounds: (summary.rounds.iter())
            .map(|round| Round { round: round.round, peers: round.peers, used: round.used })
            .collect(),
    };
    View { state: Some(state), points: committer.points().iter().map(point).collect(), memory }
}

/// By peer: its points, and of the entries with its bit those of each previous digest, which rise.
fn memory(memory: &committer::Memory) -> Memory {
    let mut read = Memory { last: memory.last, ..Memory::default() };
    for entry in &memory.entries {
        let id = PointId { round: memory.last, author: entry.author, digest: entry.digest };
        read.peers.entry(entry.author).or_default().authored.push(id);
        let signers = (0..32).filter(|signer| entry.unreferenced_by >> signer & 1 == 1);
        if let Some(signed) = entry.previous {
            signers.for_each(|signer| {
                read.peers.entry(signer).or_default().signed.entry(signed).or_default().push(id);
            });
        }
    }
    read
}

fn answer(answer: committer::Answer) -> Answer {
    match answer {
        committer::Answer::Done => Answer::Done,
        committer::Answer::Said(yes) => Answer::Said(yes),
        committer::Answer::Handed(anchors) => Answer::Anchors(anchors),
        committer::Answer::Looked(looks) => Answer::Looked(looks),
        committer::Answer::Refused(why, finished) => Answer::Refused(refused(why, finished)),
        committer::Answer::Removed(told) => Answer::Removed(told),
    }
}

fn refused(why: committer::Refused, finished: Vec<Anchor>) -> Refused {
    let round = match why.refusal {
        committer::Refusal::Conflict { round } => round,
        _ => 0,
    };
    assert_eq!(why.finished as usize, finished.len(), "the records stand in the buffer");
    Refused { number: why.number(), round, finished }
}

fn point(point: &committer::Point) -> Point {
    let payload = point.status.map(|_| (point.payload_len, point.payload_bytes));
    Point { id: point.id, status: point.status.map_or(0, Status::number), word: point.cert, payload }
}

/// Four lanes, so that the products overlap: it is taken after every call.
struct Sum([u64; 4]);

impl Sum {
    fn new() -> Sum {
        Sum([1, 2, 3, 4])
    }

    fn words(&mut self, words: &[u64]) {
        let mut chunks = words.chunks_exact(4);
        for chunk in &mut chunks {
            for (lane, word) in self.0.iter_mut().zip(chunk) {
                *lane = mixed(*lane, *word);
            }
        }
        for word in chunks.remainder() {
            self.0[0] = mixed(self.0[0], *word);
        }
    }

    fn bytes(&mut self, bytes: &[u8]) {
        for chunk in bytes.chunks(8) {
            let mut word = [0; 8];
            word[..chunk.len()].copy_from_slice(chunk);
            self.0[0] = mixed(self.0[0], u64::from_le_bytes(word));
        }
    }

    fn total(self) -> u64 {
        self.0.into_iter().fold(0, mixed)
    }
}

/// One to one in either argument.
fn mixed(lane: u64, word: u64) -> u64 {
    (lane ^ word).wrapping_mul(0x9fb2_1c65_1e98_df25).rotate_left(29)
}
