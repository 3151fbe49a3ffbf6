//! Points and committers that the tests share.

use committer::sys::Memory;
use committer::{
    Anchor, Answer, Call, CommitSizes, Committer, Link, Look, OUTLOOK_BYTES_MAX, PointId, PointInfo, Refusal, Refused,
    Start, Status, anchors, lists_in_order, looks,
};

use crate::model::Model;

/// Genesis 10, H 2, bottom 10, all 32 peers.
pub fn beginning() -> Start {
    Start { genesis: 10, commit_history_rounds: 2, bottom: 10, peers: u32::MAX, ..Start::default() }
}

/// A started committer with the rounds up to `top`, all 32 peers in each.
pub fn started(places: usize, with: &Start, top: u32) -> Committer {
    let mut committer = Committer::new(places);
    committer.start(with).expect("a start of zeroed tables");
    for round in with.bottom + 1..=top {
        committer.round(round, u32::MAX).expect("the round above the top");
    }
    committer
}

/// Gives the memory `count` entries that rise by digest; each word of the digests decides somewhere.
pub fn fill_memory(memory: &mut Memory, count: usize) {
    memory.last = 9;
    memory.count = count;
    for (i, entry) in memory.entries.iter_mut().enumerate() {
        entry.author = i as u32 % 32;
        entry.digest = [i / 64, i / 16 % 4, i / 4 % 4, i % 4].map(|word| word as u64);
        entry.unreferenced_by = 77;
    }
}

/// The id of an author's version in a round. Which word of the digest holds the author, and which the version, goes by
/// the round, so that all four words are compared somewhere.
pub fn version(round: u32, author: u32, version: u32) -> PointId {
    let mut digest = [0; 32];
    digest[1..5].copy_from_slice(&round.to_be_bytes());
    digest[round as usize % 4 * 8] = author as u8;
    digest[round as usize / 4 % 4 * 8 + 7] = version as u8;
    PointId { round, author, digest }
}

pub fn point(round: u32, author: u32) -> PointId {
    version(round, author, 0)
}

/// A digest told by a letter.
pub fn digest(letter: char) -> [u8; 32] {
    let mut digest = [0; 32];
    digest[0] = letter as u8;
    digest
}

pub fn id(round: u32, author: u32, letter: char) -> PointId {
    PointId { round, author, digest: digest(letter) }
}

/// As it stands in a record.
pub fn id_bytes(id: &PointId) -> Vec<u8> {
    [&id.round.to_be_bytes()[..], &[id.author as u8], &id.digest].concat()
}

pub fn link(to: &PointId) -> Link {
    Link { peer: to.author, digest: to.digest }
}

/// A valid point's resolution.
pub fn valid(includes: &[PointId], witness: &[PointId]) -> PointInfo {
    PointInfo {
        status: Status::Valid.number(),
        includes: includes.iter().map(link).collect(),
        witness: witness.iter().map(link).collect(),
        ..PointInfo::default()
    }
}

/// The resolution with these payload numbers.
pub fn paid(info: PointInfo, (payload_len, payload_bytes): (u32, u32)) -> PointInfo {
    PointInfo { payload_len, payload_bytes, ..info }
}

/// Names a point and resolves it as valid.
pub fn add(committer: &mut Committer, id: &PointId, includes: &[PointId], witness: &[PointId]) {
    committer.name(id).expect("a new point");
    committer.resolve(id, &valid(includes, witness)).expect("a named point");
}

/// The height of a point of the tables.
pub fn height(committer: &Committer, id: &PointId) -> u16 {
    let points = committer.points();
    points.iter().find(|point| point.id == *id).expect("a named point").height()
}

/// The call is refused with the number and leaves state and tables as they were.
pub fn refuses<T: std::fmt::Debug>(
    committer: &mut Committer,
    number: u32,
    call: impl FnOnce(&mut Committer) -> Result<T, Refused>,
) {
    let before = committer.clone();
    let refused = call(committer).expect_err(&format!("should be refused with {number}"));
    assert_eq!(refused.number(), number);
    assert_eq!(refused.finished, 0);
    assert_unchanged(committer, &before);
}

/// Apart, because a difference of two full tables is too long to print.
pub fn assert_unchanged(committer: &Committer, before: &Committer) {
    let (tables, state) = committer.parts();
    let (tables_before, state_before) = before.parts();
    assert!(state == state_before, "the state changed");
    assert!(tables.keys == tables_before.keys, "the keys changed");
    assert!(tables.links == tables_before.links, "the links changed");
    assert!(tables.certs == tables_before.certs, "the certificate words changed");
    assert!(tables.order == tables_before.order, "the order changed");
}

/// A buffer whose untouched bytes can be told.
pub fn buffer(length: usize) -> Vec<u8> {
    vec![0xa5; length]
}

/// So many records that a commit on this committer wrote, from the first byte on. What they tell of links is compared with
/// the links that their points were resolved with.
pub fn handed(committer: &Committer, bytes: &[u8], count: u32) -> Vec<Anchor> {
    let records = anchors(bytes, count).expect("whole records");
    let model = Model::of(committer);
    for record in &records {
        assert_eq!(record.links, model.links_behind(record));
    }
    records
}

/// Right lists for all anchors that a commit of this trigger finishes: those that leave each round by rising digest.
pub fn lists(committer: &Committer, trigger: &PointId) -> Vec<u8> {
    lists_in_order(&Model::of(committer).looks(trigger))
}

/// The outlook of a trigger is what a commit with right lists would do, once the gap question is put: the same anchors
/// with as many points, and lists and records of just the sizes told; or the same refusal. It changes nothing, and
/// writes only if it isn't refused. The commit's records are the model's.
pub fn assert_outlook(committer: &Committer, trigger: &PointId) {
    let mut bytes = buffer(OUTLOOK_BYTES_MAX);
    let before = committer.clone();
    let told = committer.outlook(trigger, &mut bytes);
    assert_unchanged(committer, &before);
    let mut copy = before.clone();
    // refused with 2 if nothing is started, as commit and outlook are
    let _ = copy.gap_question();
    let asked = copy.clone();
    let expected = Model::of(committer).looks(trigger);
    let lists = lists_in_order(&expected);
    let due = Model::of(&copy).call(&Call::Commit(*trigger, lists.clone()));
    let mut records = buffer(committer::COMMIT_BYTES_MAX);
    match copy.commit(trigger, &lists, &mut records) {
        Ok(count) => {
            assert_eq!(told, Ok(count));
            let (looks, anchors) = (looks(&bytes, count, committer.parts().1), handed(&copy, &records, count));
            assert_eq!(due, Answer::Handed(anchors.clone()));
            assert_eq!(looks, expected);
            assert_told(&looks, &anchors);
            assert_outlook_buffers(committer, trigger, &bytes, &looks);
            assert_sizes(&asked, trigger, &looks, &lists, &copy);
        }
        Err(why) => {
            assert_eq!(told, Err(Refused { finished: 0, ..why }));
            assert_eq!(due, Answer::Refused(why, handed(&copy, &records, why.finished)));
            assert_eq!(bytes, buffer(OUTLOOK_BYTES_MAX));
        }
    }
    assert_unchanged(committer, &before);
}

/// The outlook told the anchors that were handed out, each with as many points.
pub fn assert_told(looks: &[Look], anchors: &[Anchor]) {
    let told: Vec<(PointId, usize)> = looks.iter().map(|look| (look.anchor, look.points as usize)).collect();
    let handed: Vec<(PointId, usize)> = anchors.iter().map(|anchor| (anchor.anchor, anchor.points.len())).collect();
    assert_eq!(told, handed);
}

/// A commit with right lists into a buffer, both of just the sizes that the outlook tells, leaves this. With one byte
/// less of the buffer it is 21 at the last anchor, with one byte less of the lists 24; the records before it stand.
pub fn assert_sizes(committer: &Committer, trigger: &PointId, looks: &[Look], lists: &[u8], after: &Committer) {
    let sizes = CommitSizes::of(looks);
    let mut copy = committer.clone();
    let mut whole = buffer(sizes.records);
    assert_eq!(lists.len(), sizes.lists);
    assert_eq!(copy.commit(trigger, lists, &mut whole), Ok(looks.len() as u32));
    assert_unchanged(&copy, after);
    let anchors = handed(&copy, &whole, looks.len() as u32);
    assert_told(looks, &anchors);
    assert_eq!(anchors.iter().map(|anchor| anchor.points.len()).sum::<usize>(), sizes.points);
    let Some((last, before)) = anchors.split_last() else {
        assert_eq!(sizes, CommitSizes::default());
        return;
    };
    let (begin, finished) = (sizes.records - last.bytes(), before.len() as u32);
    let short = [
        (Refusal::NoRoom, lists, sizes.records - 1),
        (Refusal::BadLists, &lists[..sizes.lists - 1], sizes.records),
        (Refusal::BadLists, &lists[..sizes.lists - 1], sizes.records - 1),
    ];
    for (refusal, lists, room) in short {
        let mut copy = committer.clone();
        let mut bytes = buffer(room);
        assert_eq!(copy.commit(trigger, lists, &mut bytes), Err(Refused { refusal, finished }));
        assert_eq!(bytes[..begin], whole[..begin]);
        assert!(bytes[begin..].iter().all(|byte| *byte == 0xa5), "bytes beyond the records were touched");
        if finished == 0 {
            assert_unchanged(&copy, committer);
        }
    }
}

/// Just as many bytes as are needed will do; with one less, or none, it is 21 and no byte is written.
fn assert_outlook_buffers(committer: &Committer, trigger: &PointId, whole: &[u8], told: &[Look]) {
    let length = told.iter().map(Look::bytes).sum::<usize>();
    assert!(whole[length..].iter().all(|byte| *byte == 0xa5), "bytes beyond the outlook were touched");
    let mut bytes = buffer(length);
    assert_eq!(committer.outlook(trigger, &mut bytes), Ok(told.len() as u32));
    assert_eq!(bytes, whole[..length]);
    if let Some(last) = told.last() {
        for short in [length - 1, length - last.bytes(), 0] {
            let mut bytes = buffer(short);
            let due = Refused { refusal: Refusal::NoRoom, finished: 0 };
            assert_eq!(committer.outlook(trigger, &mut bytes), Err(due));
            assert_eq!(bytes, buffer(short));
        }
    }
}

/// Numbers from a seed: xorshift with 64 bits.
pub struct Noise(u64);

impl Noise {
    pub fn new(seed: u64) -> Noise {
        Noise(seed.wrapping_mul(0x9e37_79b9_7f4a_7c15) | 1)
    }

    pub fn word(&mut self) -> u64 {
        self.0 ^= self.0 << 13;
        self.0 ^= self.0 >> 7;
        self.0 ^= self.0 << 17;
        self.0
    }

    /// A number below n.
    pub fn below(&mut self, n: u32) -> u32 {
        (((self.word() >> 32) * u64::from(n)) >> 32) as u32
    }

    /// Yes in one of n cases.
    pub fn one_in(&mut self, n: u32) -> bool {
        self.below(n) == 0
    }

    /// The places below n in any order.
    pub fn shuffled(&mut self, n: u32) -> Vec<u8> {
        let mut list: Vec<u8> = (0..n as u8).collect();
        for last in (1..n).rev() {
            list.swap(last as usize, self.below(last + 1) as usize);
        }
        list
    }

    pub fn fill(&mut self, words: &mut [u64]) {
        words.fill_with(|| self.word());
    }
}
