//! Short forms for lists of calls.
#![allow(dead_code)]

use oracle::{Anchor, CommitAnswer, Id, Info, Link, Oracle, Outcome, PointState, Start};

pub const TOP: u16 = 0x8000;
/// started and completed
pub const INIT: u16 = 0x6000;
pub const COMMITTED: u16 = 0x1000;

/// The point of a round by an author, its digest told by a letter.
pub fn p(round: u32, author: u8, letter: char) -> Id {
    Id { round, author, digest: digest(letter) }
}

pub fn digest(letter: char) -> [u8; 32] {
    let mut bytes = [0; 32];
    bytes[0] = letter as u8;
    bytes
}

pub fn start(genesis: u32, commit_history_rounds: u32, deduplicate_rounds: u32, bottom: u32) -> Start {
    Start { genesis, commit_history_rounds, deduplicate_rounds, bottom, peers: 0b11, after_gap: false, used: None }
}

pub fn started(start: &Start, top: u32) -> Oracle {
    let mut oracle = Oracle::new();
    oracle.start(start).done();
    for round in start.bottom + 1..=top {
        oracle.round(round, start.peers).done();
    }
    oracle
}

pub fn status(status: u8) -> Info {
    Info {
        status,
        proof: false,
        trigger: false,
        cause: false,
        top_proof: p(0, 0, 'z'),
        evidence: 0,
        includes: Vec::new(),
        witness: Vec::new(),
        payload_len: 0,
        payload_bytes: 0,
    }
}

pub fn valid() -> Info {
    status(1)
}

pub fn with(mut info: Info, change: impl FnOnce(&mut Info)) -> Info {
    change(&mut info);
    info
}

pub fn includes(mut info: Info, links: &[(u8, char)]) -> Info {
    info.includes = links.iter().map(|&(peer, letter)| Link { peer, digest: digest(letter) }).collect();
    info
}

pub fn witness(mut info: Info, links: &[(u8, char)]) -> Info {
    info.witness = links.iter().map(|&(peer, letter)| Link { peer, digest: digest(letter) }).collect();
    info
}

pub fn payload(mut info: Info, len: u32, bytes: u32) -> Info {
    (info.payload_len, info.payload_bytes) = (len, bytes);
    info
}

/// Names and resolves; the top proof of a proof is itself.
pub fn add(oracle: &mut Oracle, id: Id, mut info: Info) {
    if info.proof {
        info.top_proof = id;
    }
    oracle.name(&id).done();
    oracle.resolve(&id, &info).done();
}

pub fn anchor(top_proof: Id, links: &[(u8, char)]) -> Info {
    includes(with(valid(), |info| info.top_proof = top_proof), links)
}

pub fn proof(links: &[(u8, char)]) -> Info {
    includes(with(valid(), |info| info.proof = true), links)
}

pub fn trigger(links: &[(u8, char)]) -> Info {
    includes(with(valid(), |info| info.trigger = true), links)
}

pub fn anchors(outcome: Outcome<CommitAnswer>) -> Vec<Anchor> {
    match outcome.done() {
        CommitAnswer::Anchors(anchors) => anchors,
        CommitAnswer::HistoryConflict(round) => panic!("history conflict at {round}"),
    }
}

pub fn word(oracle: &Oracle, id: Id) -> u16 {
    state(oracle, id).word
}

pub fn state(oracle: &Oracle, id: Id) -> PointState {
    *oracle.points().iter().find(|point| point.id == id).expect("the point is held")
}

pub fn panics<T: std::fmt::Debug>(outcome: Outcome<T>, part: &str) {
    match outcome {
        Outcome::Panicked(message) => assert!(message.contains(part), "{message}"),
        other => panic!("expected a panic with '{part}', got {other:?}"),
    }
}

/// List A of DIFFERENCES.md, without its commit.
pub fn list_a(after_gap: bool) -> Oracle {
    let start = Start { peers: 0b1, after_gap, used: Some(0), ..start(10, 1, 0, 10) };
    let mut oracle = started(&start, 13);
    add(&mut oracle, p(11, 0, 'a'), anchor(p(10, 0, 'z'), &[]));
    add(&mut oracle, p(12, 0, 'b'), proof(&[(0, 'a')]));
    add(&mut oracle, p(13, 0, 'c'), trigger(&[(0, 'b')]));
    oracle
}
