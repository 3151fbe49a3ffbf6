//! All short lists over two peers and three rounds. README.md says what is enumerated.

use committer::{Call, Link, PointInfo, Start};

use super::{commit, link, point, valid};
use crate::compare::List;

/// Places of the tables; one less than the points that can be named, so that the table is full in some lists.
const PLACES: usize = 5;

/// The lists of all four families, one after the other.
pub fn shorts() -> impl Iterator<Item = List> {
    orders().chain(begun()).chain(bare()).chain(removing())
}

fn start(commit_history_rounds: u32) -> Call {
    Call::Start(Start {
        genesis: 10,
        commit_history_rounds,
        bottom: 10,
        peers: 0b11,
        used: Some(0),
        ..Start::default()
    })
}

fn round(round: u32) -> Call {
    Call::Round { round, peers: 0b11 }
}

fn resolve(round: u32, author: u32, number: u32, includes: Vec<Link>, witness: Vec<Link>) -> Call {
    let info = PointInfo { payload_len: number, payload_bytes: u32::MAX - number, ..valid(includes, witness) };
    Call::Resolve(point(round, author, number), info)
}

/// Four points are named: every order of resolving and certifying them, and of dropping below them. Lists of four letters, H 1 to 3.
fn orders() -> impl Iterator<Item = List> {
    let letters = vec![
        resolve(10, 0, 1, vec![], vec![]),
        resolve(11, 0, 2, vec![link(0, 1)], vec![]),
        resolve(11, 1, 3, vec![link(0, 1)], vec![]),
        resolve(12, 0, 4, vec![link(0, 2), link(1, 3)], vec![link(0, 1)]),
        Call::Certify(point(10, 0, 1)),
        Call::Certify(point(11, 0, 2)),
        Call::Certify(point(11, 1, 3)),
        Call::Certify(point(12, 0, 4)),
        Call::Drop(11),
        Call::Drop(12),
    ];
    (1..=3).flat_map(move |commit_history_rounds| {
        let mut prefix = vec![start(commit_history_rounds), round(11), round(12)];
        prefix.extend([(10, 0, 1), (11, 0, 2), (11, 1, 3), (12, 0, 4)].map(|(r, a, n)| Call::Name(point(r, a, n))));
        words(prefix, letters.clone(), 4)
    })
}

/// Calls of every kind. The point 3 is a twin of the point 2, by the other author.
fn letters() -> Vec<Call> {
    let proof = PointInfo { proof: true, top_proof: point(11, 0, 2), ..valid(vec![link(0, 1)], vec![]) };
    vec![
        start(2),
        Call::Reset,
        round(11),
        round(12),
        Call::Name(point(10, 0, 1)),
        Call::Name(point(11, 0, 2)),
        Call::Name(point(11, 1, 2)),
        resolve(10, 0, 1, vec![], vec![]),
        Call::Resolve(point(11, 0, 2), proof),
        Call::Certify(point(10, 0, 1)),
        Call::Certify(point(11, 0, 2)),
        Call::Drop(11),
        Call::Gap,
    ]
}

/// Lists of four letters after a start.
fn begun() -> impl Iterator<Item = List> {
    words(vec![start(1)], letters(), 4)
}

/// Lists of three letters from the beginning.
fn bare() -> impl Iterator<Item = List> {
    words(Vec::new(), letters(), 3)
}

/// Lists of four letters after the calls of entry 8 before its remove: two proofs of one previous point, an anchor in round 5. Removes
/// mostly, and what may come between them.
fn removing() -> impl Iterator<Item = List> {
    let with = Start { genesis: 1, commit_history_rounds: 1, bottom: 2, peers: 0b11, ..Start::default() };
    let mut prefix = vec![Call::Start(with)];
    prefix.extend((3..=7).map(round));
    let signed = PointInfo { evidence: 0b10, ..valid(vec![link(0, 1)], vec![]) };
    let proof = PointInfo { proof: true, top_proof: point(6, 0, 7), ..valid(vec![link(0, 6)], vec![]) };
    let trigger = PointInfo { trigger: true, ..valid(vec![link(0, 7)], vec![]) };
    let points = [
        (point(2, 0, 2), signed.clone()),
        (point(2, 0, 3), signed),
        (point(2, 1, 4), valid(vec![], vec![])),
        (point(3, 1, 5), valid(vec![], vec![])),
        (point(5, 0, 6), PointInfo { top_proof: point(1, 0, 9), payload_len: 5, ..valid(vec![], vec![]) }),
        (point(6, 0, 7), proof),
        (point(7, 0, 8), trigger),
    ];
    prefix.extend(points.into_iter().flat_map(|(id, info)| [Call::Name(id), Call::Resolve(id, info)]));
    prefix.extend([Call::Certify(point(5, 0, 6)), commit(point(7, 0, 8))]);
    let remove = |round, since| Call::Remove { round, since };
    let letters = vec![
        remove(3, Some(0)),
        remove(4, Some(0)),
        remove(5, Some(3)),
        remove(5, None),
        remove(6, Some(0)),
        Call::Drop(3),
        Call::Certify(point(3, 1, 5)),
        Call::Reset,
        Call::Start(Start { bottom: 3, ..with }),
        Call::Gap,
    ];
    words(prefix, letters, 4).map(|list| List { places: 7, ..list })
}

/// Every word of so many letters, after the prefix.
fn words(prefix: Vec<Call>, letters: Vec<Call>, length: u32) -> impl Iterator<Item = List> {
    let base = letters.len();
    (0..base.pow(length)).map(move |mut number| {
        let mut calls = prefix.clone();
        for _ in 0..length {
            calls.push(letters[number % base].clone());
            number /= base;
        }
        List { places: PLACES, calls, order: 1 }
    })
}
