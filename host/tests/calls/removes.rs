//! Removes: what is counted and reported of drained rounds, buffers, the inspector's memory, each refusal.

use committer::{
    Answer, Call, Committer, JournalDagEvent, Link, MempoolPeerCounters, PointId, PointInfo, REMOVE_BYTES_MAX, Removal,
    Start, Status, removal,
};

use crate::common::{assert_unchanged, buffer, digest, id, refuses};

fn link(&(peer, letter): &(u32, char)) -> Link {
    Link { peer, digest: digest(letter) }
}

fn of(status: Status) -> PointInfo {
    PointInfo { status: status.number(), ..PointInfo::default() }
}

fn valid() -> PointInfo {
    of(Status::Valid)
}

fn includes(links: &[(u32, char)]) -> PointInfo {
    PointInfo { includes: links.iter().map(link).collect(), ..valid() }
}

fn witness(links: &[(u32, char)]) -> PointInfo {
    PointInfo { witness: links.iter().map(link).collect(), ..valid() }
}

fn signed(evidence: u32, links: &[(u32, char)]) -> PointInfo {
    PointInfo { evidence, ..includes(links) }
}

type Points = Vec<(PointId, PointInfo)>;

/// Genesis 1, H 1, bottom 2.
fn start(peers: u32) -> Start {
    Start { genesis: 1, commit_history_rounds: 1, bottom: 2, peers, ..Start::default() }
}

fn rounds(with: &Start, top: u32) -> Vec<Call> {
    let above = (with.bottom + 1..=top).map(|round| Call::Round { round, peers: with.peers });
    std::iter::once(Call::Start(*with)).chain(above).collect()
}

fn put(calls: &mut Vec<Call>, id: PointId, info: PointInfo) {
    calls.extend([Call::Name(id), Call::Resolve(id, info)]);
}

/// An anchor by 0 without links, its proof and its trigger, one above the other, and the commit.
fn anchor(calls: &mut Vec<Call>, round: u32, letters: [char; 3], top_proof: PointId) {
    let [f, g, h] = letters;
    put(calls, id(round, 0, f), PointInfo { top_proof, ..valid() });
    let proof = id(round + 1, 0, g);
    put(calls, proof, PointInfo { proof: true, top_proof: proof, ..includes(&[(0, f)]) });
    put(calls, id(round + 2, 0, h), PointInfo { trigger: true, ..includes(&[(0, g)]) });
    calls.extend([Call::Certify(id(round, 0, f)), Call::Commit(id(round + 2, 0, h), vec![0])]);
}

const FGH: [char; 3] = ['f', 'g', 'h'];

/// These points, then an anchor in this round.
fn list(with: &Start, round: u32, points: Points) -> Vec<Call> {
    let mut calls = rounds(with, round + 2);
    points.into_iter().for_each(|(id, info)| put(&mut calls, id, info));
    anchor(&mut calls, round, FGH, id(1, 0, 'z'));
    calls
}

/// Two proofs b and c of one previous point that 1 signed and references neither by d nor by e.
fn two_proofs(d: PointInfo, e: PointInfo) -> Points {
    let proof = signed(0b10, &[(0, 'a')]);
    vec![(id(2, 0, 'b'), proof.clone()), (id(2, 0, 'c'), proof), (id(2, 1, 'd'), d), (id(3, 1, 'e'), e)]
}

pub fn board(calls: &[Call]) -> Committer {
    let mut committer = Committer::new(20);
    for call in calls {
        let answer = committer.call(call);
        assert!(!matches!(answer, Answer::Refused(..)), "{call:?}: {answer}");
    }
    committer
}

/// The lines of an answer, digests as letters.
fn lines(told: &Removal) -> Vec<String> {
    let letter = |word: &str| match word.rsplit_once('.') {
        _ if word.len() < 64 => word.into(),
        Some((before, digest)) => format!("{before}.{}", char::from(u8::from_str_radix(&digest[..2], 16).unwrap())),
        None => char::from(u8::from_str_radix(&word[..2], 16).unwrap()).to_string(),
    };
    told.to_string().lines().map(|line| line.split(' ').map(letter).collect::<Vec<_>>().join(" ")).collect()
}

/// The remove in every buffer: those too short change nothing, the others hold these lines in so many bytes.
fn removes(committer: &mut Committer, round: u32, since: Option<u32>, length: usize, expected: &[&str]) {
    for short in (0..length).filter(|short| *short < 6 || *short + 2 > length || short % 37 == 0) {
        refuses(committer, 21, |c| {
            let mut bytes = buffer(short);
            let given = c.remove(round, since, &mut bytes);
            assert_eq!(bytes, buffer(short), "a refused remove writes nothing");
            given
        });
    }
    let mut exact = committer.clone();
    let mut bytes = buffer(length + 3);
    assert_eq!(committer.remove(round, since, &mut bytes), Ok(()));
    let told = removal(&bytes).expect("a whole answer");
    assert_eq!(lines(&told), expected);
    assert_eq!(told.bytes(), length);
    assert_eq!(bytes[length..], buffer(3), "bytes beyond the answer were touched");
    let mut again = buffer(length);
    assert_eq!(exact.remove(round, since, &mut again), Ok(()));
    assert_eq!(again, bytes[..length]);
    assert_unchanged(&exact, committer);
}

const PEERS: [&str; 2] =
    ["peer 0 first 2 last 3 0 1 1 0 1 0 0 0 0 score 22", "peer 1 first 2 last 3 0 0 2 0 0 0 0 0 1 score 1"];
const FORK: &str = "event 4 0 2 b c";
const BLAME: &str = "event 5 1 2.1.d 3.1.e | 2.0.c";

/// The calls of entry 8 in docs/DIFFERENCES.md before its remove.
pub fn two_proofs_committed() -> Vec<Call> {
    list(&start(0b11), 5, two_proofs(valid(), valid()))
}

#[test]
fn an_anchor_is_asked_for() {
    let with = Start { genesis: 10, bottom: 10, used: Some(0), ..start(0b1) };
    let mut calls = rounds(&with, 13);
    anchor(&mut calls, 11, ['a', 'b', 'c'], id(10, 0, 'z'));
    let commit = calls.pop().expect("the commit");
    let mut committer = board(&calls);
    for length in [0, 5, 100] {
        refuses(&mut committer, 23, |c| c.remove(11, None, &mut buffer(length)));
        refuses(&mut committer, 23, |c| c.remove(0, Some(0), &mut buffer(length)));
    }
    assert!(matches!(committer.call(&commit), Answer::Handed(_)));
    for round in [12, 13, u32::MAX] {
        refuses(&mut committer, 23, |c| c.remove(round, None, &mut []));
    }
    let before = committer.clone();
    for (round, since) in [(11, None), (11, Some(0)), (10, Some(10)), (1, None), (0, Some(0))] {
        removes(&mut committer, round, since, 5, &[]);
        assert_unchanged(&committer, &before);
    }
}

#[test]
fn two_proofs_of_one_previous_point() {
    let before = board(&two_proofs_committed());
    let all = [PEERS[0], PEERS[1], FORK, BLAME];
    removes(&mut before.clone(), 5, Some(0), 262, &all);
    removes(&mut before.clone(), 5, None, 200, &[FORK, BLAME]);
    let peers = ["peer 0 first 3 last 3 0 1 0 0 0 0 0 0 0 score 2", "peer 1 first 3 last 3 0 0 1 0 0 0 0 0 1 score 1"];
    removes(&mut before.clone(), 5, Some(3), 262, &[peers[0], peers[1], FORK, BLAME]);
    removes(&mut before.clone(), 5, Some(4), 200, &[FORK, BLAME]);
}

#[test]
fn rounds_are_drained() {
    let mut committer = board(&two_proofs_committed());
    let before = committer.summary().unwrap();
    removes(&mut committer, 5, None, 200, &[FORK, BLAME]);
    let after = committer.summary().unwrap();
    assert_eq!((before.bottom, after.bottom, after.rounds.len()), (2, 4, 4));
    assert_eq!(
        (after.last_anchor, after.last_committed_proof, after.full_history_bottom, after.first_executable),
        (before.last_anchor, before.last_committed_proof, before.full_history_bottom, before.first_executable)
    );
    let left: Vec<PointId> = committer.points().iter().map(|point| point.id).collect();
    assert_eq!(left, [id(5, 0, 'f'), id(6, 0, 'g'), id(7, 0, 'h')]);
    // the next round is empty, and so is its memory
    let memory = committer.memory();
    assert_eq!((memory.last, memory.entries.len()), (3, 1));
    removes(&mut committer, 5, Some(0), 5, &[]);
}

/// In two steps: the second meets the state's memory.
#[test]
fn the_memory_of_the_state() {
    let mut committer = board(&two_proofs_committed());
    let round = "first 2 last 2";
    let peers =
        [format!("peer 0 {round} 0 0 1 0 1 0 0 0 0 score 20"), format!("peer 1 {round} 0 0 1 0 0 0 0 0 0 score 0")];
    removes(&mut committer, 4, Some(0), 141, &[&peers[0], &peers[1], FORK]);
    let memory = committer.memory();
    assert_eq!(memory.last, 2);
    let kept: Vec<_> = memory.entries.iter().map(|e| (e.author, e.digest, e.previous, e.unreferenced_by)).collect();
    let proof = |letter| (0, digest(letter), Some(digest('a')), 0b10);
    assert_eq!(kept, [proof('b'), proof('c'), (1, digest('d'), None, 0)]);
    let peers = ["peer 0 first 3 last 3 0 1 0 0 0 0 0 0 0 score 2", "peer 1 first 3 last 3 0 0 1 0 0 0 0 0 1 score 1"];
    removes(&mut committer.clone(), 5, Some(0), 188, &[peers[0], peers[1], BLAME]);

    // after a reset, and a start at the round above the memory's or further up
    for (bottom, blamed) in [(3, true), (4, false)] {
        let mut again = committer.clone();
        again.reset().unwrap();
        let mut calls = rounds(&Start { bottom, ..start(0b11) }, bottom + 4);
        put(&mut calls, id(bottom, 1, 'e'), valid());
        anchor(&mut calls, bottom + 2, FGH, id(1, 0, 'z'));
        for call in &calls {
            assert!(!matches!(again.call(call), Answer::Refused(..)), "{call:?}");
        }
        let of = format!("first {bottom} last {bottom} 0");
        let one = u32::from(blamed);
        let peers =
            [format!("peer 0 {of} 1 0 0 0 0 0 0 0 score 2"), format!("peer 1 {of} 0 1 0 0 0 0 0 {one} score {one}")];
        let mut expected = vec![peers[0].as_str(), &peers[1]];
        expected.extend(blamed.then_some(BLAME));
        removes(&mut again, bottom + 2, Some(0), if blamed { 188 } else { 67 }, &expected);
    }
}

/// Below the bottom links aren't tested, so the peer that a link stands under is no matter.
#[test]
fn references_to_what_was_signed() {
    for peer in [0, 1] {
        let a = [(peer, 'a')];
        for (d, e) in [(valid(), witness(&a)), (includes(&a), valid())] {
            let mut committer = board(&list(&start(0b11), 5, two_proofs(d, e)));
            let peers = [PEERS[0], "peer 1 first 2 last 3 0 0 2 0 0 0 0 0 0 score 0"];
            removes(&mut committer, 5, Some(0), 141, &[peers[0], peers[1], FORK]);
        }
    }
}

/// Genesis isn't reported: it refills the memory.
#[test]
fn the_last_round_that_is_not_executable() {
    let with = Start { genesis: 2, ..start(0b11) };
    let mut committer = board(&list(&with, 5, two_proofs(valid(), valid())));
    let peers = ["peer 0 first 3 last 3 0 1 0 0 0 0 0 0 0 score 2", "peer 1 first 3 last 3 0 0 1 0 0 0 0 0 1 score 1"];
    removes(&mut committer, 5, Some(0), 188, &[peers[0], peers[1], BLAME]);
}

/// Every status by 0, a point of 1 that isn't resolved; certified or not.
#[test]
fn points_of_every_status() {
    let cause = |status| PointInfo { cause: true, ..of(status) };
    let points = [
        (id(2, 0, 'b'), cause(Status::TransInvalid)),
        (id(2, 0, 'c'), cause(Status::Invalid)),
        (id(2, 0, 'd'), of(Status::IllFormed)),
        (id(2, 0, 'e'), of(Status::NotFound)),
    ];
    let named = id(2, 1, 'i');
    let fork = "event 4 0 2 b c d";
    let skipped = "peer 1 first 2 last 2 0 1 0 0 0 0 0 0 0 score 2";
    let mut calls = list(&start(0b11), 5, points.to_vec());
    calls.push(Call::Name(named));
    let mut committer = board(&calls);
    let faults = ["event 1 2.0.b", "event 2 2.0.c", "event 3 2.0.d", fork];
    let peer = "peer 0 first 2 last 2 0 0 0 0 2 1 1 1 0 score 65";
    removes(&mut committer.clone(), 4, Some(0), 287, &[&[peer, skipped][..], &faults].concat());
    for id in points.iter().map(|(id, _)| id).chain([&named]) {
        committer.certify(id).unwrap();
    }
    let peer = "peer 0 first 2 last 2 0 0 0 4 2 0 0 0 0 score 40";
    removes(&mut committer, 4, Some(0), 173, &[peer, skipped, fork]);
    // without a cause that has a DAG round
    let points = [Status::TransInvalid, Status::Invalid].map(of).into_iter().zip(['b', 'c']);
    let mut committer = board(&list(&start(0b11), 5, points.map(|(info, letter)| (id(2, 0, letter), info)).collect()));
    let peer = "peer 0 first 2 last 2 0 0 0 0 1 0 0 0 0 score 20";
    removes(&mut committer, 4, Some(0), 141, &[peer, skipped, FORK]);
}

/// The previous point stands in a retained round.
fn retained(c: PointInfo, e: PointInfo, more: Points) -> Committer {
    let mut points = vec![
        (id(3, 0, 'a'), valid()),
        (id(4, 0, 'b'), signed(0b11, &[(0, 'a')])),
        (id(4, 1, 'c'), c),
        (id(5, 1, 'e'), e),
    ];
    points.extend(more);
    board(&list(&start(0b11), 7, points))
}

#[test]
fn links_into_retained_rounds() {
    let peer_0 = "peer 0 first 4 last 5 0 1 1 0 0 0 0 0 0 score 2";
    let peer_1 = |equivocated: u32, references: u32| {
        let score = 20 * equivocated + references;
        format!("peer 1 first 4 last 5 0 0 2 0 {equivocated} 0 0 0 {references} score {score}")
    };
    let blame = "event 5 1 4.1.c 5.1.e | 4.0.b";
    let fork = "event 4 1 4 c d";
    let since = Some(4);
    removes(&mut retained(valid(), valid(), vec![]), 7, since, 188, &[peer_0, &peer_1(0, 1), blame]);
    let a = [(0, 'a')];
    for (c, e) in [(includes(&a), valid()), (valid(), witness(&a))] {
        removes(&mut retained(c, e, vec![]), 7, since, 67, &[peer_0, &peer_1(0, 0)]);
    }
    let second = |status| vec![(id(4, 1, 'd'), PointInfo { status, ..includes(&a) })];
    removes(&mut retained(valid(), valid(), second(1)), 7, since, 141, &[peer_0, &peer_1(1, 0), fork]);
    removes(&mut retained(valid(), valid(), second(3)), 7, since, 262, &[peer_0, &peer_1(1, 1), fork, blame]);
}

/// Leaders, proved points, rounds without a point.
#[test]
fn counters_over_several_rounds() {
    let mut calls = rounds(&start(0b11), 12);
    anchor(&mut calls, 5, FGH, id(1, 0, 'z'));
    anchor(&mut calls, 10, ['k', 'l', 'm'], id(6, 0, 'g'));
    let peers = ["peer 0 first 4 last 8 1 2 3 1 0 0 0 0 0 score 4", "peer 1 first 4 last 8 0 5 0 0 0 0 0 0 0 score 10"];
    removes(&mut board(&calls), 10, Some(4), 67, &peers);
    // K10
    let points = ['a', 'b', 'c'].map(|letter| (id(2, 0, letter), valid())).to_vec();
    let mut committer = board(&list(&start(0b1), 14, points));
    let peer = "peer 0 first 2 last 12 0 10 1 0 2 0 0 0 0 score 70";
    removes(&mut committer, 14, Some(0), 1 + 31 + 4 + 10 + 3 * 32, &[peer, "event 4 0 2 a b c"]);
}

/// A peer is counted in the rounds of which it is one.
#[test]
fn peers_that_come_and_go() {
    let mut calls = rounds(&start(0b01), 2);
    for (round, peers) in (3..=9).zip([0b11, 0b10, 0b111, 0b1, 1, 1, 1]) {
        calls.push(Call::Round { round, peers });
    }
    anchor(&mut calls, 7, FGH, id(1, 0, 'z'));
    let peers = [
        "peer 0 first 2 last 5 0 3 0 0 0 0 0 0 0 score 6",
        "peer 1 first 3 last 5 0 3 0 0 0 0 0 0 0 score 6",
        "peer 2 first 5 last 5 0 1 0 0 0 0 0 0 0 score 2",
    ];
    removes(&mut board(&calls), 7, Some(0), 5 + 3 * 31, &peers);
}

/// What no call left counts as not started.
#[test]
fn not_started() {
    refuses(&mut Committer::new(4), 2, |c| c.remove(1, None, &mut buffer(5)));
    let mut committer = board(&two_proofs_committed());
    committer.remove(4, Some(0), &mut buffer(141)).unwrap();
    assert_eq!(committer.memory().entries.len(), 3);
    let breaks: [fn(&mut Committer); 4] = [
        |c| c.parts_mut().1.memory.entries[1].digest = c.parts().1.memory.entries[0].digest,
        |c| c.parts_mut().1.memory.entries.swap(1, 2),
        |c| c.parts_mut().1.memory.entries[2].author = 32,
        |c| c.parts_mut().1.memory.count = 129,
    ];
    for break_memory in breaks {
        let mut broken = committer.clone();
        break_memory(&mut broken);
        refuses(&mut broken, 2, |c| c.gap_question());
        refuses(&mut broken, 2, |c| c.remove(5, Some(0), &mut buffer(300)));
        refuses(&mut broken, 2, |c| c.remove(5, Some(0), &mut []));
        refuses(&mut broken, 2, |c| c.reset());
        broken.start(&start(0b11)).unwrap();
        assert_eq!((broken.memory().last, broken.memory().entries.len()), (0, 0));
    }
    let (tables, _) = committer.parts_mut();
    tables.certs[tables.order[0] as usize] ^= 1;
    refuses(&mut committer, 2, |c| c.remove(5, Some(0), &mut buffer(300)));
    refuses(&mut committer, 2, |c| c.remove(50, None, &mut []));
}

#[test]
fn made_up_states() {
    // a last anchor above the top: the top stays
    let mut committer = board(&two_proofs_committed());
    committer.parts_mut().1.last_anchor = u32::MAX;
    let mut bytes = buffer(REMOVE_BYTES_MAX);
    assert_eq!(committer.remove(u32::MAX - 1, None, &mut bytes), Ok(()));
    let summary = committer.summary().unwrap();
    assert_eq!((summary.bottom, summary.top, committer.points().len()), (7, 7, 1));
    assert_eq!(lines(&removal(&bytes).unwrap()), [FORK, BLAME]);

    // bits without a previous digest; another last round
    let mut committer = board(&two_proofs_committed());
    committer.remove(4, Some(0), &mut bytes).unwrap();
    let changes: [fn(&mut committer::sys::Memory); 2] =
        [|m| m.entries.iter_mut().for_each(|e| (e.has_previous, e.unreferenced_by) = (0, u32::MAX)), |m| m.last = 1];
    for change in changes {
        let mut changed = committer.clone();
        change(&mut changed.parts_mut().1.memory);
        assert!(changed.is_started());
        removes(&mut changed, 5, None, 5, &[]);
    }
}

/// An answer in the bytes of the header, and bytes that end before.
#[test]
fn bytes_of_an_answer() {
    let mut bytes = buffer(262);
    board(&two_proofs_committed()).remove(5, Some(0), &mut bytes).unwrap();
    let id = |id: PointId| [&id.round.to_be_bytes()[..], &[id.author as u8], &id.digest].concat();
    let expected = [
        &[2, 0, 0, 0, 0, 2, 0, 0, 0, 3, 0, 0, 0, 1, 0, 1, 0, 0, 0, 1, 0, 0, 0, 0, 0, 0, 0, 0, 0, 0, 0, 22][..],
        &[1, 0, 0, 0, 2, 0, 0, 0, 3, 0, 0, 0, 0, 0, 2, 0, 0, 0, 0, 0, 0, 0, 0, 0, 0, 0, 1, 0, 0, 0, 1],
        &[0, 0, 0, 2, 4, 0, 0, 0, 0, 2, 0, 0, 0, 2],
        &digest('b'),
        &digest('c'),
        &[5, 1, 0, 0, 0, 2],
        &id(self::id(2, 1, 'd')),
        &id(self::id(3, 1, 'e')),
        &[0, 0, 0, 1],
        &id(self::id(2, 0, 'c')),
    ]
    .concat();
    assert_eq!(bytes, expected);
    let told = removal(&bytes).unwrap();
    assert_eq!(told.events[1].kind(), 5);
    for length in 0..bytes.len() {
        assert_eq!(removal(&bytes[..length]), None, "cut to {length}");
    }
    bytes[67] = 6;
    assert_eq!(removal(&bytes), None);
    let single = [&[0, 0, 0, 0, 1, 3][..], &id(self::id(2, 0, 'c'))].concat();
    let events = vec![JournalDagEvent::IllFormed(self::id(2, 0, 'c'))];
    assert_eq!(removal(&single), Some(Removal { peers: vec![], events }));
}

#[test]
fn counters_are_merged() {
    let of = |counts: [u16; 9]| MempoolPeerCounters::of(counts);
    let mut counters = of([0, 1, 2, 3, 65_535, 65_530, 65_535, 0, 40_000]);
    counters.merge(of([65_535, 0, 7, 40, 0, 5, 65_535, 0, 40_000]));
    assert_eq!(counters.list(), [65_535, 1, 9, 43, 65_535, 65_535, 65_535, 0, 65_535]);
}
