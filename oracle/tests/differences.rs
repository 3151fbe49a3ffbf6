//! The Rust's side of docs/DIFFERENCES.md, by its entries and by the numbers of its table of refusals. Not shown: entry
//! 6 (order.rs shows the order), entry 14 and what the Rust has no call for.

mod common;

use std::collections::BTreeSet;

use common::*;
use oracle::{CommitAnswer, Event, Oracle, Outcome, Start, set_hash_seed, set_shuffle_order};

/// Peer 0 alone, genesis 10, H 1.
fn small(used: Option<u8>) -> Start {
    Start { peers: 0b1, used, ..start(10, 1, 0, 10) }
}

fn conflict(round: u32) -> Outcome<CommitAnswer> {
    Outcome::Done(CommitAnswer::HistoryConflict(round))
}

#[test]
fn entry_1_trigger_turned_away() {
    let mut oracle = started(&start(10, 2, 5, 10), 10);
    add(&mut oracle, p(10, 0, 'a'), status(3));
    assert_eq!(anchors(oracle.commit(&p(10, 0, 'a'))), []);
}

#[test]
fn entry_2_not_started() {
    assert_eq!(Oracle::new().reset(), Outcome::Done(()));
    assert_eq!(Oracle::new().gap_question(), Outcome::Done(false));
    let empty = "DAG cannot be empty";
    panics(Oracle::new().round(1, 1), empty);
    panics(Oracle::new().drop_upto(1), empty);
    panics(Oracle::new().remove(1, None), empty);
    panics(Oracle::new().commit(&p(1, 0, 'a')), empty);
}

#[test]
fn entry_3_drop_forgets_the_last_proof() {
    let mut oracle = list_a(false);
    oracle.certify(&p(11, 0, 'a')).done();
    oracle.commit(&p(13, 0, 'c')).done();
    assert_eq!(oracle.state().last_committed_proof, Some(12));
    oracle.drop_upto(13).done();
    assert_eq!(oracle.state().last_committed_proof, None);
}

#[test]
fn entry_4_anchors_before_a_conflict_are_lost() {
    let mut oracle = started(&Start { used: Some(0), ..start(10, 2, 5, 10) }, 14);
    add(&mut oracle, p(11, 0, 'a'), anchor(p(10, 0, 'z'), &[]));
    add(&mut oracle, p(11, 1, 'b'), status(3));
    add(&mut oracle, p(12, 0, 'c'), proof(&[(0, 'a'), (1, 'b')]));
    add(&mut oracle, p(13, 0, 'd'), proof(&[(0, 'c')]));
    add(&mut oracle, p(14, 0, 'e'), trigger(&[(0, 'd')]));
    oracle.certify(&p(12, 0, 'c')).done();
    assert_eq!(oracle.commit(&p(14, 0, 'e')), conflict(11));
    assert_eq!(word(&oracle, p(11, 0, 'a')) & COMMITTED, COMMITTED);
    assert_eq!(oracle.state().last_committed_proof, Some(12));
    // and it is met again: the first anchor is never handed out
    assert_eq!(oracle.commit(&p(14, 0, 'e')), conflict(11));
}

fn two_faults(first: char, second: char) -> Outcome<CommitAnswer> {
    let mut oracle = started(&Start { used: Some(0), ..start(10, 2, 5, 10) }, 14);
    add(&mut oracle, p(11, 0, first), status(3));
    oracle.name(&p(11, 1, second)).done();
    add(&mut oracle, p(12, 0, 'c'), anchor(p(10, 0, 'z'), &[(0, first), (1, second)]));
    add(&mut oracle, p(13, 0, 'd'), proof(&[(0, 'c')]));
    add(&mut oracle, p(14, 0, 'e'), trigger(&[(0, 'd')]));
    oracle.certify(&p(12, 0, 'c')).done();
    oracle.commit(&p(14, 0, 'e'))
}

#[test]
fn entry_5_the_shuffle_decides_between_faults() {
    assert_eq!(two_faults('a', 'b'), conflict(11));
    panics(two_faults('b', 'a'), "point to commit must be resolved");
    let mut conflicts = 0;
    for order in 1..=64 {
        set_shuffle_order(order);
        match two_faults('a', 'b') {
            Outcome::Panicked(message) => assert!(message.contains("must be resolved")),
            other => {
                assert_eq!(other, conflict(11));
                conflicts += 1;
            }
        }
    }
    assert!((1..64).contains(&conflicts), "{conflicts}");
}

/// Genesis 0: the Rust can't even make the round; past that it panics as the entry says.
#[test]
fn entry_7_rounds_below_0() {
    let underflow = "DAG round number underflow";
    let start = Start { peers: 0b1, used: Some(0), ..start(0, 1, 0, 0) };
    panics(Oracle::new_strict().start(&start), underflow);

    let mut oracle = started(&start, 3);
    add(&mut oracle, p(1, 0, 'a'), anchor(p(0, 0, 'z'), &[]));
    add(&mut oracle, p(2, 0, 'b'), proof(&[(0, 'a')]));
    add(&mut oracle, p(3, 0, 'c'), trigger(&[(0, 'b')]));
    oracle.certify(&p(1, 0, 'a')).done();
    panics(oracle.commit(&p(3, 0, 'c')), underflow);
    assert_eq!(word(&oracle, p(1, 0, 'a')) & COMMITTED, COMMITTED);

    panics(started(&start, 3).remove(1, None), underflow);

    // round 0 is inspected
    let mut oracle = started(&start, 2);
    oracle.drop_upto(0).done();
    assert_eq!(oracle.state().first_executable, 1);
    panics(oracle.remove(2, Some(0)), underflow);
}

fn reported_proof(seed: u64) -> [u8; 32] {
    set_hash_seed(seed);
    let mut oracle = started(&start(1, 1, 0, 2), 7);
    let evidence = includes(with(valid(), |info| info.evidence = 0b10), &[(0, 'a')]);
    add(&mut oracle, p(2, 0, 'b'), evidence.clone());
    add(&mut oracle, p(2, 0, 'c'), evidence);
    add(&mut oracle, p(2, 1, 'd'), valid());
    add(&mut oracle, p(3, 1, 'e'), valid());
    add(&mut oracle, p(5, 0, 'f'), anchor(p(1, 0, 'z'), &[]));
    add(&mut oracle, p(6, 0, 'g'), proof(&[(0, 'f')]));
    add(&mut oracle, p(7, 0, 'h'), trigger(&[(0, 'g')]));
    oracle.certify(&p(5, 0, 'f')).done();
    assert_eq!(anchors(oracle.commit(&p(7, 0, 'h'))).len(), 1);
    let answer = oracle.remove(5, Some(0)).done();
    assert_eq!(answer.events.len(), 2);
    assert_eq!(answer.events[0], Event::Equivocated { author: 0, round: 2, digests: vec![digest('b'), digest('c')] });
    let Event::EvidenceNoInclusion { signer: 1, blamed, proofs } = &answer.events[1] else {
        panic!("{:?}", answer.events);
    };
    assert_eq!(*blamed, [p(2, 1, 'd'), p(3, 1, 'e')]);
    assert_eq!(answer.peers[0].counters, [0, 1, 1, 0, 1, 0, 0, 0, 0]);
    assert_eq!(answer.peers[1].counters, [0, 0, 2, 0, 0, 0, 0, 0, 1]);
    proofs[0].digest
}

/// The version that comes last in the map of the author's versions.
#[test]
fn entry_8_two_proofs_of_one_previous_point() {
    let reported: BTreeSet<_> = (0..32).map(reported_proof).collect();
    assert_eq!(reported, BTreeSet::from([digest('b'), digest('c')]));
}

#[test]
fn entry_9_remove_is_not_tested_against_the_last_anchor() {
    let answer = started(&small(None), 10).remove(10, None).done();
    assert!(answer.peers.is_empty() && answer.events.is_empty());

    let committed = || {
        let mut oracle = list_a(false);
        oracle.certify(&p(11, 0, 'a')).done();
        oracle.commit(&p(13, 0, 'c')).done();
        oracle
    };
    let mut oracle = committed();
    oracle.remove(12, None).done();
    assert_eq!(oracle.state().bottom, Some(11));

    // to the round above the top: the DAG is empty; further: a panic
    let mut oracle = committed();
    oracle.remove(15, None).done();
    assert_eq!(oracle.state().bottom, None);
    panics(oracle.drop_upto(15), "DAG cannot be empty");
    panics(committed().remove(16, None), "drained not contiguous dag part");
}

#[test]
fn entry_10_any_name_is_taken() {
    let mut oracle = started(&start(10, 1, 0, 10), 10);
    for (author, letter) in [(2, 'a'), (0, 'a'), (1, 'a'), (0, 'b'), (0, 'c'), (0, 'd'), (0, 'e'), (0, 'e')] {
        oracle.name(&p(10, author, letter)).done();
    }
    assert_eq!(oracle.points().len(), 7);
    assert_eq!(oracle.state().rounds[0].authors, 0b111);
}

/// The author of the point that is handed out before the anchor, which includes two points with one digest.
fn twin_handed_out(seed: u64) -> u8 {
    set_hash_seed(seed);
    let mut oracle = started(&Start { used: Some(0), ..start(9, 1, 0, 10) }, 13);
    add(&mut oracle, p(10, 0, 'a'), valid());
    add(&mut oracle, p(10, 1, 'a'), valid());
    add(&mut oracle, p(11, 0, 'b'), anchor(p(10, 0, 'z'), &[(0, 'a'), (1, 'a')]));
    add(&mut oracle, p(12, 0, 'c'), proof(&[(0, 'b')]));
    add(&mut oracle, p(13, 0, 'd'), trigger(&[(0, 'c')]));
    oracle.certify(&p(11, 0, 'b')).done();
    let handed = anchors(oracle.commit(&p(13, 0, 'd')));
    let [twin, anchor] = &handed[0].points[..] else {
        panic!("{:?}", handed[0].points);
    };
    assert_eq!(*anchor, p(11, 0, 'b'));
    assert_eq!((twin.round, twin.digest), (10, digest('a')));
    twin.author
}

#[test]
fn entry_10_hash_order_decides_between_twins() {
    let authors: BTreeSet<_> = (0..32).map(twin_handed_out).collect();
    assert_eq!(authors, BTreeSet::from([0, 1]));
}

#[test]
fn entry_11_a_link_names_its_point() {
    let mut oracle = started(&small(None), 11);
    add(&mut oracle, p(11, 0, 'a'), includes(valid(), &[(0, 'z')]));
    assert_eq!(state(&oracle, p(10, 0, 'z')).status, 0);
    oracle.certify(&p(11, 0, 'a')).done();
    assert_eq!(word(&oracle, p(10, 0, 'z')), 1);
}

#[test]
fn entry_12_triggers_that_are_not_there() {
    let mut oracle = started(&small(None), 10);
    assert!(matches!(oracle.commit(&p(11, 0, 'a')), Outcome::NoCall(_)));
    assert!(matches!(oracle.commit(&p(10, 0, 'a')), Outcome::NoCall(_)));
    oracle.name(&p(10, 0, 'a')).done();
    assert_eq!(oracle.commit(&p(10, 0, 'a')), Outcome::NoCall("the trigger isn't resolved"));
}

#[test]
fn entry_13_peers_of_the_first_rounds() {
    let one = "genesis round must have one peer";
    panics(Oracle::new_strict().start(&Start { peers: 0, ..small(None) }), one);
    panics(Oracle::new_strict().start(&start(10, 1, 0, 10)), one);
    Oracle::new_strict().start(&small(None)).done();
    Oracle::new_strict().start(&Start { bottom: 9, ..small(None) }).done();
    panics(Oracle::new_strict().start(&Start { bottom: 8, ..small(None) }), "not allowed before genesis");
}

#[test]
fn row_2_second_start() {
    panics(started(&small(None), 10).start(&small(None)), "already initialized");
}

#[test]
fn row_3_gap_in_rounds() {
    panics(started(&small(None), 10).round(12, 1), "must not contain gaps");
    let mut oracle = started(&small(None), 11);
    oracle.round(10, 0).done();
    oracle.round(9, 0).done();
    assert_eq!(oracle.state().bottom, Some(10));
}

/// 11.0.b is the trigger and 10.0.a its previous point, resolved as given.
fn below_the_trigger(used: Option<u8>, previous: Option<oracle::Info>) -> Outcome<CommitAnswer> {
    let mut oracle = started(&small(used), 11);
    match previous {
        Some(info) => add(&mut oracle, p(10, 0, 'a'), info),
        None => oracle.name(&p(10, 0, 'a')).done(),
    }
    add(&mut oracle, p(11, 0, 'b'), trigger(&[(0, 'a')]));
    oracle.commit(&p(11, 0, 'b'))
}

#[test]
fn rows_14_and_15() {
    panics(below_the_trigger(None, None), "point to commit must be resolved");
    panics(below_the_trigger(None, Some(status(3))), "chained anchor proof");
}

#[test]
fn row_16() {
    let mut oracle = started(&small(None), 11);
    add(&mut oracle, p(11, 0, 'b'), trigger(&[]));
    panics(oracle.commit(&p(11, 0, 'b')), "anchor trigger without prev point");
    panics(below_the_trigger(None, Some(valid())), "skipped anchor proofs are not allowed");
    panics(below_the_trigger(None, Some(proof(&[]))), "anchor proof doesn't have a prev point");
    panics(below_the_trigger(Some(1), None), "broken anchor chain");

    let mut oracle = started(&small(None), 12);
    add(&mut oracle, p(10, 0, 'a'), anchor(p(11, 0, 'b'), &[]));
    add(&mut oracle, p(11, 0, 'b'), proof(&[(0, 'a')]));
    add(&mut oracle, p(12, 0, 'c'), trigger(&[(0, 'b')]));
    panics(oracle.commit(&p(12, 0, 'c')), "iter skipped proof round");
}

#[test]
fn row_17() {
    let start = Start { peers: 0b1, used: Some(0), ..start(10, 2, 5, 20) };
    let mut oracle = started(&start, 23);
    add(&mut oracle, p(21, 0, 'a'), anchor(p(20, 0, 'z'), &[]));
    add(&mut oracle, p(22, 0, 'b'), proof(&[(0, 'a')]));
    add(&mut oracle, p(23, 0, 'c'), trigger(&[(0, 'b')]));
    oracle.certify(&p(21, 0, 'a')).done();
    oracle.drop_upto(10).done();
    oracle.gap_question().done();
    panics(oracle.commit(&p(23, 0, 'c')), "doesn't contain full anchor history");
}

/// Marks that a panic leaves.
#[test]
fn rows_18_and_20() {
    let mut oracle = list_a(false);
    panics(oracle.commit(&p(13, 0, 'c')), "not certified by anchor");
    let state = oracle.state();
    assert_eq!((state.last_committed_proof, state.rounds[2].used), (Some(12), Some(0)));
    assert_eq!(word(&oracle, p(11, 0, 'a')), INIT | COMMITTED);

    let mut oracle = list_a(true);
    oracle.certify(&p(11, 0, 'a')).done();
    panics(oracle.commit(&p(13, 0, 'c')), "gap flag was not consumed");
    let state = oracle.state();
    assert_eq!((state.last_committed_proof, state.rounds[2].used), (Some(12), Some(0)));
    assert_eq!(word(&oracle, p(11, 0, 'a')), TOP | INIT | COMMITTED | 2);
}

/// The walk goes down to the last proof, also where a remove past the last anchor has drained its round.
#[test]
fn row_19() {
    let mut oracle = list_a(false);
    oracle.certify(&p(11, 0, 'a')).done();
    oracle.commit(&p(13, 0, 'c')).done();
    oracle.remove(14, None).done();
    assert_eq!((oracle.state().bottom, oracle.state().last_committed_proof), (Some(13), Some(12)));
    for round in 14..=16 {
        oracle.round(round, 1).done();
    }
    add(&mut oracle, p(13, 0, 'd'), proof(&[(0, 'b')]));
    add(&mut oracle, p(14, 0, 'e'), anchor(p(13, 0, 'd'), &[(0, 'd')]));
    add(&mut oracle, p(15, 0, 'f'), proof(&[(0, 'e')]));
    add(&mut oracle, p(16, 0, 'g'), trigger(&[(0, 'f')]));
    oracle.certify(&p(14, 0, 'e')).done();
    panics(oracle.commit(&p(16, 0, 'g')), "chain does not link across bottom");
}

#[test]
fn row_22() {
    let mut oracle = started(&small(None), 12);
    add(&mut oracle, p(10, 0, 'a'), anchor(p(9, 0, 'z'), &[]));
    add(&mut oracle, p(11, 0, 'b'), proof(&[(0, 'a')]));
    add(&mut oracle, p(12, 0, 'c'), trigger(&[(0, 'b')]));
    panics(oracle.commit(&p(12, 0, 'c')), "range start is greater than range end");
}

/// 10.0.a is the anchor and 10.0.z its top proof: one message, named or not.
#[test]
fn row_25() {
    for named in [false, true] {
        let mut oracle = started(&small(None), 12);
        if named {
            oracle.name(&p(10, 0, 'z')).done();
        }
        add(&mut oracle, p(10, 0, 'a'), anchor(p(10, 0, 'z'), &[]));
        add(&mut oracle, p(11, 0, 'b'), proof(&[(0, 'a')]));
        add(&mut oracle, p(12, 0, 'c'), trigger(&[(0, 'b')]));
        panics(oracle.commit(&p(12, 0, 'c')), "point to commit must be resolved");
    }
}
