//! The cases of document 01 that the Rust can show.

mod common;

use common::*;
use oracle::{Oracle, Start};

/// One author; points from `bottom` to `anchor_round`, each including the one before, then proof and trigger. The top
/// proof of the anchor is at the bottom.
fn chain(bottom: u32, anchor_round: u32) -> Oracle {
    let start = Start { used: Some(0), ..start(10, 2, 0, bottom) };
    let mut oracle = started(&start, anchor_round + 2);
    let letter = |round: u32| char::from(b'a' + (round - bottom) as u8);
    add(&mut oracle, p(bottom, 0, 'a'), valid());
    for round in bottom + 1..=anchor_round {
        let info = anchor(p(bottom, 0, 'z'), &[(0, letter(round - 1))]);
        add(&mut oracle, p(round, 0, letter(round)), info);
    }
    add(&mut oracle, p(anchor_round + 1, 0, 'y'), proof(&[(0, letter(anchor_round))]));
    add(&mut oracle, p(anchor_round + 2, 0, 'x'), trigger(&[(0, 'y')]));
    oracle.certify(&p(anchor_round, 0, letter(anchor_round))).done();
    oracle
}

fn commit_history_rounds(bottom: u32, anchor_round: u32) -> Vec<u32> {
    let mut oracle = chain(bottom, anchor_round);
    let anchors = anchors(oracle.commit(&p(anchor_round + 2, 0, 'x')));
    assert_eq!(anchors.len(), 1);
    assert_eq!(anchors[0].anchor.round, anchor_round);
    anchors[0].points.iter().map(|id| id.round).collect()
}

/// The limit shows as the lowest round of a history that goes down to it.
#[test]
fn k1_anchor_13_limit_11() {
    assert_eq!(commit_history_rounds(10, 13), [11, 12, 13]);
}

#[test]
fn k2_anchor_12_limit_11() {
    assert_eq!(commit_history_rounds(10, 12), [11, 12]);
}

#[test]
fn k3_anchor_14_limit_12() {
    assert_eq!(commit_history_rounds(10, 14), [12, 13, 14]);
}

fn line_of_five() -> Oracle {
    let mut oracle = started(&start(10, 3, 0, 16), 20);
    add(&mut oracle, p(16, 0, 'a'), valid());
    add(&mut oracle, p(17, 0, 'b'), includes(valid(), &[(0, 'a')]));
    add(&mut oracle, p(18, 0, 'c'), includes(valid(), &[(0, 'b')]));
    add(&mut oracle, p(19, 0, 'd'), includes(valid(), &[(0, 'c')]));
    add(&mut oracle, p(20, 0, 'e'), includes(valid(), &[(0, 'd')]));
    oracle
}

#[test]
fn k4_heights_below_one_top() {
    let mut oracle = line_of_five();
    oracle.certify(&p(20, 0, 'e')).done();
    let words: Vec<u16> = oracle.points().iter().map(|point| point.word).collect();
    assert_eq!(words, [INIT, INIT | 1, INIT | 2, INIT | 3, TOP | INIT | 4]);
}

#[test]
fn k5_the_nearer_top_counts() {
    for order in [[(20, 'e'), (18, 'c')], [(18, 'c'), (20, 'e')]] {
        let mut oracle = line_of_five();
        for (round, letter) in order {
            oracle.certify(&p(round, 0, letter)).done();
        }
        assert_eq!(word(&oracle, p(17, 0, 'b')), INIT | 3);
        assert_eq!(word(&oracle, p(18, 0, 'c')), TOP | INIT | 4);
        assert_eq!(word(&oracle, p(19, 0, 'd')), INIT | 3);
    }
}

#[test]
fn k6_start_at_12() {
    let state = started(&start(10, 2, 0, 12), 12).state();
    assert_eq!(state.full_history_bottom, 12);
    assert_eq!(state.first_executable, 12);
    assert_eq!(state.emit_first_after_gap, None);
}

#[test]
fn k7_start_at_13_after_a_gap() {
    let start = Start { after_gap: true, ..start(10, 2, 5, 13) };
    let state = started(&start, 13).state();
    assert_eq!(state.full_history_bottom, 15);
    assert_eq!(state.first_executable, 20);
    assert_eq!(state.emit_first_after_gap, Some(false));
}

#[test]
fn k8_drop_below_the_bottom() {
    let mut oracle = started(&start(10, 2, 5, 20), 30);
    assert!(oracle.drop_upto(10).done());
    let state = oracle.state();
    assert_eq!((state.bottom, state.top), (Some(20), Some(30)));
    assert_eq!(state.full_history_bottom, 12);
    assert_eq!(state.first_executable, 17);
    assert_eq!(state.emit_first_after_gap, Some(false));
}

#[test]
fn k9_drop_above_the_top() {
    let mut oracle = started(&start(10, 2, 5, 20), 30);
    assert!(!oracle.drop_upto(40).done());
    let state = oracle.state();
    assert_eq!((state.bottom, state.top), (Some(30), Some(30)));
    assert_eq!(state.full_history_bottom, 32);
}

/// The counters; their weights are document 01's: 2 × 20 + 10 × 3.
#[test]
fn k10_counters_of_the_score() {
    let mut oracle = started(&start(1, 1, 0, 2), 14);
    for letter in ['a', 'b', 'c'] {
        add(&mut oracle, p(2, 1, letter), valid());
    }
    // drains rounds 2 to 12: one with three versions, ten without a point
    let answer = oracle.remove(14, Some(0)).done();
    let peer = &answer.peers[1];
    assert_eq!((peer.peer, peer.first_round, peer.last_round), (1, 2, 12));
    assert_eq!(peer.counters, [0, 10, 1, 0, 2, 0, 0, 0, 0]);
    assert_eq!(peer.counters[4] * 20 + peer.counters[1] * 3, 70);
}

#[test]
fn k11_previous_anchor() {
    for (bottom, expected) in [(11, None), (12, Some(11))] {
        let mut oracle = chain(bottom, bottom + 2);
        let anchors = anchors(oracle.commit(&p(bottom + 4, 0, 'x')));
        assert_eq!(anchors[0].prev_anchor, expected);
    }
}

#[test]
fn k12_trigger_at_the_last_proof() {
    let mut oracle = list_a(false);
    oracle.certify(&p(11, 0, 'a')).done();
    assert_eq!(anchors(oracle.commit(&p(13, 0, 'c'))).len(), 1);
    assert_eq!(oracle.state().last_committed_proof, Some(12));
    add(&mut oracle, p(12, 0, 'd'), trigger(&[]));
    assert_eq!(anchors(oracle.commit(&p(12, 0, 'd'))), []);
}

#[test]
fn k13_one_anchor_four_points() {
    let start = Start { used: Some(0), ..start(10, 2, 0, 10) };
    let mut oracle = started(&start, 15);
    add(&mut oracle, p(11, 0, 'a'), payload(valid(), 1, 10));
    add(&mut oracle, p(12, 0, 'b'), payload(includes(valid(), &[(0, 'a')]), 2, 200));
    add(&mut oracle, p(12, 1, 'c'), payload(includes(valid(), &[(0, 'a')]), 3, 3000));
    add(&mut oracle, p(13, 0, 'd'), payload(anchor(p(10, 0, 'z'), &[(0, 'b'), (1, 'c')]), 4, 40_000));
    add(&mut oracle, p(14, 0, 'e'), payload(proof(&[(0, 'd')]), 5, 5));
    add(&mut oracle, p(15, 0, 'f'), payload(trigger(&[(0, 'e')]), 6, 6));
    oracle.certify(&p(13, 0, 'd')).done();
    let anchors = anchors(oracle.commit(&p(15, 0, 'f')));
    assert_eq!(anchors.len(), 1);
    assert_eq!(anchors[0].anchor, p(13, 0, 'd'));
    assert_eq!(anchors[0].proof, p(14, 0, 'e'));
    assert!(anchors[0].executable);
    assert_eq!(anchors[0].prev_anchor, None);
    // nothing is shuffled here, so inside a round digests fall
    assert_eq!(anchors[0].points, [p(11, 0, 'a'), p(12, 1, 'c'), p(12, 0, 'b'), p(13, 0, 'd')]);
    assert_eq!(oracle.place_lists()[..], [[vec![0], vec![0, 1], vec![0]]]);
    assert_eq!((anchors[0].payload_len, anchors[0].payload_bytes), (10, 43_210));
    assert_eq!(word(&oracle, p(12, 1, 'c')), INIT | COMMITTED | 2);
    assert_eq!(word(&oracle, p(14, 0, 'e')), INIT);
    let state = oracle.state();
    assert_eq!(state.last_committed_proof, Some(14));
    assert_eq!(state.rounds[4].used, Some(0));
}
