//! What each call answers and leaves.

mod common;

use common::*;
use oracle::{CommitAnswer, Event, Oracle, Outcome, Start};

fn certified_list_a(after_gap: bool) -> Oracle {
    let mut oracle = list_a(after_gap);
    oracle.certify(&p(11, 0, 'a')).done();
    oracle
}

#[test]
fn a_commit_hands_out_once() {
    let mut oracle = certified_list_a(false);
    let first = anchors(oracle.commit(&p(13, 0, 'c')));
    assert_eq!(first.len(), 1);
    assert_eq!(first[0].points, [p(11, 0, 'a')]);
    assert_eq!(word(&oracle, p(11, 0, 'a')), TOP | INIT | COMMITTED | 2);
    assert_eq!(anchors(oracle.commit(&p(13, 0, 'c'))), []);
}

/// Trigger with a link to its proof, and so on: two anchors in one commit, the later history without the earlier.
#[test]
fn two_anchors_in_one_commit() {
    let start = Start { used: Some(0), ..start(10, 2, 0, 10) };
    let mut oracle = started(&start, 16);
    add(&mut oracle, p(11, 0, 'a'), anchor(p(10, 0, 'z'), &[]));
    add(&mut oracle, p(12, 0, 'b'), proof(&[(0, 'a')]));
    add(&mut oracle, p(13, 0, 'c'), anchor(p(12, 0, 'b'), &[(0, 'b')]));
    add(&mut oracle, p(14, 0, 'd'), proof(&[(0, 'c')]));
    add(&mut oracle, p(15, 0, 'e'), trigger(&[(0, 'd')]));
    oracle.certify(&p(13, 0, 'c')).done();
    let anchors = anchors(oracle.commit(&p(15, 0, 'e')));
    let handed: Vec<_> = anchors.iter().map(|a| (a.anchor, a.prev_anchor, a.points.clone())).collect();
    assert_eq!(
        handed,
        [(p(11, 0, 'a'), None, vec![p(11, 0, 'a')]), (p(13, 0, 'c'), Some(11), vec![p(12, 0, 'b'), p(13, 0, 'c')]),]
    );
}

/// The numbers of statuses 1 to 3 are held, any; of 4 and 5, and of a point that is named only, there are none.
#[test]
fn payloads_are_held() {
    let mut oracle = started(&start(10, 2, 0, 10), 11);
    let numbers = [(0, 0), (7, u32::MAX), (u32::MAX, 0), (5, 6), (8, 9)];
    for ((status, letter), (len, bytes)) in (1..).zip('a'..).zip(numbers) {
        add(&mut oracle, p(11, 0, letter), payload(common::status(status), len, bytes));
        assert_eq!(state(&oracle, p(11, 0, letter)).payload, (status < 4).then_some((len, bytes)));
    }
    oracle.name(&p(11, 1, 'n')).done();
    assert_eq!(state(&oracle, p(11, 1, 'n')).payload, None);
}

/// A point that an earlier anchor handed out isn't in a later sum; sums don't end at 32 bits.
#[test]
fn payloads_are_summed_over_each_history() {
    let start = Start { used: Some(0), ..start(10, 2, 0, 10) };
    let mut oracle = started(&start, 15);
    let most = |info| payload(info, u32::MAX, 1);
    add(&mut oracle, p(11, 0, 'a'), most(anchor(p(10, 0, 'z'), &[])));
    add(&mut oracle, p(12, 0, 'b'), most(proof(&[(0, 'a')])));
    add(&mut oracle, p(13, 0, 'c'), most(witness(anchor(p(12, 0, 'b'), &[(0, 'b')]), &[(0, 'a')])));
    add(&mut oracle, p(14, 0, 'd'), proof(&[(0, 'c')]));
    add(&mut oracle, p(15, 0, 'e'), trigger(&[(0, 'd')]));
    oracle.certify(&p(13, 0, 'c')).done();
    let anchors = anchors(oracle.commit(&p(15, 0, 'e')));
    let sums: Vec<_> = anchors.iter().map(|anchor| (anchor.payload_len, anchor.payload_bytes)).collect();
    assert_eq!(sums, [(4_294_967_295, 1), (8_589_934_590, 2)]);
}

#[test]
fn history_conflict_has_the_points_round() {
    let mut oracle = started(&Start { used: Some(0), ..start(10, 2, 0, 10) }, 14);
    add(&mut oracle, p(11, 1, 'a'), status(3));
    add(&mut oracle, p(12, 0, 'b'), anchor(p(10, 0, 'z'), &[(1, 'a')]));
    add(&mut oracle, p(13, 0, 'c'), proof(&[(0, 'b')]));
    add(&mut oracle, p(14, 0, 'd'), trigger(&[(0, 'c')]));
    oracle.certify(&p(12, 0, 'b')).done();
    let before = (oracle.points(), oracle.state());
    assert_eq!(oracle.commit(&p(14, 0, 'd')), Outcome::Done(CommitAnswer::HistoryConflict(11)));
    assert_eq!((oracle.points(), oracle.state()), before);
}

/// A trans-invalid point is usable in a history unless it is proved.
#[test]
fn trans_invalid_points() {
    for (proved, expected) in [(false, None), (true, Some(11))] {
        let mut oracle = started(&Start { used: Some(0), ..start(10, 2, 0, 10) }, 14);
        add(&mut oracle, p(11, 1, 'a'), status(2));
        add(&mut oracle, p(12, 0, 'b'), anchor(p(10, 0, 'z'), &[(1, 'a')]));
        add(&mut oracle, p(13, 0, 'c'), proof(&[(0, 'b')]));
        add(&mut oracle, p(14, 0, 'd'), trigger(&[(0, 'c')]));
        oracle.certify(&p(12, 0, 'b')).done();
        if proved {
            oracle.certify(&p(11, 1, 'a')).done();
        }
        match (oracle.commit(&p(14, 0, 'd')).done(), expected) {
            (CommitAnswer::HistoryConflict(round), Some(expected)) => assert_eq!(round, expected),
            (CommitAnswer::Anchors(anchors), None) => assert_eq!(anchors[0].points.len(), 2),
            (other, _) => panic!("{other:?}"),
        }
    }
}

#[test]
fn gap_flag() {
    let mut oracle = certified_list_a(true);
    assert_eq!(oracle.state().emit_first_after_gap, Some(false));
    assert!(oracle.gap_question().done());
    assert_eq!(oracle.state().emit_first_after_gap, Some(true));
    assert!(!oracle.gap_question().done());
    let anchors = anchors(oracle.commit(&p(13, 0, 'c')));
    assert!(anchors[0].executable);
    assert_eq!(oracle.state().emit_first_after_gap, None);
    assert!(!oracle.gap_question().done());
}

/// A non-executable anchor leaves the flag; the first executable one has no previous anchor.
#[test]
fn first_executable_anchor_after_a_gap() {
    for after_gap in [false, true] {
        let start = Start { used: Some(0), after_gap, ..start(10, 2, 3, 12) };
        let mut oracle = started(&start, 18);
        assert_eq!(oracle.state().first_executable, if after_gap { 15 } else { 12 });
        add(&mut oracle, p(13, 0, 'a'), anchor(p(12, 0, 'z'), &[]));
        add(&mut oracle, p(14, 0, 'b'), proof(&[(0, 'a')]));
        add(&mut oracle, p(15, 0, 'c'), trigger(&[(0, 'b')]));
        add(&mut oracle, p(16, 0, 'd'), anchor(p(14, 0, 'b'), &[(0, 'c')]));
        add(&mut oracle, p(17, 0, 'e'), proof(&[(0, 'd')]));
        add(&mut oracle, p(18, 0, 'f'), trigger(&[(0, 'e')]));
        oracle.certify(&p(13, 0, 'a')).done();
        oracle.certify(&p(16, 0, 'd')).done();
        oracle.gap_question().done();
        let first = anchors(oracle.commit(&p(15, 0, 'c')));
        assert_eq!((first[0].executable, first[0].prev_anchor), (!after_gap, Some(11)));
        assert_eq!(oracle.state().emit_first_after_gap, after_gap.then_some(true));
        let second = anchors(oracle.commit(&p(18, 0, 'f')));
        assert_eq!((second[0].executable, second[0].prev_anchor), (true, (!after_gap).then_some(13)));
        assert_eq!(oracle.state().emit_first_after_gap, None);
    }
}

#[test]
fn drop_drains_and_arms() {
    let mut oracle = certified_list_a(false);
    oracle.commit(&p(13, 0, 'c')).done();
    assert!(oracle.drop_upto(12).done());
    let state = oracle.state();
    assert_eq!((state.bottom, state.top), (Some(12), Some(13)));
    assert_eq!(state.last_committed_proof, Some(12));
    assert_eq!(state.full_history_bottom, 13);
    assert_eq!(state.emit_first_after_gap, Some(false));
    assert_eq!(oracle.points().len(), 2);
    assert_eq!(oracle.name(&p(11, 0, 'q')), Outcome::NoCall("points are in rounds that are held"));
    // below the bottom: no anchors
    assert_eq!(anchors(oracle.commit(&p(11, 0, 'a'))), []);
}

/// Links into drained rounds aren't followed.
#[test]
fn resolve_above_a_drained_round() {
    let mut oracle = started(&start(10, 3, 0, 12), 14);
    add(&mut oracle, p(12, 0, 'a'), valid());
    oracle.name(&p(13, 0, 'b')).done();
    oracle.drop_upto(13).done();
    oracle.resolve(&p(13, 0, 'b'), &includes(valid(), &[(0, 'a')])).done();
    oracle.certify(&p(13, 0, 'b')).done();
    assert_eq!(word(&oracle, p(13, 0, 'b')), TOP | INIT | 4);
    assert_eq!(oracle.points().len(), 1);
}

#[test]
fn remove_reports_an_equivocation() {
    let mut oracle = started(&start(1, 1, 0, 2), 7);
    add(&mut oracle, p(2, 0, 'b'), includes(with(valid(), |info| info.evidence = 0b10), &[(0, 'a')]));
    add(&mut oracle, p(2, 0, 'c'), status(3));
    add(&mut oracle, p(2, 1, 'd'), valid());
    add(&mut oracle, p(3, 1, 'e'), valid());
    let answer = oracle.remove(5, Some(0)).done();
    assert_eq!(
        answer.events,
        [
            Event::Equivocated { author: 0, round: 2, digests: vec![digest('b'), digest('c')] },
            Event::EvidenceNoInclusion {
                signer: 1,
                blamed: vec![p(2, 1, 'd'), p(3, 1, 'e')],
                proofs: vec![p(2, 0, 'b')],
            },
        ]
    );
    let peers: Vec<_> = answer.peers.iter().map(|s| (s.peer, s.first_round, s.last_round, s.counters)).collect();
    assert_eq!(peers, [(0, 2, 3, [0, 1, 1, 0, 1, 0, 0, 0, 0]), (1, 2, 3, [0, 0, 2, 0, 0, 0, 0, 0, 1])]);
    assert_eq!(oracle.state().bottom, Some(4));
    assert_eq!(oracle.memory().last_round, 3);
    assert_eq!(oracle.memory().peers[0].authored, [p(3, 1, 'e')]);
}

/// The marks: leader, proved, statuses 2 to 4 with and without a cause.
#[test]
fn remove_counts() {
    let mut oracle = started(&Start { used: Some(0), ..start(1, 1, 0, 2) }, 5);
    let caused = |number| with(status(number), |info| info.cause = true);
    add(&mut oracle, p(2, 0, 'a'), valid());
    oracle.certify(&p(2, 0, 'a')).done();
    add(&mut oracle, p(2, 1, 'b'), caused(2));
    add(&mut oracle, p(2, 1, 'c'), status(2));
    add(&mut oracle, p(3, 1, 'd'), caused(3));
    add(&mut oracle, p(3, 0, 'e'), status(4));
    add(&mut oracle, p(3, 0, 'f'), status(5));
    let answer = oracle.remove(5, Some(0)).done();
    assert_eq!(answer.peers[0].counters, [1, 0, 1, 1, 0, 0, 0, 1, 0]);
    assert_eq!(answer.peers[1].counters, [0, 0, 0, 0, 1, 1, 1, 0, 0]);
    assert_eq!(
        answer.events,
        [
            Event::TransInvalid(p(2, 1, 'b')),
            Event::Invalid(p(3, 1, 'd')),
            Event::IllFormed(p(3, 0, 'e')),
            Event::Equivocated { author: 1, round: 2, digests: vec![digest('b'), digest('c')] },
        ]
    );
}

/// `stats_since` suppresses counters, never events.
#[test]
fn stats_since() {
    for (since, rounds) in [(Some(0), 2), (Some(3), 1), (Some(4), 0), (None, 0)] {
        let mut oracle = started(&start(1, 1, 0, 2), 5);
        add(&mut oracle, p(2, 0, 'a'), status(4));
        let answer = oracle.remove(5, since).done();
        assert_eq!(answer.peers.first().map_or(0, |stats| stats.filled_rounds), rounds);
        assert_eq!(answer.events, [Event::IllFormed(p(2, 0, 'a'))]);
    }
}

#[test]
fn reset_keeps_the_memory() {
    let mut oracle = started(&start(1, 1, 0, 2), 5);
    add(&mut oracle, p(3, 0, 'a'), valid());
    oracle.remove(5, None).done();
    let memory = oracle.memory();
    assert_eq!(memory.peers[0].authored, [p(3, 0, 'a')]);
    oracle.reset().done();
    assert_eq!(oracle.memory(), memory);
    assert_eq!(oracle.state().bottom, None);
    assert_eq!(oracle.points(), []);
    oracle.start(&start(1, 1, 0, 9)).done();
    assert_eq!(oracle.state().top, Some(9));
    assert_eq!(oracle.memory(), memory);
}

#[test]
fn no_such_call() {
    let mut oracle = started(&start(10, 2, 0, 12), 13);
    add(&mut oracle, p(12, 0, 'a'), valid());
    let before = (oracle.points(), oracle.state());
    let why = |outcome| match outcome {
        Outcome::NoCall(why) => why,
        other => panic!("{other:?}"),
    };
    assert_eq!(why(oracle.resolve(&p(12, 0, 'b'), &valid())), "the point isn't named");
    assert_eq!(why(oracle.resolve(&p(12, 0, 'a'), &valid())), "a point resolves once");
    assert_eq!(why(oracle.resolve(&p(12, 0, 'a'), &status(6))), "a status is 1 to 5");
    assert_eq!(
        why(oracle.resolve(&p(12, 0, 'a'), &includes(status(5), &[(0, 'q')]))),
        "an ill-formed or not found point has no data"
    );
    assert_eq!(
        why(oracle.resolve(&p(12, 0, 'a'), &includes(valid(), &[(0, 'q'), (0, 'r')]))),
        "links are a map by peer"
    );
    assert_eq!(why(oracle.resolve(&p(12, 0, 'a'), &proof(&[]))), "the top proof of a proof is the point itself");
    assert_eq!(why(oracle.certify(&p(12, 1, 'a'))), "the point isn't named");
    assert_eq!(why(oracle.start(&start(10, 0, 0, 12))), "`commit_history_rounds` is 1 to 255");
    assert_eq!(why(oracle.start(&start(10, 1, 65_536, 12))), "`deduplicate_rounds` is at most 65,535");
    assert_eq!((oracle.points(), oracle.state()), before);
}

#[test]
fn a_panic_ends_the_calls() {
    let mut oracle = list_a(false);
    panics(oracle.commit(&p(13, 0, 'c')), "not certified by anchor");
    panics(oracle.reset(), "not certified by anchor");
    panics(oracle.gap_question(), "not certified by anchor");
    // what it left can be read
    assert_eq!(oracle.state().last_committed_proof, Some(12));
    assert_eq!(word(&oracle, p(11, 0, 'a')), INIT | COMMITTED);
}
