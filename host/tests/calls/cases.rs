//! K4, K5 and K9 of document 01, and what the calls do where they aren't refused.

use committer::{Committer, PointId, PointInfo, Start, State, Status};

use crate::common::{add, beginning, fill_memory, height, link, point, refuses, started, valid, version};

/// Points of author 0 from round `from` to `to`, each including the one before.
fn chain(committer: &mut Committer, from: u32, to: u32) {
    add(committer, &point(from, 0), &[], &[]);
    for round in from + 1..=to {
        add(committer, &point(round, 0), &[point(round - 1, 0)], &[]);
    }
}

fn heights(committer: &Committer) -> Vec<(u32, u16)> {
    committer.points().iter().map(|point| (point.id.round, point.height())).collect()
}

/// H 3, rounds 16 to 20.
fn of_history_3() -> Committer {
    started(8, &Start { commit_history_rounds: 3, bottom: 16, ..beginning() }, 20)
}

#[test]
fn k4() {
    let mut committer = of_history_3();
    chain(&mut committer, 16, 20);
    committer.certify(&point(20, 0)).unwrap();
    assert_eq!(heights(&committer), [(16, 0), (17, 1), (18, 2), (19, 3), (20, 4)]);
}

#[test]
fn k5() {
    let mut committer = of_history_3();
    chain(&mut committer, 16, 20);
    committer.certify(&point(20, 0)).unwrap();
    committer.certify(&point(18, 0)).unwrap();
    assert_eq!(height(&committer, &point(17, 0)), 3);
    assert_eq!(heights(&committer), [(16, 2), (17, 3), (18, 4), (19, 3), (20, 4)]);
}

#[test]
fn k6_and_k7() {
    let committer = started(1, &Start { bottom: 12, ..beginning() }, 12);
    assert_eq!(committer.summary().unwrap().full_history_bottom, 12);

    let after_gap = Start { bottom: 13, deduplicate_rounds: 5, after_gap: true, ..beginning() };
    let summary = started(1, &after_gap, 13).summary().unwrap();
    assert_eq!((summary.full_history_bottom, summary.first_executable), (15, 20));
}

#[test]
fn k8() {
    let mut committer = started(4, &Start { bottom: 20, ..beginning() }, 30);
    add(&mut committer, &point(20, 3), &[], &[]);
    let points = committer.points();
    assert_eq!(committer.drop_upto(10), Ok(true));
    let summary = committer.summary().unwrap();
    assert_eq!((summary.bottom, summary.top, summary.full_history_bottom), (20, 30, 12));
    assert_eq!(committer.points(), points);
}

#[test]
fn k9() {
    let mut committer = started(4, &Start { bottom: 20, ..beginning() }, 30);
    add(&mut committer, &point(29, 3), &[], &[]);
    add(&mut committer, &point(30, 3), &[point(29, 3)], &[]);
    assert_eq!(committer.drop_upto(40), Ok(false));
    let summary = committer.summary().unwrap();
    assert_eq!((summary.bottom, summary.top, summary.full_history_bottom), (30, 30, 32));
    assert_eq!(committer.points().iter().map(|point| point.id.round).collect::<Vec<_>>(), [30]);
}

#[test]
fn a_start_tells_its_own() {
    let with = Start {
        genesis: 3,
        commit_history_rounds: 255,
        deduplicate_rounds: 65535,
        bottom: 7,
        peers: 0b1011,
        after_gap: true,
        used: Some(31),
    };
    let committer = started(2, &with, 7);
    let summary = committer.summary().unwrap();
    assert_eq!((summary.genesis, summary.commit_history_rounds, summary.deduplicate_rounds), (3, 255, 65535));
    assert_eq!((summary.bottom, summary.top), (7, 7));
    assert_eq!((summary.last_committed_proof, summary.last_anchor), (None, None));
    assert_eq!((summary.full_history_bottom, summary.first_executable), (7, 65542));
    assert_eq!(summary.emit_first_after_gap, Some(false));
    assert_eq!(summary.rounds.len(), 1);
    assert_eq!((summary.rounds[0].round, summary.rounds[0].peers, summary.rounds[0].used), (7, 0b1011, Some(31)));
    assert_eq!(committer.points(), []);
}

#[test]
fn the_largest_numbers_start() {
    let with = Start {
        genesis: 4_000_000_000,
        commit_history_rounds: 255,
        deduplicate_rounds: 65535,
        bottom: 4_000_000_000,
        after_gap: true,
        ..Start::default()
    };
    let summary = started(1, &with, with.bottom).summary().unwrap();
    assert_eq!((summary.bottom, summary.top, summary.first_executable), (4_000_000_000, 4_000_000_000, 4_000_065_535));
}

#[test]
fn the_gap_question_is_put_once() {
    let mut committer = started(1, &Start { after_gap: true, ..beginning() }, 12);
    assert_eq!(committer.gap_question(), Ok(true));
    assert_eq!(committer.summary().unwrap().emit_first_after_gap, Some(true));
    assert_eq!(committer.gap_question(), Ok(false));
    // a drop waits for it again
    assert_eq!(committer.drop_upto(11), Ok(true));
    assert_eq!(committer.summary().unwrap().emit_first_after_gap, Some(false));
    assert_eq!(committer.gap_question(), Ok(true));

    let mut no_gap = started(1, &beginning(), 10);
    assert_eq!(no_gap.summary().unwrap().emit_first_after_gap, None);
    assert_eq!(no_gap.gap_question(), Ok(false));
    assert_eq!(no_gap.summary().unwrap().emit_first_after_gap, None);
}

#[test]
fn a_round_that_is_there_does_nothing() {
    let mut committer = started(1, &Start { bottom: 15, ..beginning() }, 20);
    let before = committer.clone();
    for round in [0, 10, 14, 15, 18, 20] {
        committer.round(round, 7).unwrap();
        assert!(committer == before, "round {round} changed something");
    }
    committer.round(21, 7).unwrap();
    let summary = committer.summary().unwrap();
    assert_eq!(summary.top, 21);
    assert_eq!((summary.rounds[6].round, summary.rounds[6].peers, summary.rounds[6].used), (21, 7, None));
}

#[test]
fn certified_before_resolved() {
    let mut committer = of_history_3();
    chain(&mut committer, 16, 19);
    let top = point(20, 0);
    committer.name(&top).unwrap();
    committer.certify(&top).unwrap();
    assert_eq!(heights(&committer), [(16, 0), (17, 0), (18, 0), (19, 0), (20, 4)]);
    let named = committer.points()[4];
    assert_eq!((named.status, named.cert), (None, 0x8004));
    committer.resolve(&top, &valid(&[point(19, 0)], &[])).unwrap();
    assert_eq!(heights(&committer), [(16, 0), (17, 1), (18, 2), (19, 3), (20, 4)]);
    assert_eq!(committer.points()[4].cert, 0xe004);
    // a second certificate changes nothing
    let before = committer.clone();
    committer.certify(&top).unwrap();
    assert!(committer == before);
}

#[test]
fn an_unresolved_point_holds_a_height_back() {
    let mut committer = of_history_3();
    add(&mut committer, &point(17, 0), &[], &[]);
    committer.name(&point(18, 0)).unwrap();
    add(&mut committer, &point(19, 0), &[point(18, 0)], &[]);
    committer.certify(&point(19, 0)).unwrap();
    assert_eq!(heights(&committer), [(17, 0), (18, 3), (19, 4)]);
    committer.resolve(&point(18, 0), &valid(&[point(17, 0)], &[])).unwrap();
    assert_eq!(heights(&committer), [(17, 2), (18, 3), (19, 4)]);
}

#[test]
fn a_witness_link_costs_two() {
    let mut committer = of_history_3();
    add(&mut committer, &point(17, 5), &[], &[]);
    add(&mut committer, &point(18, 6), &[], &[]);
    add(&mut committer, &point(20, 7), &[], &[point(18, 6)]);
    committer.certify(&point(20, 7)).unwrap();
    assert_eq!(heights(&committer), [(17, 0), (18, 2), (20, 4)]);
    add(&mut committer, &point(19, 8), &[], &[point(17, 5)]);
    committer.certify(&point(19, 8)).unwrap();
    assert_eq!(heights(&committer), [(17, 2), (18, 2), (19, 4), (20, 4)]);
}

#[test]
fn what_a_resolution_gives_stands_in_the_tables() {
    let mut committer = started(8, &beginning(), 12);
    let (low, mid, high) = (point(10, 1), point(11, 31), point(12, 4));
    add(&mut committer, &low, &[], &[]);
    add(&mut committer, &mid, &[low], &[]);
    committer.name(&high).unwrap();
    let top_proof = PointId { round: u32::MAX, author: 31, digest: [0xa5; 32] };
    let info = PointInfo {
        status: Status::TransInvalid.number(),
        proof: true,
        trigger: false,
        cause: true,
        top_proof,
        evidence: 0xdead_beef,
        includes: vec![link(&mid)],
        witness: vec![link(&low)],
        payload_len: 0x0102_0304,
        payload_bytes: u32::MAX - 1,
    };
    committer.resolve(&high, &info).unwrap();

    let points = committer.points();
    assert_eq!(points.iter().map(|point| point.id).collect::<Vec<_>>(), [low, mid, high]);
    let last = points[2];
    assert_eq!((last.status, last.proof, last.trigger, last.cause), (Some(Status::TransInvalid), true, false, true));
    assert_eq!((last.payload_len, last.payload_bytes, last.cert), (0x0102_0304, u32::MAX - 1, 0x6000));

    let (tables, state) = committer.parts();
    assert_eq!((state.count, &tables.order[..3]), (3, [0, 1, 2].as_slice()));
    let place = &tables.links[2 * 328..3 * 328];
    assert_eq!(place[..3], [0xdead_beef, u64::from(u32::MAX), 31]);
    assert_eq!(place[3..7], [0xa5a5_a5a5_a5a5_a5a5; 4]);
    // includes under peer 31, place 1; witness under peer 1, place 0
    assert_eq!((place[8 + 31], place[8 + 32 + 1]), (2, 1));
    assert_eq!(place[8..72].iter().filter(|target| **target != 0).count(), 2);
    assert_eq!(committer::digest_bytes(place[72 + 31 * 4..][..4].try_into().unwrap()), mid.digest);
    assert_eq!(committer::digest_bytes(place[72 + 33 * 4..][..4].try_into().unwrap()), low.digest);
}

#[test]
fn statuses_4_and_5_have_no_links() {
    let mut committer = started(4, &beginning(), 11);
    for (author, status) in [(0, Status::IllFormed), (1, Status::NotFound)] {
        let id = point(11, author);
        committer.name(&id).unwrap();
        let info = PointInfo { status: status.number(), trigger: true, ..PointInfo::default() };
        committer.resolve(&id, &info).unwrap();
        committer.certify(&id).unwrap();
    }
    let points = committer.points();
    assert_eq!(points.iter().map(|point| point.cert).collect::<Vec<_>>(), [0x8003, 0x8003]);
    assert!(points.iter().all(|point| point.trigger && !point.proof && point.is_proved() && !point.is_committed()));
    assert_eq!((points[0].status, points[1].status), (Some(Status::IllFormed), Some(Status::NotFound)));
}

#[test]
fn links_into_dropped_rounds_are_not_looked_up() {
    let mut committer = started(4, &Start { bottom: 20, ..beginning() }, 21);
    let gone = [point(19, 0), point(19, 9)];
    committer.name(&point(20, 0)).unwrap();
    committer.resolve(&point(20, 0), &valid(&gone, &[point(18, 2)])).unwrap();
    // one kind leads to a retained round, the other doesn't
    committer.name(&point(21, 0)).unwrap();
    committer.resolve(&point(21, 0), &valid(&[point(20, 0)], &gone)).unwrap();
    committer.certify(&point(21, 0)).unwrap();
    assert_eq!(heights(&committer), [(20, 2), (21, 3)]);
}

#[test]
fn places_are_used_again() {
    let mut committer = started(3, &beginning(), 13);
    for round in 10..13 {
        add(&mut committer, &point(round, 0), &[], &[]);
    }
    refuses(&mut committer, 4, |c| c.name(&point(13, 0)));
    assert_eq!(committer.drop_upto(12), Ok(true));
    assert_eq!(committer.points().len(), 1);
    {
        let (tables, state) = committer.parts();
        assert_eq!((state.count, tables.order[0]), (1, 2));
        assert!(tables.keys[..16].iter().all(|word| *word == 0), "a freed place is zeroed");
        assert!(tables.links[..2 * 328].iter().all(|word| *word == 0), "a freed place is zeroed");
    }
    // the lowest free place first
    add(&mut committer, &point(13, 0), &[point(12, 0)], &[]);
    add(&mut committer, &point(13, 1), &[], &[]);
    assert_eq!(committer.parts().0.order, [2, 0, 1]);
    committer.certify(&point(13, 0)).unwrap();
    assert_eq!(heights(&committer), [(12, 2), (13, 3), (13, 0)]);
    refuses(&mut committer, 4, |c| c.name(&point(13, 2)));
}

#[test]
fn a_drop_keeps_heights_and_the_top() {
    let mut committer = of_history_3();
    chain(&mut committer, 16, 20);
    committer.certify(&point(20, 0)).unwrap();
    assert_eq!(committer.drop_upto(18), Ok(true));
    assert_eq!(heights(&committer), [(18, 2), (19, 3), (20, 4)]);
    // a drop below the bottom drains nothing, yet sets the full-history bottom
    assert_eq!(committer.drop_upto(0), Ok(true));
    assert_eq!(committer.summary().unwrap().full_history_bottom, 3);
    assert_eq!(heights(&committer), [(18, 2), (19, 3), (20, 4)]);
    assert_eq!(committer.drop_upto(u32::MAX), Ok(false));
    assert_eq!(heights(&committer), [(20, 4)]);
}

#[test]
fn a_start_after_a_reset() {
    let mut committer = of_history_3();
    chain(&mut committer, 16, 20);
    committer.reset().unwrap();
    assert_eq!((committer.summary(), committer.points()), (None, vec![]));
    {
        let (tables, state) = committer.parts();
        assert_eq!((state.phase, state.count), (2, 0));
        let words = [&tables.keys, &tables.links, &tables.certs, &tables.order];
        assert!(words.iter().all(|table| table.iter().all(|word| *word == 0)));
    }
    refuses(&mut committer, 2, |c| c.reset());
    committer.start(&beginning()).unwrap();
    assert_eq!(committer.summary().unwrap().bottom, 10);
    add(&mut committer, &point(10, 0), &[], &[]);
    assert_eq!(committer.points().len(), 1);
}

/// A memory that a remove could have left.
fn remember(committer: &mut Committer) {
    fill_memory(&mut committer.parts_mut().1.memory, 128);
}

#[test]
fn a_reset_keeps_the_inspectors_memory() {
    let mut committer = started(2, &beginning(), 11);
    remember(&mut committer);
    let memory = committer.parts().1.memory;
    assert!(committer.is_started());
    committer.reset().unwrap();
    assert!(committer.parts().1.memory == memory);
    committer.start(&beginning()).unwrap();
    assert!(committer.parts().1.memory == memory);
}

/// Whatever the tables hold after a reset, a start keeps the memory and clears them.
#[test]
fn a_start_after_a_reset_clears_the_tables() {
    let mut committer = started(2, &beginning(), 11);
    remember(&mut committer);
    committer.reset().unwrap();
    let memory = committer.parts().1.memory;
    let (tables, state) = committer.parts_mut();
    for table in [&mut tables.keys, &mut tables.links, &mut tables.certs, &mut tables.order] {
        table.fill(u64::MAX);
    }
    state.rounds.fill(committer::sys::RoundRecord { peers: 9, used_anchor_proof: 9 });
    committer.start(&beginning()).unwrap();
    let mut expected = started(2, &beginning(), 10);
    expected.parts_mut().1.memory = memory;
    assert!(committer == expected);
}

/// A state that no reset left: another phase, or a used place.
#[test]
fn a_start_without_a_reset_clears_the_memory() {
    let others: [fn(&mut State); 3] = [|s| s.phase = 0, |s| s.phase = 3, |s| s.count = 1];
    for change in others {
        let mut committer = started(2, &beginning(), 11);
        remember(&mut committer);
        committer.reset().unwrap();
        change(committer.parts_mut().1);
        committer.start(&beginning()).unwrap();
        assert!(committer == started(2, &beginning(), 10));
    }
}

#[test]
fn versions_of_an_author_stand_by_digest() {
    let mut committer = started(8, &beginning(), 10);
    for n in [3, 0, 2, 1] {
        committer.name(&version(10, 5, n)).unwrap();
    }
    committer.name(&point(10, 4)).unwrap();
    let ids: Vec<PointId> = committer.points().iter().map(|point| point.id).collect();
    assert_eq!(ids, [point(10, 4), version(10, 5, 0), version(10, 5, 1), version(10, 5, 2), version(10, 5, 3)]);
}
