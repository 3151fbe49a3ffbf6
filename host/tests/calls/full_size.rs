//! Tables of 4,096 places and 512 rounds, filled.

use committer::{Committer, PLACES_MAX, Point, PointId, ROUNDS_MAX, Start};

use crate::common::{add, point, refuses, started, valid, version};

const BOTTOM: u32 = 1000;
const TOP: u32 = BOTTOM + 511;
const H: u32 = 255;

fn of_all_rounds() -> Committer {
    started(
        PLACES_MAX,
        &Start {
            genesis: BOTTOM,
            commit_history_rounds: H,
            bottom: BOTTOM,
            peers: u32::MAX,
            after_gap: true,
            ..Start::default()
        },
        TOP,
    )
}

/// Eight of the 32 peers have points in a round, the next eight in the next.
fn eight(round: u32) -> Vec<PointId> {
    (0..8).map(|k| point(round, round % 4 * 8 + k)).collect()
}

/// The points of a round, each with all of the round below as includes and of two below as witness, as far as retained.
fn fill(committer: &mut Committer, row: impl Fn(u32) -> Vec<PointId>, round: u32) {
    let below = |down: u32| if round >= BOTTOM + down { row(round - down) } else { Vec::new() };
    for id in row(round) {
        add(committer, &id, &below(1), &below(2));
    }
}

fn height_below(top: u32, round: u32) -> u16 {
    (H + 1).saturating_sub(top - round) as u16
}

/// One point is the top; the other points of its round stay at 0, and all below have the height of their distance.
fn assert_heights(points: &[Point], top: &PointId) {
    for point in points {
        let expected = match point.id.round {
            round if round == top.round => {
                if point.id == *top {
                    H as u16 + 1
                } else {
                    0
                }
            }
            round => height_below(top.round, round),
        };
        assert_eq!(point.height(), expected, "round {}", point.id.round);
        assert_eq!(point.is_top(), point.id == *top);
    }
}

/// Every used place once.
fn assert_places(committer: &Committer) {
    let (tables, state) = committer.parts();
    let mut places = tables.order[..state.count].to_vec();
    places.sort_unstable();
    places.dedup();
    assert_eq!(places.len(), state.count);
    assert!(places.iter().all(|place| (*place as usize) < PLACES_MAX));
}

/// All refusals that full tables can give, each of them without an effect.
fn assert_refusals(committer: &mut Committer, free: &PointId) {
    refuses(committer, 4, |c| c.round(TOP + 1, u32::MAX));
    refuses(committer, 3, |c| c.round(TOP + 2, u32::MAX));
    refuses(committer, 4, |c| c.name(free));
    refuses(committer, 7, |c| c.name(&point(TOP, TOP % 4 * 8)));
    refuses(committer, 5, |c| c.name(&PointId { author: 32, ..*free }));
    refuses(committer, 6, |c| c.name(&point(BOTTOM - 1, 0)));
    refuses(committer, 9, |c| c.certify(free));
    refuses(committer, 9, |c| c.resolve(free, &valid(&[], &[])));
    refuses(committer, 10, |c| c.resolve(&point(BOTTOM, BOTTOM % 4 * 8), &valid(&[], &[])));
    refuses(committer, 2, |c| c.start(&Start { commit_history_rounds: 1, ..Start::default() }));
    refuses(committer, 1, |c| c.start(&Start::default()));
}

#[test]
fn filled_with_512_rounds() {
    let mut committer = of_all_rounds();
    for round in BOTTOM..=TOP {
        fill(&mut committer, eight, round);
    }
    assert_eq!(committer.parts().1.count, PLACES_MAX);
    assert_eq!(committer.summary().unwrap().rounds.len(), ROUNDS_MAX);
    assert_places(&committer);
    let free = version(TOP - 3, (TOP - 3) % 4 * 8, 1);
    assert_refusals(&mut committer, &free);

    let top = eight(TOP)[5];
    committer.certify(&top).unwrap();
    let points = committer.points();
    assert_eq!(points.len(), PLACES_MAX);
    let ids: Vec<PointId> = (BOTTOM..=TOP).flat_map(eight).collect();
    assert_eq!(points.iter().map(|point| point.id).collect::<Vec<_>>(), ids);
    assert_heights(&points, &top);

    assert_eq!(committer.gap_question(), Ok(true));
    assert_eq!(committer.gap_question(), Ok(false));

    // half of the rounds go, as many come
    let half = BOTTOM + 256;
    assert_eq!(committer.drop_upto(half), Ok(true));
    assert_eq!(committer.points(), points[2048..]);
    for round in TOP + 1..=TOP + 256 {
        committer.round(round, u32::MAX).unwrap();
        fill(&mut committer, eight, round);
    }
    assert_eq!(committer.parts().1.count, PLACES_MAX);
    assert_places(&committer);
    refuses(&mut committer, 4, |c| c.round(TOP + 257, u32::MAX));
    refuses(&mut committer, 4, |c| c.name(&free));

    // a second top far above the first: the larger height counts
    let second = eight(TOP + 100)[0];
    committer.certify(&second).unwrap();
    for point in committer.points() {
        let round = point.id.round;
        let by_first = if round < TOP || point.id == top { height_below(TOP, round) } else { 0 };
        let by_second = if round < second.round || point.id == second { height_below(second.round, round) } else { 0 };
        assert_eq!(point.height(), by_first.max(by_second), "round {round}");
    }

    committer.reset().unwrap();
    assert_eq!(committer.points(), []);
    committer.start(&Start { commit_history_rounds: 1, ..Start::default() }).unwrap();
    assert_eq!(committer.summary().unwrap().rounds.len(), 1);
}

/// 128 rounds of 32 points with 64 links each.
#[test]
fn filled_with_links() {
    let last = BOTTOM + 127;
    let row = |round| (0..32).map(|author| point(round, author)).collect::<Vec<_>>();
    let mut committer = of_all_rounds();
    for round in BOTTOM..=last {
        fill(&mut committer, row, round);
    }
    let (tables, state) = committer.parts();
    assert_eq!(state.count, PLACES_MAX);
    // all links but those of the two lowest rounds
    let targets =
        tables.links.chunks(328).map(|place| place[8..72].iter().filter(|word| **word != 0).count()).sum::<usize>();
    assert_eq!(targets, 32 * (126 * 64 + 32));
    refuses(&mut committer, 4, |c| c.name(&point(last + 1, 0)));
    let top = point(last, 31);
    committer.certify(&top).unwrap();
    assert_heights(&committer.points(), &top);
    // drop all but the top of the retained rounds, which has no points
    assert_eq!(committer.drop_upto(u32::MAX), Ok(false));
    assert_eq!(committer.points(), []);
    assert_eq!(committer.summary().unwrap().bottom, TOP);
}

/// 32 rounds of 32 authors with four digests each, certified before they are resolved.
#[test]
fn filled_with_versions() {
    let mut committer = of_all_rounds();
    for round in BOTTOM..BOTTOM + 32 {
        for author in 0..32 {
            for n in 0..4 {
                committer.name(&version(round, author, n)).unwrap();
            }
        }
    }
    refuses(&mut committer, 8, |c| c.name(&version(BOTTOM, 7, 4)));
    refuses(&mut committer, 4, |c| c.name(&version(BOTTOM + 32, 7, 0)));
    let top = version(BOTTOM + 31, 3, 3);
    committer.certify(&top).unwrap();
    // one path down: each version 3 of author 3 includes the one below
    for round in (BOTTOM + 1..BOTTOM + 32).rev() {
        committer.resolve(&version(round, 3, 3), &valid(&[version(round - 1, 3, 3)], &[])).unwrap();
    }
    for point in committer.points() {
        let on_path = point.id == version(point.id.round, 3, 3);
        let expected = if on_path { height_below(top.round, point.id.round) } else { 0 };
        assert_eq!(point.height(), expected);
    }
}

/// Rounds go and come by one until every record of the 512 was used twice.
#[test]
fn rounds_move_on() {
    let mut committer = of_all_rounds();
    for round in TOP + 1..TOP + 1 + 2 * ROUNDS_MAX as u32 {
        refuses(&mut committer, 4, |c| c.round(round, round));
        assert_eq!(committer.drop_upto(round - 511), Ok(true));
        assert_eq!(committer.round(round, round), Ok(()));
        let summary = committer.summary().unwrap();
        assert_eq!((summary.bottom, summary.top), (round - 511, round));
        let expected = |r: u32| if r <= TOP { u32::MAX } else { r };
        assert!(summary.rounds.iter().all(|record| record.peers == expected(record.round)));
    }
}
