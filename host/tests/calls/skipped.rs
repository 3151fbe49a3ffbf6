//! Skipped triggers (document 02, N9): from the same state one board commits triggers that the other leaves out. Where the
//! later one's chain passes the proof that the earlier one's began with, records and words are the same.

use committer::{Anchor, COMMIT_BYTES_MAX, Committer, PointId, PointInfo, Start};

use crate::behind::{ANCHOR, Expected, INCLUDES};
use crate::commits::{certified, chain, short};
use crate::common::{assert_unchanged, buffer, handed, paid, point};

/// H 1, a start at 10, used by 0. Peer 0 has a point in each round from 11 to 17, each the previous point of the next; even
/// rounds are proofs, odd rounds from 13 on triggers. Odd rounds but the last are certified; their top proof is the point
/// below, that of 15 the one in this round.
fn tower(sought_by_15: u32) -> Committer {
    let change = |id: PointId, info: PointInfo| {
        if id.round % 2 == 0 {
            return paid(info, (1, id.round));
        }
        let top_proof = point(if id.round == 15 { sought_by_15 } else { id.round - 1 }, 0);
        paid(PointInfo { trigger: id.round > 11, top_proof, ..info }, (1, id.round))
    };
    certified(chain(3, &Start { peers: 3, ..short() }, change)).committer
}

/// The rounds of triggers, each with the number of anchors that its commit hands out.
type Fired = &'static [(u32, u32)];

/// Commits these one after the other: the records in a row.
fn fires(board: &mut Committer, triggers: Fired) -> Vec<u8> {
    let mut records = Vec::new();
    for (round, count) in triggers {
        let mut bytes = buffer(COMMIT_BYTES_MAX);
        // one point is linked in each round of a history
        assert_eq!(board.commit(&point(*round, 0), &[0; 5], &mut bytes), Ok(*count));
        let end = handed(board, &bytes, *count).iter().map(Anchor::bytes).sum();
        assert!(bytes[end..].iter().all(|byte| *byte == 0xa5), "bytes beyond the records were touched");
        records.extend(&bytes[..end]);
    }
    records
}

/// The records of these anchors, each with so many points, after the anchor in this round: the anchor itself, and the proof
/// before it.
fn expected(anchors: &[(u32, usize)], mut previous: u32) -> Vec<u8> {
    let mut bytes = Vec::new();
    for (round, count) in anchors {
        let [below, anchor, proof] = [*round - 1, *round, *round + 1].map(|round| point(round, 0));
        let points = [(below, anchor, INCLUDES), (anchor, anchor, ANCHOR)][2 - count..].to_vec();
        let payload_bytes = points.iter().map(|(id, ..)| u64::from(id.round)).sum();
        let sums = [*count as u64, payload_bytes];
        bytes.extend(Expected { proof, previous, points, sums }.bytes());
        previous = *round;
    }
    bytes
}

/// The rounds with a used mark, which is of peer 0. The last one is that of the last proof.
fn assert_used(board: &Committer, rounds: &[u32]) {
    let summary = board.summary().unwrap();
    let used = summary.rounds.iter().filter(|round| round.used == Some(0)).map(|round| round.round);
    assert_eq!(used.collect::<Vec<_>>(), rounds);
    assert!(summary.rounds.iter().all(|round| [None, Some(0)].contains(&round.used)));
    assert_eq!(summary.last_committed_proof, rounds.last().copied());
    assert_eq!(summary.last_anchor, rounds.last().map(|round| round - 1));
}

/// Two boards in the same state, and what both hand out and leave.
struct Row {
    /// committed on both before
    before: Fired,
    one: Fired,
    two: Fired,
    anchors: &'static [(u32, usize)],
    used: &'static [u32],
}

const TO_15: Row =
    Row { before: &[], one: &[(13, 1), (15, 1)], two: &[(15, 2)], anchors: &[(11, 1), (13, 2)], used: &[10, 12, 14] };

const TO_17: Row = Row {
    before: &[],
    one: &[(13, 1), (17, 2)],
    two: &[(17, 3)],
    anchors: &[(11, 1), (13, 2), (15, 2)],
    used: &[10, 12, 14, 16],
};

#[test]
fn the_same_records_and_words() {
    let rows = [
        TO_15,
        TO_17,
        Row { one: &[(15, 2), (17, 1)], ..TO_17 },
        Row { one: &[(13, 1), (15, 1), (17, 1)], ..TO_17 },
        Row { one: &[(13, 1), (13, 0)], two: &[(13, 1)], anchors: &[(11, 1)], used: &[10, 12], ..TO_15 },
        // the walk of 13 ends at the used mark of 12, which that of 15 seeks too
        Row { before: &[(13, 1)], one: &[(13, 0), (15, 1)], two: &[(15, 1)], anchors: &[(13, 2)], ..TO_15 },
    ];
    for row in rows {
        let mut one = tower(14);
        let previous = if fires(&mut one, row.before).is_empty() { 0 } else { 11 };
        let mut two = one.clone();
        let records = fires(&mut one, row.one);
        assert_eq!(records, fires(&mut two, row.two));
        assert_eq!(records, expected(row.anchors, previous));
        assert_unchanged(&one, &two);
        assert_used(&one, row.used);
    }
}

/// The chain of 17 goes from 15 to the start: it doesn't pass 12, and 11 is committed by the one alone.
#[test]
fn a_proof_that_is_not_passed() {
    let mut one = tower(10);
    let mut two = one.clone();
    let [first, last] = [(11, 1), (15, 2)].map(|anchor| expected(&[anchor], 0));
    assert_eq!(fires(&mut one, &[(13, 1), (17, 1)]), [first, last.clone()].concat());
    assert_eq!(fires(&mut two, &[(17, 1)]), last);
    assert_used(&one, &[10, 12, 16]);
    assert_used(&two, &[10, 16]);
}
