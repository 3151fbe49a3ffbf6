//! Place lists (document 02, N1): the order inside a round, which lists are refused with 24 and when, lists that an
//! outlook tells the lengths of.

use committer::{
    Anchor, Committer, Look, POINT_BYTES, PointId, PointInfo, RECORD_BYTES, Refusal, Refused, Start, looks,
};

use crate::commits::{anchor, proof, put, trigger, used};
use crate::common::{assert_outlook, assert_unchanged, buffer, handed, id, point, refuses, started, valid, version};
use crate::outlooks::{look, trigger_of_two, two_anchors};

const BAD_LISTS: Refused = Refused { refusal: Refusal::BadLists, finished: 0 };

/// The anchor's proof and the trigger above it. Returned is the trigger.
pub fn proved(committer: &mut Committer, anchor: PointId) -> PointId {
    let [p, t] = [id(anchor.round + 1, 0, 'p'), id(anchor.round + 2, 0, 't')];
    put(committer, p, proof(p, &[anchor]));
    put(committer, t, trigger(&[p]));
    t
}

/// The same, and the anchor is certified.
pub fn yields(committer: &mut Committer, anchor: PointId) -> PointId {
    let trigger = proved(committer, anchor);
    committer.certify(&anchor).unwrap();
    trigger
}

/// K13 in place order: a in 11, b and c above it, the anchor d in 13, its proof e, the trigger f.
pub fn k13_points() -> [(PointId, PointInfo); 6] {
    let [a, b, c, d] = [id(11, 0, 'a'), id(12, 0, 'b'), id(12, 1, 'c'), id(13, 0, 'd')];
    let [e, f] = [id(14, 0, 'e'), id(15, 0, 'f')];
    [
        (a, valid(&[], &[])),
        (b, valid(&[a], &[])),
        (c, valid(&[a], &[])),
        (d, anchor(id(10, 0, 'z'), &[b, c])),
        (e, proof(e, &[d])),
        (f, trigger(&[e])),
    ]
}

fn k13(after_gap: bool) -> (Committer, PointId) {
    let mut committer = started(8, &Start { after_gap, ..used() }, 15);
    let points = k13_points();
    points.iter().for_each(|(id, info)| put(&mut committer, *id, info.clone()));
    committer.certify(&points[3].0).unwrap();
    (committer, points[5].0)
}

/// The letters of each record's points, in their order; this committer wrote them.
pub fn letters(committer: &Committer, bytes: &[u8], count: u32) -> Vec<String> {
    handed(committer, bytes, count).iter().map(letters_of).collect()
}

/// The letters of a record's points, in their order.
pub fn letters_of(anchor: &Anchor) -> String {
    anchor.points.iter().map(|id| char::from(id.digest[0])).collect()
}

/// The commit hands out records with these letters, in a buffer of just as many bytes.
pub fn hands_out(committer: &Committer, trigger: &PointId, lists: &[u8], expected: &[&str]) -> Committer {
    let mut copy = committer.clone();
    let mut bytes = buffer(expected.iter().map(|points| RECORD_BYTES + POINT_BYTES * points.len()).sum());
    assert_eq!(copy.commit(trigger, lists, &mut bytes), Ok(expected.len() as u32), "{lists:?}");
    assert_eq!(letters(&copy, &bytes, expected.len() as u32), expected);
    copy
}

/// Refused before an anchor is finished, with nothing changed and no byte written, in a buffer of any length.
pub fn refused_at_first(committer: &Committer, trigger: &PointId, lists: &[u8], number: u32) {
    for length in [0, 98, 99, 5000] {
        let mut bytes = buffer(length);
        refuses(&mut committer.clone(), number, |c| c.commit(trigger, lists, &mut bytes));
        assert_eq!(bytes, buffer(length), "{lists:?}");
    }
}

/// What the outlook tells.
pub fn told(committer: &Committer, trigger: &PointId) -> Vec<Look> {
    assert_outlook(committer, trigger);
    let mut bytes = buffer(5000);
    let count = committer.outlook(trigger, &mut bytes).expect("an outlook");
    looks(&bytes, count, committer.parts().1)
}

#[test]
fn k13_in_both_orders() {
    let (committer, trigger) = k13(false);
    let one = hands_out(&committer, &trigger, &[0, 0, 1, 0], &["acbd"]);
    let other = hands_out(&committer, &trigger, &[0, 1, 0, 0], &["abcd"]);
    // bytes beyond the lists aren't read
    let more = hands_out(&committer, &trigger, &[0, 1, 0, 0, 255, 255], &["abcd"]);
    // marks and state don't depend on the order
    assert_unchanged(&one, &other);
    assert_unchanged(&one, &more);
    let mut bytes = buffer(426);
    refuses(&mut committer.clone(), 21, |c| c.commit(&trigger, &[0, 1, 0, 0], &mut bytes));
    assert_eq!(bytes, buffer(426));
}

#[test]
fn k13_with_wrong_lists() {
    let (committer, trigger) = k13(false);
    for lists in [&[0, 0, 0, 0][..], &[0, 2, 0, 0], &[1, 1, 0, 0], &[0, 0, 1], &[]] {
        refused_at_first(&committer, &trigger, lists, 24);
    }
    // a short buffer is asked of right lists only
    refuses(&mut committer.clone(), 21, |c| c.commit(&trigger, &[0, 0, 1, 0], &mut []));
}

/// All lists of up to five bytes of 0 to 2, and some with larger bytes.
#[test]
fn k13_with_any_lists() {
    let (committer, trigger) = k13(false);
    let mut right = 0;
    for length in 0..=5 {
        for number in 0..4u32.pow(length) {
            let lists: Vec<u8> = (0..length).map(|at| [0, 1, 2, 255][number as usize >> (2 * at) & 3]).collect();
            match lists.get(..4) {
                Some([0, 0, 1, 0]) => drop(hands_out(&committer, &trigger, &lists, &["acbd"])),
                Some([0, 1, 0, 0]) => drop(hands_out(&committer, &trigger, &lists, &["abcd"])),
                _ => {
                    let mut bytes = buffer(500);
                    refuses(&mut committer.clone(), 24, |c| c.commit(&trigger, &lists, &mut bytes));
                    assert_eq!(bytes, buffer(500));
                    continue;
                }
            }
            right += 1;
        }
    }
    assert_eq!(right, 2 + 2 * 4);
}

#[test]
fn k13_outlook() {
    let (committer, trigger) = k13(false);
    let mut bytes = buffer(53);
    assert_eq!(committer.outlook(&trigger, &mut bytes), Ok(1));
    assert_eq!(bytes[37..], [4, 1, 2, 1].map(u32::to_be_bytes).concat());
    assert_eq!(told(&committer, &trigger), [look(id(13, 0, 'd'), 4, &[1, 2, 1])]);
    let mut short = buffer(52);
    refuses(&mut committer.clone(), 21, |c| c.outlook(&trigger, &mut short));
    assert_eq!(short, buffer(52));
}

/// 20 before 24, 18 before both.
#[test]
fn the_order_of_tests() {
    let (mut committer, trigger) = k13(true);
    for lists in [&[][..], &[0, 0, 0, 0], &[0, 0, 1, 0]] {
        refused_at_first(&committer, &trigger, lists, 20);
    }
    assert_eq!(committer.gap_question(), Ok(true));
    refused_at_first(&committer, &trigger, &[], 24);
    hands_out(&committer, &trigger, &[0, 0, 1, 0], &["acbd"]);
    let mut committer = started(4, &used(), 13);
    let [a, p, t] = [id(11, 0, 'a'), id(12, 0, 'p'), id(13, 0, 't')];
    put(&mut committer, a, anchor(id(10, 0, 'z'), &[]));
    put(&mut committer, p, proof(p, &[a]));
    put(&mut committer, t, crate::commits::trigger(&[p]));
    refused_at_first(&committer, &t, &[1], 18);
}

/// A byte says which point stands at its position, not where a point went: the two differ from three points on.
#[test]
fn three_points_of_a_round() {
    let mut committer = started(8, &used(), 14);
    let row = [id(11, 0, 'a'), id(11, 1, 'b'), id(11, 2, 'c')];
    row.iter().for_each(|id| put(&mut committer, *id, valid(&[], &[])));
    put(&mut committer, id(12, 0, 'd'), anchor(id(10, 0, 'z'), &row));
    let trigger = yields(&mut committer, id(12, 0, 'd'));
    assert_eq!(told(&committer, &trigger)[0].linked, [1, 3]);
    for (list, expected) in [
        ([0, 1, 2], "cbad"),
        ([0, 2, 1], "bcad"),
        ([1, 0, 2], "cabd"),
        ([1, 2, 0], "acbd"),
        ([2, 0, 1], "bacd"),
        ([2, 1, 0], "abcd"),
    ] {
        hands_out(&committer, &trigger, &[&[0], &list[..]].concat(), &[expected]);
    }
    for list in [[0, 1, 1], [0, 1, 3], [3, 1, 2], [2, 2, 2], [0, 0, 1]] {
        refused_at_first(&committer, &trigger, &[&[0], &list[..]].concat(), 24);
    }
}

#[test]
fn two_anchors_at_once() {
    let (committer, trigger) = (two_anchors(false), trigger_of_two());
    let looks = told(&committer, &trigger);
    assert_eq!(looks, [look(id(12, 0, 'b'), 2, &[1, 1]), look(id(14, 0, 'd'), 2, &[1, 1, 1])]);
    assert_eq!(looks.iter().map(Look::bytes).sum::<usize>(), 102);
    // b is linked and committed then: it has a byte, and isn't handed out again
    hands_out(&committer, &trigger, &[0; 5], &["ab", "cd"]);
    hands_out(&committer, &trigger, &[0, 0, 0, 0, 0, 7], &["ab", "cd"]);
}

/// The first anchor's record, marks and state stay as if it had been committed alone.
#[test]
fn wrong_lists_of_the_second_anchor() {
    let (committer, trigger) = (two_anchors(false), trigger_of_two());
    let mut first: Option<Committer> = None;
    for lists in [&[0, 0][..], &[0, 0, 0], &[0, 0, 0, 0], &[0, 0, 1, 0, 0], &[0, 0, 0, 1, 0], &[0, 0, 0, 0, 255]] {
        for length in [263, 264, 1000] {
            let mut copy = committer.clone();
            let mut bytes = buffer(length);
            assert_eq!(
                copy.commit(&trigger, lists, &mut bytes),
                Err(Refused { finished: 1, ..BAD_LISTS }),
                "{lists:?}"
            );
            assert_eq!(letters(&copy, &bytes, 1), ["ab"]);
            assert!(bytes[263..].iter().all(|byte| *byte == 0xa5), "bytes beyond the records were touched");
            assert_unchanged(first.get_or_insert(copy.clone()), &copy);
        }
    }
    let mut committer = first.expect("committed");
    let marked: Vec<PointId> = committer.points().iter().filter(|p| p.is_committed()).map(|p| p.id).collect();
    assert_eq!(marked, [id(11, 0, 'a'), id(12, 0, 'b')]);
    assert_eq!(told(&committer, &trigger), [look(id(14, 0, 'd'), 2, &[1, 1, 1])]);
    refused_at_first(&committer, &trigger, &[0, 0], 24);
    committer = hands_out(&committer, &trigger, &[0, 0, 0], &["cd"]);
    assert_eq!(told(&committer, &trigger), []);
}

/// A round that a witness link passes over has no byte; nor has one without points above the bottom.
#[test]
fn rounds_without_points() {
    let mut committer = started(8, &used(), 15);
    let (a, d) = (id(11, 0, 'a'), id(13, 0, 'd'));
    put(&mut committer, a, valid(&[], &[]));
    put(&mut committer, d, PointInfo { top_proof: id(10, 0, 'z'), ..valid(&[], &[a]) });
    let trigger = yields(&mut committer, d);
    assert_eq!(told(&committer, &trigger), [look(d, 2, &[1, 0, 1])]);
    hands_out(&committer, &trigger, &[0, 0], &["ad"]);
    refused_at_first(&committer, &trigger, &[0], 24);
    refused_at_first(&committer, &trigger, &[0, 1], 24);

    let with = Start { commit_history_rounds: 4, bottom: 15, ..used() };
    let mut committer = started(8, &with, 18);
    let a = id(16, 0, 'a');
    put(&mut committer, a, anchor(id(15, 0, 'z'), &[]));
    let trigger = yields(&mut committer, a);
    assert_eq!(told(&committer, &trigger), [look(a, 1, &[1, 0])]);
    hands_out(&committer, &trigger, &[0], &["a"]);
    refused_at_first(&committer, &trigger, &[], 24);
}

/// 128 points of round 11, as many as there can be: four digests of each of 32 authors, by rising digest.
pub fn widest_row() -> Vec<PointId> {
    (0..4).flat_map(|n| (0..32).map(move |author| version(11, author, n))).collect()
}

/// The points above them, which include one version of each author.
pub fn above_widest() -> [PointId; 4] {
    [0, 1, 2, 3].map(|author| point(12, author))
}

/// The widest row, named in this order; of its points these are linked, under the anchor d in 13. Returned with its
/// trigger.
pub fn widest(named: &[PointId], linked: &[PointId]) -> (Committer, PointId) {
    let mut committer = started(200, &used(), 15);
    named.iter().for_each(|id| put(&mut committer, *id, valid(&[], &[])));
    for (id, versions) in above_widest().iter().zip(widest_row().chunks(32)) {
        let includes: Vec<PointId> = versions.iter().filter(|id| linked.contains(id)).copied().collect();
        put(&mut committer, *id, valid(&includes, &[]));
    }
    let d = id(13, 0, 'd');
    put(&mut committer, d, anchor(id(10, 0, 'z'), &above_widest()));
    let trigger = yields(&mut committer, d);
    (committer, trigger)
}

#[test]
fn the_widest_round() {
    let row = widest_row();
    let (committer, trigger) = widest(&row, &row);
    let d = id(13, 0, 'd');
    assert_eq!(told(&committer, &trigger), [look(d, 133, &[1, 4, 128])]);
    let list: Vec<u8> = (0..128u32).map(|k| (k * 77 + 5) as u8 % 128).collect();
    let right = [&[0, 3, 2, 1, 0], &list[..]].concat();
    let mut bytes = buffer(RECORD_BYTES + 133 * POINT_BYTES);
    assert_eq!(committer.clone().commit(&trigger, &right, &mut bytes), Ok(1));
    let expected: Vec<PointId> =
        list.iter().rev().map(|place| row[usize::from(*place)]).chain(above_widest()).chain([d]).collect();
    assert_eq!(handed(&committer, &bytes, 1)[0].points, expected);
    for (at, byte) in [(5, 128), (6, 255), (132, right[131]), (132, 133), (4, 128), (1, 4)] {
        let mut wrong = right.clone();
        wrong[at] = byte;
        refused_at_first(&committer, &trigger, &wrong, 24);
    }
    refused_at_first(&committer, &trigger, &right[..132], 24);
}
