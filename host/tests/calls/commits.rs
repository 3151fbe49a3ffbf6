//! Commits: K13 of document 01, list A of docs/DIFFERENCES.md, chains of anchors, each refusal, buffers.

use std::cmp::Reverse;

use committer::{
    Anchor, Answer, BrokenAnchor, Call, Committer, PointId, PointInfo, Refusal, Refused, Start, Word, anchors,
};

use crate::behind::behind;
use crate::common::{
    assert_outlook, assert_unchanged, beginning, buffer, handed, id_bytes, link, lists, paid, point, refuses, started,
    valid, version,
};

const LARGE: usize = committer::COMMIT_BYTES_MAX;

pub fn put(committer: &mut Committer, id: PointId, info: PointInfo) {
    committer.name(&id).expect("a new point");
    committer.resolve(&id, &info).expect("a named point");
}

/// A valid anchor whose top proof is this one.
pub fn anchor(top_proof: PointId, includes: &[PointId]) -> PointInfo {
    PointInfo { top_proof, ..valid(includes, &[]) }
}

pub fn proof(id: PointId, includes: &[PointId]) -> PointInfo {
    PointInfo { proof: true, top_proof: id, ..valid(includes, &[]) }
}

pub fn trigger(includes: &[PointId]) -> PointInfo {
    PointInfo { trigger: true, ..valid(includes, &[]) }
}

/// Commits into a large buffer, with right lists; the outlook before it says the same.
fn commit(committer: &mut Committer, id: &PointId) -> Result<Vec<Anchor>, (Refused, Vec<Anchor>)> {
    assert_outlook(committer, id);
    let mut bytes = buffer(LARGE);
    let given = committer.commit(id, &lists(committer, id), &mut bytes);
    let count = given.unwrap_or_else(|why| why.finished);
    let records = handed(committer, &bytes, count);
    assert_eq!(records.len(), count as usize);
    let end = records.iter().map(Anchor::bytes).sum();
    assert!(bytes[end..].iter().all(|byte| *byte == 0xa5), "bytes beyond the records were touched");
    given.map_err(|why| (why, records.clone())).map(|_| records)
}

fn refused(number: u32, round: u32, finished: u32) -> Refused {
    Refused { refusal: Refusal::of(number, round).expect("a number of the table"), finished }
}

/// Start at 10, used by 0, no gap.
pub fn used() -> Start {
    Start { used: Some(0), ..beginning() }
}

#[test]
fn k13() {
    let mut committer = started(16, &used(), 15);
    let bottom = point(10, 0);
    let [low, left, right] = [point(11, 1), point(12, 0), point(12, 1)];
    let [a, p, t] = [point(13, 0), point(14, 0), point(15, 0)];
    put(&mut committer, low, valid(&[], &[]));
    put(&mut committer, left, valid(&[low], &[]));
    put(&mut committer, right, valid(&[low], &[]));
    put(&mut committer, a, anchor(bottom, &[left, right]));
    put(&mut committer, p, proof(p, &[a]));
    put(&mut committer, t, trigger(&[p]));
    committer.certify(&a).unwrap();
    let records = commit(&mut committer, &t).unwrap();
    let points = vec![low, right, left, a];
    assert_eq!(
        records,
        [Anchor {
            anchor: a,
            proof: p,
            executable: true,
            previous: 0,
            points: points.clone(),
            links: vec![
                behind(left, Word::Includes),
                behind(a, Word::Includes),
                behind(a, Word::Includes),
                behind(a, Word::Anchor)
            ],
            payload_len: 0,
            payload_bytes: 0
        }]
    );
    for held in committer.points() {
        assert_eq!(held.is_committed(), points.contains(&held.id), "{held:?}");
    }
    let summary = committer.summary().unwrap();
    assert_eq!((summary.last_committed_proof, summary.last_anchor), (Some(14), Some(13)));
    assert_eq!(
        summary.rounds.iter().map(|round| round.used).collect::<Vec<_>>(),
        [Some(0), None, None, None, Some(0), None]
    );
    // K12: nothing is left to walk, or to commit
    let before = committer.clone();
    assert_eq!(commit(&mut committer, &t), Ok(vec![]));
    assert_unchanged(&committer, &before);
}

/// Anchors 11, 13, 15 and so on by author 0, each with its proof; the last point is the trigger. H 1. Anchors aren't
/// certified here.
pub struct Chain {
    pub committer: Committer,
    anchors: Vec<PointId>,
    trigger: PointId,
}

pub fn chain(count: u32, with: &Start, change: impl Fn(PointId, PointInfo) -> PointInfo) -> Chain {
    let top = with.bottom + 2 * count + 1;
    let mut committer = started(32, with, top);
    let mut last = point(with.bottom, 0);
    let mut anchors = Vec::new();
    for n in 0..count {
        let id = point(with.bottom + 1 + 2 * n, 0);
        let below: Vec<PointId> = anchors.last().map(|_| last).into_iter().collect();
        put(&mut committer, id, change(id, anchor(last, &below)));
        last = point(id.round + 1, 0);
        put(&mut committer, last, change(last, proof(last, &[id])));
        anchors.push(id);
    }
    let trigger_id = point(top, 0);
    put(&mut committer, trigger_id, change(trigger_id, trigger(&[last])));
    Chain { committer, anchors, trigger: trigger_id }
}

fn as_it_is(_: PointId, info: PointInfo) -> PointInfo {
    info
}

pub fn short() -> Start {
    Start { commit_history_rounds: 1, ..used() }
}

pub fn certified(mut chain: Chain) -> Chain {
    for id in &chain.anchors {
        chain.committer.certify(id).unwrap();
    }
    chain
}

/// List A of docs/DIFFERENCES.md.
fn list_a() -> Chain {
    certified(chain(1, &short(), as_it_is))
}

#[test]
fn list_a_and_its_bytes() {
    let payload = |id: PointId, info| paid(info, if id.round == 11 { (0x0102_0304, u32::MAX) } else { (1, 1) });
    let mut list = certified(chain(1, &short(), payload));
    let (a, p) = (point(11, 0), point(12, 0));
    let mut bytes = buffer(200);
    assert_eq!(list.committer.commit(&list.trigger, &[0], &mut bytes), Ok(1));
    let sums = [0, 0, 0, 0, 1, 2, 3, 4, 0, 0, 0, 0, 255, 255, 255, 255];
    let (anchor, proof) = (id_bytes(&a), id_bytes(&p));
    let link = [&anchor[..], b"anchor\0\0"].concat();
    let record = [&anchor[..], &proof, &[1], &[0; 4], &[0, 0, 0, 1], &anchor, &link, &sums].concat();
    assert_eq!(record.len(), 181);
    assert_eq!(bytes[..181], record);
    assert!(bytes[181..].iter().all(|byte| *byte == 0xa5));
    // entry 3: only a reset forgets the last proof
    assert_eq!(list.committer.drop_upto(13), Ok(true));
    assert_eq!(list.committer.summary().unwrap().last_committed_proof, Some(12));
}

#[test]
fn chains_of_anchors() {
    for count in 1..=9 {
        let mut list = certified(chain(count, &short(), as_it_is));
        let records = commit(&mut list.committer, &list.trigger).unwrap();
        assert_eq!(records.iter().map(|record| record.anchor).collect::<Vec<_>>(), list.anchors);
        for (n, record) in (0..).zip(&records) {
            assert_eq!(record.proof, point(12 + 2 * n, 0));
            assert_eq!(record.previous, if n == 0 { 0 } else { 9 + 2 * n });
            let below = (n > 0).then(|| point(10 + 2 * n, 0));
            assert_eq!(record.points, below.into_iter().chain([record.anchor]).collect::<Vec<_>>());
        }
        assert_eq!(list.committer.summary().unwrap().last_committed_proof, Some(10 + 2 * count));
    }
}

/// The first anchor's lists, 24 after it, and the next one's. The records are those of one commit with all lists. An outlook
/// between tells what the first one told of the anchors left.
#[test]
fn anchor_by_anchor() {
    for (count, commit_history_rounds) in (1..=9).flat_map(|count| [(count, 1), (count, 4)]) {
        let mut list = certified(chain(count, &Start { commit_history_rounds, ..short() }, as_it_is));
        let mut whole = list.committer.clone();
        let expected = commit(&mut whole, &list.trigger).unwrap();
        let Answer::Looked(looks) = list.committer.call(&Call::Outlook(list.trigger)) else { panic!("an outlook") };
        assert_eq!(looks.len(), count as usize);
        let mut records = Vec::new();
        for (n, look) in looks.iter().enumerate() {
            assert_eq!(list.committer.call(&Call::Outlook(list.trigger)), Answer::Looked(looks[n..].to_vec()));
            let mut bytes = buffer(LARGE);
            let due = if n + 1 == looks.len() { Ok(1) } else { Err(refused(24, 0, 1)) };
            assert_eq!(list.committer.commit(&list.trigger, &look.lists_in_order(), &mut bytes), due);
            records.extend(handed(&list.committer, &bytes, 1));
        }
        assert_eq!(records, expected);
        assert_unchanged(&list.committer, &whole);
    }
}

/// Each byte of the lists wrong or missing in turn: 24 with the anchors before it. The lists from its anchor on then give
/// what is left.
#[test]
fn each_byte_of_the_lists() {
    let list = certified(chain(3, &short(), as_it_is));
    let mut whole = list.committer.clone();
    let mut large = buffer(LARGE);
    assert_eq!(whole.commit(&list.trigger, &[0; 5], &mut large), Ok(3));
    let records = handed(&whole, &large, 3);
    // the second and the third anchor have a point below them in their lists
    for (at, finished) in [0, 1, 1, 2, 2].into_iter().enumerate() {
        let mut wrong = [0; 5];
        wrong[at] = 1;
        for lists in [&wrong[..], &wrong[..at]] {
            let mut committer = list.committer.clone();
            let mut bytes = buffer(LARGE);
            assert_eq!(committer.commit(&list.trigger, lists, &mut bytes), Err(refused(24, 0, finished as u32)));
            let end = records[..finished].iter().map(Anchor::bytes).sum::<usize>();
            assert_eq!(bytes[..end], large[..end]);
            assert!(bytes[end..].iter().all(|byte| *byte == 0xa5));
            let rest = &[0; 5][[0, 1, 3][finished]..];
            assert_eq!(committer.commit(&list.trigger, rest, &mut bytes), Ok(3 - finished as u32));
            assert_eq!(handed(&committer, &bytes, 3 - finished as u32), records[finished..]);
            assert_unchanged(&committer, &whole);
        }
    }
}

/// Every length up to that of two records: 21 with those that fit; what comes after is as if nothing had been between.
#[test]
fn buffers_of_every_length() {
    let list = certified(chain(2, &short(), as_it_is));
    let mut whole = list.committer.clone();
    let mut large = buffer(LARGE);
    assert_eq!(whole.commit(&list.trigger, &[0; 3], &mut large), Ok(2));
    let (one, two) = (181, 181 + 99 + 2 * 82);
    for length in 0..=two + 3 {
        let mut committer = list.committer.clone();
        let mut bytes = buffer(length);
        let given = committer.commit(&list.trigger, &[0; 3], &mut bytes);
        let (finished, end) = if length < one {
            (0, 0)
        } else if length < two {
            (1, one)
        } else {
            (2, two)
        };
        let due = if finished == 2 { Ok(2) } else { Err(refused(21, 0, finished)) };
        assert_eq!(given, due, "{length} bytes");
        assert_eq!(bytes[..end], large[..end]);
        assert!(bytes[end..].iter().all(|byte| *byte == 0xa5));
        match finished {
            0 => assert_unchanged(&committer, &list.committer),
            1 => {
                assert_eq!(committer.summary().unwrap().last_committed_proof, Some(12));
                assert_eq!(committer.points().iter().filter(|point| point.is_committed()).count(), 1);
                let mut rest = buffer(two - one);
                assert_eq!(committer.commit(&list.trigger, &[0; 2], &mut rest), Ok(1));
                assert_eq!(rest, large[one..two]);
                assert_unchanged(&committer, &whole);
            }
            _ => assert_unchanged(&committer, &whole),
        }
    }
}

/// Refused after one anchor: its record and marks stay, the same commit is refused again with 0 and changes nothing.
fn refused_after_one(mut list: Chain, number: u32, round: u32) {
    let (why, records) = commit(&mut list.committer, &list.trigger).unwrap_err();
    assert_eq!(why, refused(number, round, 1));
    assert_eq!(records.len(), 1);
    assert_eq!(records[0].anchor, list.anchors[0]);
    assert_eq!(list.committer.summary().unwrap().last_committed_proof, Some(list.anchors[0].round + 1));
    let marked: Vec<PointId> =
        list.committer.points().iter().filter(|point| point.is_committed()).map(|point| point.id).collect();
    assert_eq!(marked, records[0].points);
    refused_at_once(list, number, round);
}

fn refused_at_once(mut list: Chain, number: u32, round: u32) {
    let before = list.committer.clone();
    assert_eq!(commit(&mut list.committer, &list.trigger), Err((refused(number, round, 0), vec![])));
    assert_unchanged(&list.committer, &before);
}

/// A chain whose nth anchor includes a point by author 1 of this status; 0: not resolved. The anchors are certified.
fn with_side_point(count: u32, at: u32, status: u32) -> Chain {
    certified(side_point(count, at, status))
}

fn side_point(count: u32, at: u32, status: u32) -> Chain {
    let with = short();
    let side = point(with.bottom + 2 * at, 1);
    let target = point(side.round + 1, 0);
    let top = with.bottom + 2 * count + 1;
    let mut committer = started(32, &with, top);
    let mut last = point(with.bottom, 0);
    let mut anchors = Vec::new();
    committer.name(&side).unwrap();
    if status > 0 {
        committer.resolve(&side, &PointInfo { status, ..PointInfo::default() }).unwrap();
    }
    for n in 0..count {
        let id = point(with.bottom + 1 + 2 * n, 0);
        let mut below: Vec<PointId> = anchors.last().map(|_| last).into_iter().collect();
        below.extend((id == target).then_some(side));
        put(&mut committer, id, anchor(last, &below));
        last = point(id.round + 1, 0);
        put(&mut committer, last, proof(last, &[id]));
        anchors.push(id);
    }
    let id = point(top, 0);
    put(&mut committer, id, trigger(&[last]));
    Chain { committer, anchors, trigger: id }
}

#[test]
fn conflict_13() {
    for status in [3, 4, 5] {
        refused_after_one(with_side_point(2, 1, status), 13, 12);
        refused_after_one(with_side_point(3, 1, status), 13, 12);
    }
    // trans-invalid is usable unless it is proved
    let mut list = with_side_point(2, 1, 2);
    assert_eq!(commit(&mut list.committer.clone(), &list.trigger).unwrap().len(), 2);
    list.committer.certify(&point(12, 1)).unwrap();
    refused_after_one(list, 13, 12);
}

#[test]
fn conflict_13_of_the_walk_and_the_trigger() {
    for status in [2, 3, 4, 5] {
        for round in [11, 12, 13] {
            let mut list = chain(1, &short(), |id, info| match (id.round == round, status) {
                (true, 4 | 5) => PointInfo {
                    status,
                    includes: vec![],
                    proof: info.proof,
                    top_proof: info.top_proof,
                    ..PointInfo::default()
                },
                (true, _) => PointInfo { status, ..info },
                _ => info,
            });
            list.committer.certify(&point(11, 0)).unwrap();
            list.committer.certify(&point(round, 0)).unwrap();
            refused_at_once(list, 13, round);
        }
    }
}

#[test]
fn missing_14() {
    refused_after_one(with_side_point(2, 1, 0), 14, 0);
    // of the walk: the proof isn't resolved
    let mut committer = started(8, &short(), 13);
    put(&mut committer, point(11, 0), anchor(point(10, 0), &[]));
    committer.name(&point(12, 0)).unwrap();
    put(&mut committer, point(13, 0), trigger(&[point(12, 0)]));
    refused_at_once(Chain { committer, anchors: vec![], trigger: point(13, 0) }, 14, 0);
}

#[test]
fn unusable_15() {
    // the trigger (entry 1), the proof, the anchor
    for status in [2, 3] {
        for round in [11, 12, 13] {
            let list =
                chain(1, &short(), |id, info| PointInfo { status: if id.round == round { status } else { 1 }, ..info });
            refused_at_once(list, 15, 0);
        }
    }
    // of a history: the second anchor isn't certified, so neither is the invalid point that it includes; 15 comes before 18
    let mut list = side_point(2, 1, 3);
    list.committer.certify(&point(11, 0)).unwrap();
    refused_after_one(list, 15, 0);
}

#[test]
fn broken_16() {
    // a trigger, then a proof, without a previous point; a proof that isn't marked
    for round in [12, 13] {
        let list = chain(
            1,
            &short(),
            |id, info| {
                if id.round == round { PointInfo { includes: vec![], ..info } } else { info }
            },
        );
        refused_at_once(list, 16, 0);
    }
    let list = chain(1, &short(), |id, info| PointInfo { proof: info.proof && id.round != 12, ..info });
    refused_at_once(list, 16, 0);
    // another author than the used mark
    let list = certified(chain(1, &Start { used: Some(1), ..short() }, as_it_is));
    refused_at_once(list, 16, 0);
    // the sought proof above the round walked
    let list = chain(1, &short(), |id, info| if id.round == 11 { anchor(point(12, 0), &[]) } else { info });
    refused_at_once(certified(list), 16, 0);
}

#[test]
fn rounds_missing_17() {
    let with = Start {
        genesis: 10,
        commit_history_rounds: 2,
        deduplicate_rounds: 5,
        bottom: 20,
        used: Some(0),
        ..beginning()
    };
    let mut list = certified(chain(1, &with, as_it_is));
    list.committer.drop_upto(10).unwrap();
    list.committer.gap_question().unwrap();
    refused_at_once(list, 17, 0);
    // limits 16 and 18, full-history bottom 17
    let mut list = certified(chain(2, &Start { commit_history_rounds: 5, ..with }, as_it_is));
    list.committer.drop_upto(12).unwrap();
    list.committer.gap_question().unwrap();
    refused_after_one(list, 17, 0);
}

#[test]
fn not_certified_18() {
    refused_at_once(chain(1, &short(), as_it_is), 18, 0);
    let mut list = chain(2, &short(), as_it_is);
    list.committer.certify(&point(11, 0)).unwrap();
    refused_after_one(list, 18, 0);
}

#[test]
fn gap_question_20() {
    let mut list = certified(chain(2, &Start { after_gap: true, ..short() }, as_it_is));
    refused_at_once(Chain { committer: list.committer.clone(), ..certified(chain(2, &short(), as_it_is)) }, 20, 0);
    assert_eq!(list.committer.gap_question(), Ok(true));
    let records = commit(&mut list.committer, &list.trigger).unwrap();
    // the first executable anchor after a gap has no previous one
    assert_eq!(
        records.iter().map(|record| (record.executable, record.previous)).collect::<Vec<_>>(),
        [(true, 0), (true, 11)]
    );
    assert_eq!(list.committer.summary().unwrap().emit_first_after_gap, None);
}

#[test]
fn at_genesis_22() {
    let mut committer = started(8, &Start { commit_history_rounds: 1, ..beginning() }, 12);
    put(&mut committer, point(10, 0), anchor(point(9, 0), &[]));
    put(&mut committer, point(11, 0), proof(point(11, 0), &[point(10, 0)]));
    put(&mut committer, point(12, 0), trigger(&[point(11, 0)]));
    refused_at_once(Chain { committer, anchors: vec![], trigger: point(12, 0) }, 22, 0);
}

#[test]
fn ids_2_5_6_9() {
    let list = list_a();
    let mut committer = list.committer.clone();
    for (number, id) in [
        (5, point(13, 32)),
        (5, point(9, 32)),
        (5, point(99, u32::MAX)),
        (6, point(14, 0)),
        (6, point(u32::MAX, 0)),
        (9, point(13, 1)),
        (9, version(13, 0, 1)),
    ] {
        let mut bytes = buffer(300);
        refuses(&mut committer, number, |c| c.commit(&id, &[], &mut bytes));
        assert_eq!(bytes, buffer(300));
    }
    committer.name(&point(13, 2)).unwrap();
    refuses(&mut committer, 9, |c| c.commit(&point(13, 2), &[], &mut []));
    refuses(&mut Committer::new(4), 2, |c| c.commit(&list.trigger, &[], &mut []));
    // below the bottom, not a trigger, or at genesis: no anchors
    committer.resolve(&point(13, 2), &valid(&[], &[])).unwrap();
    let before = committer.clone();
    for id in [point(9, 0), point(0, 31), point(13, 2), point(11, 0)] {
        for lists in [&[][..], &[9, 9]] {
            assert_eq!(committer.commit(&id, lists, &mut []), Ok(0), "{id:?}");
            assert_unchanged(&committer, &before);
        }
    }
}

/// A list of the largest history: 255 rounds below the anchor, 4,096 places, each point with the largest payload.
#[test]
fn the_largest_history() {
    let with = Start { commit_history_rounds: 255, used: Some(0), ..beginning() };
    let mut committer = started(4096, &with, 268);
    let row = |round: u32| {
        let authors = if round == 11 { 14 } else { 16 };
        (0..authors).map(|author| point(round, author)).collect::<Vec<_>>()
    };
    for round in 11..=266 {
        for id in row(round) {
            if round == 266 && id.author > 0 {
                continue;
            }
            let below = if round == 11 { vec![] } else { row(round - 1) };
            let info = PointInfo { includes: below.iter().map(link).collect(), ..anchor(point(10, 0), &[]) };
            put(&mut committer, id, paid(info, (u32::MAX, u32::MAX)));
        }
    }
    let (a, p, t) = (point(266, 0), point(267, 0), point(268, 0));
    put(&mut committer, p, proof(p, &[a]));
    put(&mut committer, t, trigger(&[p]));
    committer.certify(&a).unwrap();
    let records = commit(&mut committer, &t).unwrap();
    assert_eq!(records.len(), 1);
    assert_eq!(records[0].points.len(), 14 + 254 * 16 + 1);
    assert_eq!([records[0].payload_len, records[0].payload_bytes], [4079 * u64::from(u32::MAX); 2]);
    assert!(records[0].points.is_sorted_by_key(|id| (id.round, Reverse(id.digest))));
    assert_eq!(records[0].points.iter().map(|id| id.round).min(), Some(11));
}

/// They are read as far as the one that isn't whole, which is told by its place.
#[test]
fn records_that_are_cut_short() {
    let mut list = certified(chain(3, &short(), as_it_is));
    let mut bytes = buffer(LARGE);
    assert_eq!(list.committer.commit(&list.trigger, &[0; 5], &mut bytes), Ok(3));
    let whole = handed(&list.committer, &bytes, 3);
    assert_eq!(anchors(&bytes, 2).as_deref(), Ok(&whole[..2]));
    for (n, (begin, end)) in [(0, 181), (181, 444), (444, 707)].into_iter().enumerate() {
        assert_eq!(anchors(&bytes[..end], n as u32 + 1).as_deref(), Ok(&whole[..=n]));
        for length in begin..end {
            assert_eq!(anchors(&bytes[..length], 3), Err(BrokenAnchor::Cut { at: begin }), "{length} bytes");
        }
    }
    assert_eq!(anchors(&[], 0), Ok(vec![]));
    assert_eq!(anchors(&[], 1), Err(BrokenAnchor::Cut { at: 0 }));
    assert_eq!(BrokenAnchor::Cut { at: 181 }.to_string(), "the anchor record at byte 181 is cut short");
}
