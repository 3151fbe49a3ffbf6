//! Outlooks: list A of docs/DIFFERENCES.md, lists of two anchors whose histories overlap, the sizes of a commit, buffers.
//! That they say what a commit would do is tested with the commits.

use committer::{
    Answer, COMMIT_BYTES_MAX, Call, CommitSizes, Committer, Look, OUTLOOK_BYTES_MAX, PointId, PointInfo, Refusal,
    Refused, Start, lists_in_order, looks,
};

use crate::common::{
    Noise, assert_sizes, assert_told, assert_unchanged, beginning, buffer, handed, id, id_bytes, paid, point, refuses,
    started, valid,
};
use crate::lists::{hands_out, letters, refused_at_first, told};

const NO_ROOM: Refused = Refused { refusal: Refusal::NoRoom, finished: 0 };

/// Named and resolved, with the payload numbers 1 and its round.
fn put(committer: &mut Committer, id: PointId, below: &[PointId], change: impl Fn(PointInfo) -> PointInfo) {
    committer.name(&id).expect("a new point");
    committer.resolve(&id, &change(paid(valid(below, &[]), (1, id.round)))).expect("a named point");
}

/// List A without its commit: anchor 11, trigger 13.
pub fn list_a() -> Committer {
    let mut committer = started(8, &Start { commit_history_rounds: 1, used: Some(0), ..beginning() }, 13);
    let [a, b, c] = [point(11, 0), point(12, 0), point(13, 0)];
    put(&mut committer, a, &[], |info| PointInfo { top_proof: point(10, 0), ..info });
    put(&mut committer, b, &[a], |info| PointInfo { proof: true, top_proof: b, ..info });
    put(&mut committer, c, &[b], |info| PointInfo { trigger: true, ..info });
    committer.certify(&a).unwrap();
    committer
}

/// The trigger of two anchors.
pub fn trigger_of_two() -> PointId {
    id(16, 0, 'f')
}

/// Two anchors, b in 12 and d in 14; the second one's history reaches the first. The trigger is f in 16.
pub fn two_anchors(after_gap: bool) -> Committer {
    let mut committer = started(8, &Start { after_gap, used: Some(0), ..beginning() }, 16);
    let [a, b, c, d, e] = [(11, 'a'), (12, 'b'), (13, 'c'), (14, 'd'), (15, 'e')].map(|(round, at)| id(round, 0, at));
    let f = trigger_of_two();
    put(&mut committer, a, &[], |info| info);
    put(&mut committer, b, &[a], |info| PointInfo { top_proof: id(10, 0, 'z'), ..info });
    put(&mut committer, c, &[b], |info| PointInfo { proof: true, top_proof: c, ..info });
    put(&mut committer, d, &[c], |info| PointInfo { top_proof: c, ..info });
    put(&mut committer, e, &[d], |info| PointInfo { proof: true, top_proof: e, ..info });
    put(&mut committer, f, &[e], |info| PointInfo { trigger: true, ..info });
    committer.certify(&b).unwrap();
    committer.certify(&d).unwrap();
    committer
}

pub fn look(anchor: PointId, points: u32, linked: &[u32]) -> Look {
    Look { anchor, points, linked: linked.to_vec() }
}

/// Every length up to one byte more than is needed: 21 and no byte written, or all of them and none beyond.
fn every_length(committer: &Committer, trigger: &PointId, expected: &[Look]) {
    let due = expected.iter().map(Look::bytes).sum();
    for length in 0..=due + 1 {
        let before = committer.clone();
        let mut bytes = buffer(length);
        let given = committer.outlook(trigger, &mut bytes);
        assert_unchanged(committer, &before);
        if length < due {
            assert_eq!(given, Err(NO_ROOM), "{length} bytes");
            assert_eq!(bytes, buffer(length));
        } else {
            assert_eq!(given, Ok(expected.len() as u32));
            assert_eq!(looks(&bytes, expected.len() as u32, committer.parts().1), expected);
            assert!(bytes[due..].iter().all(|byte| *byte == 0xa5));
        }
    }
}

#[test]
fn list_a_and_its_bytes() {
    let mut committer = list_a();
    let (a, trigger) = (point(11, 0), point(13, 0));
    let mut bytes = buffer(45);
    assert_eq!(committer.outlook(&trigger, &mut bytes), Ok(1));
    assert_eq!(bytes, [&id_bytes(&a)[..], &[0, 0, 0, 1], &[0, 0, 0, 1]].concat());
    every_length(&committer, &trigger, &[look(a, 1, &[1])]);
    let Answer::Looked(told) = committer.call(&Call::Outlook(trigger)) else { panic!("an outlook") };
    assert_eq!(told[0].to_string(), format!("outlook {} 1 linked 1", a.text(" ")));
    // nothing is left after the commit
    assert_eq!(committer.commit(&trigger, &[0], &mut buffer(181)), Ok(1));
    every_length(&committer, &trigger, &[]);
}

/// 12 is counted for the first anchor alone, and is linked from the second one's history; 11 is below the second one's
/// limit.
#[test]
fn two_anchors_and_the_gap_question() {
    let (b, d, trigger) = (id(12, 0, 'b'), id(14, 0, 'd'), trigger_of_two());
    for after_gap in [false, true] {
        let mut committer = two_anchors(after_gap);
        every_length(&committer, &trigger, &[look(b, 2, &[1, 1]), look(d, 2, &[1, 1, 1])]);
        if after_gap {
            let asked = Refused { refusal: Refusal::GapQuestion, finished: 0 };
            assert_eq!(committer.commit(&trigger, &[], &mut buffer(500)), Err(asked));
            committer.gap_question().unwrap();
        }
        // the first record has 263 bytes: the second anchor is left, with 12 committed
        assert_eq!(committer.commit(&trigger, &[0; 5], &mut buffer(263)), Err(Refused { finished: 1, ..NO_ROOM }));
        every_length(&committer, &trigger, &[look(d, 2, &[1, 1, 1])]);
    }
}

#[test]
fn bytes_that_are_cut_short() {
    let committer = two_anchors(false);
    let mut bytes = buffer(OUTLOOK_BYTES_MAX);
    assert_eq!(committer.outlook(&trigger_of_two(), &mut bytes), Ok(2));
    let state = committer.parts().1;
    let whole = looks(&bytes, 2, state);
    assert_eq!(looks(&bytes, 1, state), whole[..1]);
    assert_eq!(looks(&bytes[..101], 2, state), whole[..1]);
    assert_eq!(looks(&bytes[..48], 2, state), []);
    assert_eq!(looks(&bytes[..40], 2, state), []);
}

// ---- histories that overlap

/// Genesis 10, H 4, used by 0, peers 0 and 1.
pub fn b4_start() -> Start {
    Start { commit_history_rounds: 4, deduplicate_rounds: 5, peers: 3, used: Some(0), ..beginning() }
}

/// What the second anchor of B4 includes beside the proof of the first.
#[derive(Clone, Copy, PartialEq, Eq)]
pub enum Below {
    Proof,
    /// 13.1.g too, which includes 12.1.h and the first anchor; h includes 11.0.a
    Broad,
}

/// B4: one point a round by peer 0, from a in 11 on; anchors 12.0.b and 14.0.d with the proofs c and e, the trigger f in
/// 16. With H 4 the second history reaches down to a. These points are certified.
pub fn b4(with: Start, below: Below, certified: &[PointId]) -> Committer {
    let mut committer = Committer::new(20);
    committer.start(&with).unwrap();
    (11..=16).for_each(|round| committer.round(round, 3).unwrap());
    let [a, b, c, d, e] = [(11, 'a'), (12, 'b'), (13, 'c'), (14, 'd'), (15, 'e')].map(|(round, at)| id(round, 0, at));
    let [h, g] = [id(12, 1, 'h'), id(13, 1, 'g')];
    put(&mut committer, a, &[], |info| info);
    put(&mut committer, b, &[a], |info| PointInfo { top_proof: id(10, 0, 'z'), ..info });
    put(&mut committer, c, &[b], |info| PointInfo { proof: true, top_proof: c, ..info });
    if below == Below::Broad {
        put(&mut committer, h, &[a], |info| info);
        put(&mut committer, g, &[b, h], |info| info);
    }
    let includes: &[PointId] = if below == Below::Broad { &[c, g] } else { &[c] };
    put(&mut committer, d, includes, |info| PointInfo { top_proof: c, ..info });
    put(&mut committer, e, &[d], |info| PointInfo { proof: true, top_proof: e, ..info });
    put(&mut committer, trigger_of_two(), &[e], |info| PointInfo { trigger: true, ..info });
    certified.iter().for_each(|id| committer.certify(id).unwrap());
    committer
}

fn first() -> PointId {
    id(12, 0, 'b')
}

pub fn second() -> PointId {
    id(14, 0, 'd')
}

/// The bytes of what is told of an anchor.
fn bytes_of(look: &Look) -> Vec<u8> {
    let counts = std::iter::once(look.points).chain(look.linked.iter().copied());
    id_bytes(&look.anchor).into_iter().chain(counts.flat_map(u32::to_be_bytes)).collect()
}

/// The counts of B4: the second anchor hands out c and d, and links to b, which is committed then; a isn't linked any
/// more, since only b includes it.
fn b4_looks() -> [Look; 2] {
    [look(first(), 2, &[1, 1]), look(second(), 2, &[1, 1, 1, 0])]
}

/// The outlook tells this, in these bytes, and in no shorter buffer; it changes nothing. The commit then has these
/// counts.
fn tells(committer: &Committer, expected: &[Look]) {
    let whole = expected.iter().flat_map(bytes_of).collect::<Vec<u8>>();
    let mut bytes = buffer(whole.len());
    assert_eq!(committer.outlook(&trigger_of_two(), &mut bytes), Ok(expected.len() as u32));
    assert_eq!(bytes, whole);
    every_length(committer, &trigger_of_two(), expected);
    assert_eq!(told(committer, &trigger_of_two()), expected);
}

#[test]
fn a_point_below_two_anchors() {
    let (committer, trigger) = (b4(b4_start(), Below::Proof, &[second()]), trigger_of_two());
    tells(&committer, &b4_looks());
    // one byte less than both need, and than the first needs
    for length in [105, 48] {
        let mut bytes = buffer(length);
        refuses(&mut committer.clone(), 21, |c| c.outlook(&trigger, &mut bytes));
        assert_eq!(bytes, buffer(length));
    }
    let after = hands_out(&committer, &trigger, &[0; 5], &["ab", "cd"]);
    tells(&after, &[]);
    // four bytes of lists: the first anchor, and what was told of the second stays right
    let mut copy = committer.clone();
    let mut bytes = buffer(1000);
    let due = Refused { refusal: Refusal::BadLists, finished: 1 };
    assert_eq!(copy.commit(&trigger, &[0; 4], &mut bytes), Err(due));
    assert_eq!(letters(&copy, &bytes, 1), ["ab"]);
    assert!(bytes[263..].iter().all(|byte| *byte == 0xa5), "bytes beyond the record were touched");
    tells(&copy, &b4_looks()[1..]);
    refused_at_first(&copy, &trigger, &[0; 2], 24);
    assert_unchanged(&hands_out(&copy, &trigger, &[0; 3], &["cd"]), &after);
}

#[test]
fn sizes_of_a_commit() {
    let looks = b4_looks();
    assert_eq!(looks.iter().map(Look::bytes).sum::<usize>(), 106);
    assert_eq!(CommitSizes::of(&looks), CommitSizes { points: 4, lists: 5, records: 2 * (99 + 2 * 82) });
    assert_eq!(CommitSizes::of(&looks[1..]), CommitSizes { points: 2, lists: 3, records: 99 + 2 * 82 });
    assert_eq!(CommitSizes::of(&[]), CommitSizes::default());
    assert_eq!(lists_in_order(&looks), [0; 5]);
    assert_eq!(lists_in_order(&[look(first(), 3, &[1, 2]), look(second(), 4, &[1, 0, 3])]), [0, 0, 1, 0, 0, 1, 2]);
}

/// The same counts before the gap question and after it, though the commit says 20 before it.
#[test]
fn the_gap_question_changes_no_count() {
    let trigger = trigger_of_two();
    let mut committer = b4(Start { after_gap: true, ..b4_start() }, Below::Proof, &[second()]);
    tells(&committer, &b4_looks());
    refused_at_first(&committer, &trigger, &[0; 5], 20);
    assert_eq!(committer.gap_question(), Ok(true));
    tells(&committer, &b4_looks());
    tells(&hands_out(&committer, &trigger, &[0; 5], &["ab", "cd"]), &[]);
}

/// 18 at the second anchor: the outlook tells nothing of the first either. Where the first has no room, it is 21.
#[test]
fn an_outlook_refused_for_the_second_anchor() {
    let trigger = trigger_of_two();
    let mut committer = b4(b4_start(), Below::Proof, &[first()]);
    for (length, number) in [(0, 21), (48, 21), (49, 18), (105, 18), (106, 18), (1000, 18)] {
        let mut bytes = buffer(length);
        refuses(&mut committer, number, |c| c.outlook(&trigger, &mut bytes));
        assert_eq!(bytes, buffer(length));
    }
    let mut bytes = buffer(1000);
    let due = Refused { refusal: Refusal::NotCertified, finished: 1 };
    assert_eq!(committer.commit(&trigger, &[0; 5], &mut bytes), Err(due));
    assert_eq!(letters(&committer, &bytes, 1), ["ab"]);
    assert!(bytes[263..].iter().all(|byte| *byte == 0xa5), "bytes beyond the record were touched");
    refuses(&mut committer, 18, |c| c.outlook(&trigger, &mut bytes));
    refuses(&mut committer, 18, |c| c.commit(&trigger, &[], &mut []));
}

/// With H 1 the histories don't overlap.
#[test]
fn histories_apart() {
    let with = Start { commit_history_rounds: 1, ..b4_start() };
    let committer = b4(with, Below::Proof, &[first(), second()]);
    tells(&committer, &[look(first(), 2, &[1, 1]), look(second(), 2, &[1, 1])]);
    tells(&hands_out(&committer, &trigger_of_two(), &[0; 4], &["ab", "cd"]), &[]);
}

/// 12.0.b and 11.0.a are committed then, and linked all the same: g includes the one, h the other.
#[test]
fn committed_points_that_new_ones_link_to() {
    let committer = b4(b4_start(), Below::Broad, &[second()]);
    tells(&committer, &[look(first(), 2, &[1, 1]), look(second(), 4, &[1, 2, 2, 1])]);
    let lists = [0, 0, 0, 1, 0, 0, 1, 0];
    tells(&hands_out(&committer, &trigger_of_two(), &lists, &["ab", "hcgd"]), &[]);
    refused_at_first(&committer, &trigger_of_two(), &[], 24);
}

/// One to seven anchors, at several distances, of peer 0, each certified; the points of up to four peers include most of
/// the round below, some of two below.
fn random_chain(noise: &mut Noise) -> (Committer, PointId) {
    let peers = 1 + noise.below(4);
    let with = Start { commit_history_rounds: 1 + noise.below(9), used: Some(0), ..beginning() };
    let first = 11 + noise.below(3);
    let anchors: Vec<u32> = (0..=noise.below(7))
        .scan(first, |next, _| {
            let round = *next;
            *next += 2 + noise.below(3);
            Some(round)
        })
        .collect();
    let top = anchors.last().expect("one at least") + 2;
    let mut committer = started(160, &with, top);
    let mut last_proof = point(10, 0);
    let (mut below, mut two_below) = (Vec::new(), Vec::new());
    for round in 11..=top {
        let mut row = Vec::new();
        for id in (0..peers).map(|author| point(round, author)) {
            if id.author > 0 && noise.one_in(5) {
                continue;
            }
            let own = |to: &PointId| to.author == id.author;
            let includes: Vec<PointId> = below.iter().copied().filter(|to| own(to) || !noise.one_in(4)).collect();
            let witness: Vec<PointId> = two_below.iter().copied().filter(|_| noise.one_in(5)).collect();
            let proof = id.author == 0 && anchors.contains(&(round - 1));
            let top_proof = if proof { id } else { last_proof };
            let trigger = id.author == 0 && round == top;
            committer.name(&id).unwrap();
            committer.resolve(&id, &PointInfo { proof, trigger, top_proof, ..valid(&includes, &witness) }).unwrap();
            if proof {
                last_proof = id;
            }
            row.push(id);
        }
        two_below = std::mem::replace(&mut below, row);
    }
    anchors.iter().for_each(|round| committer.certify(&point(*round, 0)).unwrap());
    (committer, point(top, 0))
}

/// One outlook tells the sizes of the whole commit, whatever the shuffle.
#[test]
fn sizes_of_random_chains() {
    let (mut several, mut overlapping) = (0, 0);
    for seed in 0..400 {
        let mut noise = Noise::new(seed);
        let (committer, trigger) = random_chain(&mut noise);
        let looks = told(&committer, &trigger);
        let lists: Vec<u8> = looks.iter().flat_map(|look| &look.linked).flat_map(|n| noise.shuffled(*n)).collect();
        let mut after = committer.clone();
        let mut bytes = buffer(COMMIT_BYTES_MAX);
        assert_eq!(after.commit(&trigger, &lists, &mut bytes), Ok(looks.len() as u32));
        assert_told(&looks, &handed(&after, &bytes, looks.len() as u32));
        assert_sizes(&committer, &trigger, &looks, &lists, &after);
        several += u32::from(looks.len() > 1);
        // what is linked and not handed out is an older anchor's
        overlapping += u32::from(CommitSizes::of(&looks).lists > CommitSizes::of(&looks).points);
    }
    assert!(several >= 200 && overlapping >= 100, "of several anchors {several}, overlapping {overlapping}");
}
