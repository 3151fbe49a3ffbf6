//! The link behind each point (document 02, N7): its cases with all bytes of their records, which of several links
//! is told, links that aren't told, and bytes that no record has.

use committer::{
    BrokenAnchor, COMMIT_BYTES_MAX, Committer, LINK_BYTES, LinkBehind, PointId, PointInfo, Start, Status, Word, anchors,
};

use crate::commits::{anchor, proof, put, trigger, used};
use crate::common::{
    assert_sizes, assert_unchanged, beginning, buffer, handed, id, id_bytes, lists, paid, point, refuses, started,
    valid,
};
use crate::lists::{above_widest, letters_of, told, widest, widest_row, yields};
use crate::outlooks::{Below, b4, b4_start, list_a, second, trigger_of_two};

pub fn behind(by: PointId, word: Word) -> LinkBehind {
    LinkBehind { by, word }
}

/// The words as they stand in a record.
pub const INCLUDES: &[u8; 8] = b"includes";
const WITNESS: &[u8; 8] = b"witness\0";
pub const ANCHOR: &[u8; 8] = b"anchor\0\0";

/// A point of a record, and the point and the word behind it.
pub type Told = (PointId, PointId, &'static [u8; 8]);

/// A record of which all bytes are said; its anchor, the last point, is executable.
pub struct Expected {
    pub proof: PointId,
    pub previous: u32,
    pub points: Vec<Told>,
    pub sums: [u64; 2],
}

impl Expected {
    pub fn bytes(&self) -> Vec<u8> {
        let (anchor, ..) = self.points.last().expect("the anchor is one of its points");
        let mut bytes = [id_bytes(anchor), id_bytes(&self.proof), vec![1]].concat();
        bytes.extend(self.previous.to_be_bytes());
        bytes.extend((self.points.len() as u32).to_be_bytes());
        bytes.extend(self.points.iter().flat_map(|(id, ..)| id_bytes(id)));
        bytes.extend(self.points.iter().flat_map(|(_, by, word)| [&id_bytes(by)[..], &word[..]].concat()));
        bytes.extend(self.sums.iter().flat_map(|sum| sum.to_be_bytes()));
        assert_eq!(bytes.len(), 99 + 82 * self.points.len());
        bytes
    }
}

/// The commit writes these records and no byte beyond them, into a buffer of just their length too; with a byte less it is
/// 21 at the last one.
fn writes(committer: &Committer, trigger: &PointId, lists: &[u8], expected: &[Expected]) -> Committer {
    let whole: Vec<u8> = expected.iter().flat_map(Expected::bytes).collect();
    let mut copy = committer.clone();
    let mut bytes = buffer(whole.len() + 50);
    assert_eq!(copy.commit(trigger, lists, &mut bytes), Ok(expected.len() as u32));
    assert_eq!(bytes[..whole.len()], whole);
    assert!(bytes[whole.len()..].iter().all(|byte| *byte == 0xa5), "bytes beyond the records were touched");
    handed(&copy, &bytes, expected.len() as u32);
    assert_sizes(committer, trigger, &told(committer, trigger), lists, &copy);
    copy
}

// ---- list C

/// What differs between the lists of the cases.
#[derive(Clone, Copy)]
struct C {
    /// whether the anchor 13.0.e has the witness 11.1.b
    witness: bool,
    /// whether it includes 12.0.c beside 12.1.d
    left: bool,
    /// the status of 12.1.d
    status: Status,
}

const WHOLE: C = C { witness: true, left: true, status: Status::Valid };

fn c_points() -> [PointId; 7] {
    [(11, 0, 'a'), (11, 1, 'b'), (12, 0, 'c'), (12, 1, 'd'), (13, 0, 'e'), (14, 0, 'f'), (15, 0, 'g')]
        .map(|(round, author, letter)| id(round, author, letter))
}

/// List C: a and b in 11; c and d in 12, which include both; the anchor e over c and d, with the witness b; its proof f, the
/// trigger g. Each point has the payload 1 and its round.
fn list_c(with: C) -> (Committer, PointId) {
    let [a, b, c, d, e, f, g] = c_points();
    let start = Start { commit_history_rounds: 4, deduplicate_rounds: 5, peers: 3, used: Some(0), ..beginning() };
    let mut committer = Committer::new(20);
    committer.start(&start).unwrap();
    (11..=15).for_each(|round| committer.round(round, 3).unwrap());
    let below: &[PointId] = if with.left { &[c, d] } else { &[d] };
    let witness: &[PointId] = if with.witness { &[b] } else { &[] };
    for (id, info) in [
        (a, valid(&[], &[])),
        (b, valid(&[], &[])),
        (c, valid(&[a, b], &[])),
        (d, PointInfo { status: with.status.number(), ..valid(&[a, b], &[]) }),
        (e, PointInfo { top_proof: id(10, 0, 'z'), ..valid(below, witness) }),
        (f, proof(f, &[e])),
        (g, trigger(&[f])),
    ] {
        put(&mut committer, id, paid(info, (1, id.round)));
    }
    committer.certify(&e).unwrap();
    (committer, g)
}

/// The record of list C with these points.
fn c_record(points: &[Told]) -> [Expected; 1] {
    let payload_bytes = points.iter().map(|(id, ..)| u64::from(id.round)).sum();
    [Expected {
        proof: id(14, 0, 'f'),
        previous: 0,
        points: points.to_vec(),
        sums: [points.len() as u64, payload_bytes],
    }]
}

/// Cases 1 and 4: the lowest digest of a round, the highest round of two; 508 bytes are too few.
#[test]
fn lowest_digest_and_highest_round() {
    let [a, b, c, d, e, ..] = c_points();
    let (committer, trigger) = list_c(WHOLE);
    let record = c_record(&[(a, c, INCLUDES), (b, e, WITNESS), (c, e, INCLUDES), (d, e, INCLUDES), (e, e, ANCHOR)]);
    assert_eq!(record[0].bytes().len(), 509);
    let after = writes(&committer, &trigger, &[0, 1, 0, 1, 0], &record);
    // whatever the buffer is too short for; the record without its links has 284 bytes
    for length in [0, 98, 267, 268, 284, 285, 492, 493, 508] {
        let mut bytes = buffer(length);
        refuses(&mut committer.clone(), 21, |c| c.commit(&trigger, &[0, 1, 0, 1, 0], &mut bytes));
        assert_eq!(bytes, buffer(length));
    }
    assert_eq!(after.points().iter().filter(|point| point.is_committed()).count(), 5);
}

/// Case 2: without the witness link the round above is the highest.
#[test]
fn without_a_witness() {
    let [a, b, c, d, e, ..] = c_points();
    let (committer, trigger) = list_c(C { witness: false, ..WHOLE });
    let record = c_record(&[(a, c, INCLUDES), (b, c, INCLUDES), (c, e, INCLUDES), (d, e, INCLUDES), (e, e, ANCHOR)]);
    writes(&committer, &trigger, &[0, 1, 0, 1, 0], &record);
}

/// Case 3: the links stand in the order of the ids, which the lists say.
#[test]
fn in_the_order_of_the_ids() {
    let [a, b, c, d, e, ..] = c_points();
    let (committer, trigger) = list_c(WHOLE);
    let record = c_record(&[(b, e, WITNESS), (a, c, INCLUDES), (d, e, INCLUDES), (c, e, INCLUDES), (e, e, ANCHOR)]);
    let other = writes(&committer, &trigger, &[0, 0, 1, 0, 1], &record);
    let record = c_record(&[(b, e, WITNESS), (a, c, INCLUDES), (c, e, INCLUDES), (d, e, INCLUDES), (e, e, ANCHOR)]);
    assert_unchanged(&writes(&committer, &trigger, &[0, 1, 0, 0, 1], &record), &other);
}

/// Case 5: 13.0.c links to 12.0.b, which stands in the first record, and that link isn't told.
#[test]
fn two_records() {
    let [a, b, c, d, e] = [(11, 'a'), (12, 'b'), (13, 'c'), (14, 'd'), (15, 'e')].map(|(round, at)| id(round, 0, at));
    let committer = b4(b4_start(), Below::Proof, &[second()]);
    let first = Expected { proof: c, previous: 0, points: vec![(a, b, INCLUDES), (b, b, ANCHOR)], sums: [2, 11 + 12] };
    let next = Expected { proof: e, previous: 12, points: vec![(c, d, INCLUDES), (d, d, ANCHOR)], sums: [2, 13 + 14] };
    assert_eq!([first.bytes().len(), next.bytes().len()], [263; 2]);
    writes(&committer, &trigger_of_two(), &[0; 5], &[first, next]);
}

/// Case 6: the anchor alone.
#[test]
fn the_anchor_alone() {
    let [a, b, c] = [point(11, 0), point(12, 0), point(13, 0)];
    let record = Expected { proof: b, previous: 0, points: vec![(a, a, ANCHOR)], sums: [1, 11] };
    assert_eq!(record.bytes().len(), 181);
    writes(&list_a(), &c, &[0], &[record]);
}

/// Cases 7 and 8: 12.0.c isn't reached, so its links don't count; 12.1.d may be trans-invalid.
#[test]
fn a_linker_that_is_not_reached() {
    let [a, b, c, d, e, ..] = c_points();
    for status in [Status::Valid, Status::TransInvalid] {
        let (committer, trigger) = list_c(C { left: false, status, ..WHOLE });
        let record = c_record(&[(a, d, INCLUDES), (b, e, WITNESS), (d, e, INCLUDES), (e, e, ANCHOR)]);
        writes(&committer, &trigger, &[0, 0, 1, 0], &record);
        let (committer, trigger) = list_c(C { status, ..WHOLE });
        let record = c_record(&[(a, c, INCLUDES), (b, e, WITNESS), (c, e, INCLUDES), (d, e, INCLUDES), (e, e, ANCHOR)]);
        writes(&committer, &trigger, &[0, 1, 0, 1, 0], &record);
    }
    // proved, it stops the anchor
    let (mut committer, trigger) = list_c(C { status: Status::TransInvalid, ..WHOLE });
    committer.certify(&d).unwrap();
    refuses(&mut committer, 13, |c| c.commit(&trigger, &[0, 1, 0, 1, 0], &mut buffer(509)));
}

/// Case 9: two rounds below the anchor, nothing between.
#[test]
fn a_witness_alone() {
    let [a, e, f] = [id(11, 0, 'a'), id(13, 0, 'e'), id(14, 0, 'p')];
    let mut committer = started(8, &used(), 15);
    put(&mut committer, a, valid(&[], &[]));
    put(&mut committer, e, PointInfo { top_proof: id(10, 0, 'z'), ..valid(&[], &[a]) });
    let trigger = yields(&mut committer, e);
    let record = Expected { proof: f, previous: 0, points: vec![(a, e, WITNESS), (e, e, ANCHOR)], sums: [0; 2] };
    writes(&committer, &trigger, &[0, 0], &[record]);
}

// ---- which link is told

/// A digest whose word at this place alone isn't 0.
fn digest_at(word: usize, byte: u8) -> [u8; 32] {
    let mut digest = [0; 32];
    digest[8 * word + 7] = byte;
    digest
}

/// Digests are compared by all of their words; authors, names and lists decide nothing.
#[test]
fn digests_that_differ_in_one_word() {
    let at = |round, author, digest| PointId { round, author, digest };
    for (low, high) in (0..4).flat_map(|word| [([0; 32], digest_at(word, 1)), (digest_at(word, 1), digest_at(word, 2))])
    {
        for (first, other) in [(low, high), (high, low)] {
            let (a, left, right, e) = (id(11, 0, 'a'), at(12, 0, first), at(12, 1, other), id(13, 0, 'e'));
            let mut committer = started(8, &used(), 15);
            put(&mut committer, a, valid(&[], &[]));
            put(&mut committer, right, valid(&[a], &[]));
            put(&mut committer, left, valid(&[a], &[]));
            put(&mut committer, e, anchor(id(10, 0, 'z'), &[left, right]));
            let trigger = yields(&mut committer, e);
            for list in [[0, 0, 1, 0], [0, 1, 0, 0]] {
                let mut bytes = buffer(427);
                assert_eq!(committer.clone().commit(&trigger, &list, &mut bytes), Ok(1));
                let told = handed(&committer, &bytes, 1)[0].link_behind(&a).copied();
                let lowest = if first == low { left } else { right };
                assert_eq!(told, Some(behind(lowest, Word::Includes)));
            }
        }
    }
}

/// The same digest in two rounds: the point of the higher one has its link as a witness, the other as an include.
#[test]
fn one_digest_in_two_rounds() {
    let [a, low, high, e] = [id(11, 0, 'a'), id(12, 1, 'x'), id(13, 1, 'x'), id(14, 0, 'e')];
    let mut committer = started(8, &Start { commit_history_rounds: 3, ..used() }, 16);
    put(&mut committer, a, valid(&[], &[]));
    put(&mut committer, low, valid(&[a], &[]));
    put(&mut committer, high, valid(&[low], &[a]));
    put(&mut committer, e, PointInfo { top_proof: id(10, 0, 'z'), ..valid(&[high], &[low]) });
    let trigger = yields(&mut committer, e);
    let points = [(a, high, WITNESS), (low, e, WITNESS), (high, e, INCLUDES), (e, e, ANCHOR)];
    writes(
        &committer,
        &trigger,
        &[0; 4],
        &[Expected { proof: id(15, 0, 'p'), previous: 0, points: points.to_vec(), sums: [0; 2] }],
    );
}

/// 128 points, each linked by one of four: behind each stands the one that includes it.
#[test]
fn the_widest_round() {
    let row = widest_row();
    let (mut committer, trigger) = widest(&row, &row);
    let mut bytes = buffer(COMMIT_BYTES_MAX);
    let lists = lists(&committer, &trigger);
    assert_eq!(committer.commit(&trigger, &lists, &mut bytes), Ok(1));
    let record = handed(&committer, &bytes, 1).remove(0);
    for (above, versions) in above_widest().iter().zip(row.chunks(32)) {
        for id in versions {
            assert_eq!(record.link_behind(id), Some(&behind(*above, Word::Includes)));
        }
        assert_eq!(record.link_behind(above), Some(&behind(record.anchor, Word::Includes)));
    }
    assert_eq!(record.link_behind(&record.proof), None);
}

/// A point of a later record that links to it, and one that no record has, don't count.
#[test]
fn links_from_outside() {
    let committer = b4(b4_start(), Below::Broad, &[second()]);
    let mut after = committer.clone();
    let mut bytes = buffer(1000);
    assert_eq!(after.commit(&trigger_of_two(), &lists(&committer, &trigger_of_two()), &mut bytes), Ok(2));
    let records = handed(&after, &bytes, 2);
    assert_eq!(records.iter().map(letters_of).collect::<Vec<_>>(), ["ab", "hgcd"]);
    let [a, b, d, g, h] = [id(11, 0, 'a'), id(12, 0, 'b'), id(14, 0, 'd'), id(13, 1, 'g'), id(12, 1, 'h')];
    // h links to a, g to b, and both stand in the second record
    assert_eq!(records[0].links, [behind(b, Word::Includes), behind(b, Word::Anchor)]);
    let in_second =
        [behind(g, Word::Includes), behind(d, Word::Includes), behind(d, Word::Includes), behind(d, Word::Anchor)];
    assert_eq!(records[1].links, in_second);
    assert_eq!((records[1].link_behind(&a), records[1].link_behind(&h)), (None, Some(&in_second[0])));
}

/// From every point the links lead up to the anchor, a round or two at each step.
#[test]
fn links_lead_to_the_anchor() {
    let (committer, trigger) = list_c(WHOLE);
    let mut bytes = buffer(509);
    assert_eq!(committer.clone().commit(&trigger, &[0, 1, 0, 1, 0], &mut bytes), Ok(1));
    let record = handed(&committer, &bytes, 1).remove(0);
    for id in &record.points {
        let mut at = *id;
        while at != record.anchor {
            let LinkBehind { by, word } = *record.link_behind(&at).expect("a point of the record");
            assert_eq!(by.round - at.round, if word == Word::Includes { 1 } else { 2 });
            at = by;
        }
        assert_eq!(record.link_behind(&at), Some(&behind(at, Word::Anchor)));
    }
    let lines: Vec<String> = record.to_string().lines().map(String::from).collect();
    assert_eq!(lines.len(), 6);
    let [a, b, c, _, e, ..] = c_points().map(|id| id.text("."));
    assert_eq!(lines[1], format!("link {a} by {c} includes"));
    assert_eq!(lines[2], format!("link {b} by {e} witness"));
    assert_eq!(lines[5], format!("link {e} by {e} anchor"));
}

/// A buffer of 4,096 bytes, as `replay` has: a record of 48 points fits, one of 49 doesn't.
#[test]
fn records_in_4096_bytes() {
    for lowest in [15, 16] {
        let low: Vec<PointId> = (0..lowest).map(|author| point(11, author)).collect();
        let middle: Vec<PointId> = (0..32).map(|author| point(12, author)).collect();
        let mut committer = started(64, &used(), 15);
        low.iter().for_each(|id| put(&mut committer, *id, valid(&[], &[])));
        middle.iter().for_each(|id| put(&mut committer, *id, valid(&low, &[])));
        put(&mut committer, point(13, 0), anchor(point(10, 0), &middle));
        let trigger = yields(&mut committer, point(13, 0));
        let lists = lists(&committer, &trigger);
        let mut bytes = buffer(4096);
        if lowest == 15 {
            assert_eq!(committer.commit(&trigger, &lists, &mut bytes), Ok(1));
            let record = handed(&committer, &bytes, 1).remove(0);
            assert_eq!((record.points.len(), record.bytes()), (48, 4035));
            assert_eq!(record.link_behind(&low[14]), Some(&behind(middle[0], Word::Includes)));
        } else {
            refuses(&mut committer, 21, |c| c.commit(&trigger, &lists, &mut bytes));
            assert_eq!(bytes, buffer(4096));
        }
    }
}

// ---- bytes that no commit writes

/// Two records, of two points each, as list B4 gives them.
fn two_records_bytes() -> Vec<u8> {
    let mut bytes = buffer(2 * 263);
    b4(b4_start(), Below::Proof, &[second()]).commit(&trigger_of_two(), &[0; 5], &mut bytes).unwrap();
    bytes
}

/// Each byte of each word changed: an error that says where the word stands. What stands behind the records isn't read.
#[test]
fn words_that_are_changed() {
    let whole = two_records_bytes();
    for (record, point) in [(0, 0), (0, 1), (1, 0), (1, 1)] {
        let at = 263 * record + 83 + 2 * 37 + LINK_BYTES * point + 37;
        for byte in at..at + 8 {
            for change in [1, 0x20, 0x80, 0xff] {
                let mut bytes = whole.clone();
                bytes[byte] ^= change;
                let word = std::array::from_fn(|n| bytes[at + n]);
                assert_eq!(anchors(&bytes, 2), Err(BrokenAnchor::Word { at, bytes: word }));
                assert_eq!(anchors(&bytes, record as u32).map(|read| read.len()), Ok(record));
            }
        }
    }
}

#[test]
fn words_that_are_none() {
    let whole = two_records_bytes();
    let at = 83 + 2 * 37 + 37;
    for word in [*b"Includes", *b"include\0", *b"witness ", *b"anchor\0 ", [0; 8], [0xff; 8]] {
        let mut bytes = whole.clone();
        bytes[at..at + 8].copy_from_slice(&word);
        let broken = anchors(&bytes, 2).unwrap_err();
        assert_eq!(broken, BrokenAnchor::Word { at, bytes: word });
        assert_eq!(Word::of(&word), None);
    }
    let broken = BrokenAnchor::Word { at, bytes: *b"witness " };
    let text = "the word of a link at byte 194 is none of includes, witness and anchor: witness ";
    assert_eq!(broken.to_string(), text);
    for (word, bytes, text) in
        [(Word::Includes, INCLUDES, "includes"), (Word::Witness, WITNESS, "witness"), (Word::Anchor, ANCHOR, "anchor")]
    {
        assert_eq!((word.bytes(), Word::of(bytes), word.to_string().as_str()), (*bytes, Some(word), text));
    }
}

/// Records without links, one after the other: the bytes of the sums and of the next record aren't taken for links.
#[test]
fn records_without_links() {
    let whole = two_records_bytes();
    let without = |record: &[u8]| [&record[..83 + 2 * 37], &record[263 - 16..]].concat();
    let old = [without(&whole[..263]), without(&whole[263..])].concat();
    assert_eq!(old.len(), 2 * 173);
    assert!(matches!(anchors(&old, 2), Err(BrokenAnchor::Word { at: 194, .. })));
    assert_eq!(anchors(&old[..173], 1), Err(BrokenAnchor::Cut { at: 0 }));
}
