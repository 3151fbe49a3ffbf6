//! Payload numbers (document 02, N2): what a resolution gives stands in the point, and a record ends with the sums over
//! its history.

use committer::{Anchor, Committer, LINK_WORDS, Point, PointId, PointInfo, Refusal, Refused, Start, Status};

use crate::commits::{anchor, proof, put, trigger, used};
use crate::common::{
    assert_outlook, assert_unchanged, buffer, handed, id, link, paid, point, refuses, started, valid, version,
};
use crate::lists::{k13_points, letters_of};
use crate::outlooks::{trigger_of_two, two_anchors};

/// Of K13's a to f.
const PAYLOADS: [(u32, u32); 6] = [(1, 10), (2, 200), (3, 3000), (4, 40_000), (5, 5), (6, 6)];
const LISTS: [u8; 4] = [0, 0, 1, 0];

fn k13_trigger() -> PointId {
    id(15, 0, 'f')
}

fn k13(payloads: [(u32, u32); 6]) -> Committer {
    let mut committer = started(12, &used(), 15);
    for ((id, info), payload) in k13_points().into_iter().zip(payloads) {
        put(&mut committer, id, paid(info, payload));
    }
    committer.certify(&id(13, 0, 'd')).unwrap();
    committer
}

/// The only record of a commit into a buffer of just its length.
fn record_of(committer: &mut Committer, trigger: &PointId, lists: &[u8], length: usize) -> (Anchor, Vec<u8>) {
    assert_outlook(committer, trigger);
    let mut bytes = buffer(length);
    assert_eq!(committer.commit(trigger, lists, &mut bytes), Ok(1));
    let [record] = <[Anchor; 1]>::try_from(handed(committer, &bytes, 1)).expect("one record");
    assert_eq!(record.bytes(), length);
    (record, bytes)
}

/// The letters and sums of K13's record.
fn k13_record(committer: &Committer, lists: &[u8]) -> (String, u64, u64) {
    let (record, _) = record_of(&mut committer.clone(), &k13_trigger(), lists, 427);
    (letters_of(&record), record.payload_len, record.payload_bytes)
}

fn held(committer: &Committer, id: &PointId) -> Point {
    committer.points().into_iter().find(|point| point.id == *id).expect("a named point")
}

/// Both numbers that a point holds.
fn payload_of(committer: &Committer, id: &PointId) -> (u32, u32) {
    let point = held(committer, id);
    (point.payload_len, point.payload_bytes)
}

/// Word 7 of a place.
fn word(committer: &mut Committer, place: usize) -> &mut u64 {
    &mut committer.parts_mut().0.links[place * LINK_WORDS + 7]
}

#[test]
fn k13_sums() {
    let committer = k13(PAYLOADS);
    assert_eq!(k13_record(&committer, &LISTS), ("acbd".into(), 10, 43_210));
    let mut bytes = buffer(426);
    refuses(&mut committer.clone(), 21, |c| c.commit(&k13_trigger(), &LISTS, &mut bytes));
    assert_eq!(bytes, buffer(426));
    let (record, bytes) = record_of(&mut committer.clone(), &k13_trigger(), &LISTS, 427);
    assert_eq!(bytes[411..], [0, 0, 0, 0, 0, 0, 0, 10, 0, 0, 0, 0, 0, 0, 0xa8, 0xca]);
    assert!(record.to_string().contains(" exec 1 prev 0 payload 10 43210 points 4: 11.0.61"), "{record}");
    // what is held stays as it is after the commit
    let mut after = committer.clone();
    after.commit(&k13_trigger(), &LISTS, &mut buffer(427)).unwrap();
    for ((id, _), payload) in k13_points().iter().zip(PAYLOADS) {
        assert_eq!(payload_of(&after, id), payload);
    }
    assert_eq!(*word(&mut after, 3), 4 << 32 | 40_000);
}

#[test]
fn k13_in_another_order_and_with_other_numbers() {
    assert_eq!(k13_record(&k13(PAYLOADS), &[0, 1, 0, 0]), ("abcd".into(), 10, 43_210));
    let largest = k13([(u32::MAX, u32::MAX); 6]);
    assert_eq!(k13_record(&largest, &LISTS), ("acbd".into(), 17_179_869_180, 17_179_869_180));
    assert_eq!(k13_record(&k13([(0, 0); 6]), &LISTS), ("acbd".into(), 0, 0));
    // one of the two numbers alone
    assert_eq!(k13_record(&k13([(u32::MAX, 0); 6]), &LISTS), ("acbd".into(), 17_179_869_180, 0));
    assert_eq!(k13_record(&k13([(0, u32::MAX); 6]), &LISTS), ("acbd".into(), 0, 17_179_869_180));
}

/// Each point has 1 and its round: b, linked under both anchors, is in the first one's sums alone.
#[test]
fn two_anchors_at_once() {
    let committer = two_anchors(false);
    let mut bytes = buffer(2 * 263);
    assert_eq!(committer.clone().commit(&trigger_of_two(), &[0; 5], &mut bytes), Ok(2));
    let sums = |anchor: &Anchor| (letters_of(anchor), anchor.payload_len, anchor.payload_bytes);
    let whole = handed(&committer, &bytes, 2);
    assert_eq!(whole.iter().map(sums).collect::<Vec<_>>(), [("ab".into(), 2, 23), ("cd".into(), 2, 27)]);
    // the second record in every shorter buffer: 21 with the first one finished, and no byte beyond it
    for length in 263..2 * 263 {
        let mut short = buffer(length);
        let due = Refused { refusal: Refusal::NoRoom, finished: 1 };
        assert_eq!(committer.clone().commit(&trigger_of_two(), &[0; 5], &mut short), Err(due), "{length} bytes");
        assert_eq!(short[..263], bytes[..263]);
        assert!(short[263..].iter().all(|byte| *byte == 0xa5));
    }
    // before and in the ids, the links, the sums
    for length in [0, 83, 157, 173, 247, 262] {
        let mut short = buffer(length);
        refuses(&mut committer.clone(), 21, |c| c.commit(&trigger_of_two(), &[0; 5], &mut short));
        assert_eq!(short, buffer(length));
    }
}

#[test]
fn a_second_resolution() {
    let mut committer = k13(PAYLOADS);
    let (a, info) = k13_points()[0].clone();
    for payload in [(7, 7), (0, 0), (u32::MAX, u32::MAX), PAYLOADS[0]] {
        refuses(&mut committer, 10, |c| c.resolve(&a, &paid(info.clone(), payload)));
    }
    assert_eq!(payload_of(&committer, &a), (1, 10));
    assert_eq!(k13_record(&committer, &LISTS), ("acbd".into(), 10, 43_210));
}

/// Every status takes both numbers and keeps them; no record shows those of a point without a history.
#[test]
fn every_status() {
    let mut committer = k13(PAYLOADS);
    for status in 1..=5 {
        let (id, payload) = (point(12, 1 + status), (7, 7 + status));
        put(&mut committer, id, paid(PointInfo { status, ..PointInfo::default() }, payload));
        assert_eq!((held(&committer, &id).status, payload_of(&committer, &id)), (Status::of(status), payload));
    }
    assert_eq!(k13_record(&committer, &LISTS), ("acbd".into(), 10, 43_210));
    let mut bytes = buffer(53);
    assert_eq!(committer.outlook(&k13_trigger(), &mut bytes), Ok(1));
    assert_eq!(bytes[37..], [4, 1, 2, 1].map(u32::to_be_bytes).concat());
}

/// Named first, resolved after the anchor is certified: in the sums once. A point in a place that a drop freed has its
/// own numbers, and none before it is resolved.
#[test]
fn resolved_late_and_a_place_used_again() {
    let mut committer = started(6, &used(), 15);
    let points = k13_points();
    points.iter().for_each(|(id, _)| committer.name(id).unwrap());
    let d = points[3].0;
    committer.certify(&d).unwrap();
    for ((id, info), payload) in points.iter().zip(PAYLOADS).rev() {
        assert_eq!(payload_of(&committer, id), (0, 0));
        refuses(&mut committer, if *id == k13_trigger() { 9 } else { 14 }, |c| {
            c.commit(&k13_trigger(), &LISTS, &mut [])
        });
        committer.resolve(id, &paid(info.clone(), payload)).unwrap();
        assert_eq!(payload_of(&committer, id), payload);
    }
    let (record, _) = record_of(&mut committer, &k13_trigger(), &LISTS, 427);
    assert_eq!((letters_of(&record).as_str(), record.payload_len, record.payload_bytes), ("acbd", 10, 43_210));

    // a to d go, e and f stay
    assert_eq!(committer.drop_upto(14), Ok(true));
    assert_eq!([0, 1, 2, 3].map(|place| *word(&mut committer, place)), [0; 4]);
    let [e, f] = [points[4].0, k13_trigger()];
    (16..=18).for_each(|round| committer.round(round, u32::MAX).unwrap());
    let [x, g, h, i] = [id(15, 1, 'x'), id(16, 0, 'g'), id(17, 0, 'h'), id(18, 0, 'i')];
    committer.name(&x).unwrap();
    assert_eq!(payload_of(&committer, &x), (0, 0));
    committer.resolve(&x, &paid(valid(&[], &[]), (100, 7))).unwrap();
    assert_eq!(*word(&mut committer, 0), 100 << 32 | 7);
    put(&mut committer, g, paid(anchor(e, &[f, x]), (0, 1)));
    put(&mut committer, h, paid(proof(h, &[g]), (9, 9)));
    put(&mut committer, i, trigger(&[h]));
    committer.certify(&g).unwrap();
    assert_eq!(committer.gap_question(), Ok(true));
    let (record, _) = record_of(&mut committer, &i, &[0, 1, 0, 0], 427);
    assert_eq!((letters_of(&record).as_str(), record.payload_len, record.payload_bytes), ("efxg", 111, 19));
    assert_eq!([e, f, x, g, h, i].map(|id| payload_of(&committer, &id).0), [5, 6, 100, 0, 9, 0]);
}

/// Whatever stood there before, a refused resolution leaves it, and an accepted one writes both numbers.
#[test]
fn refused_resolutions() {
    let mut committer = started(3, &used(), 12);
    let [low, high] = [point(11, 0), point(12, 0)];
    put(&mut committer, low, paid(valid(&[], &[]), (3, 4)));
    committer.name(&high).unwrap();
    *word(&mut committer, 1) = u64::MAX - 5;
    assert_eq!(payload_of(&committer, &high), (0, 0));
    let right = paid(valid(&[low], &[]), (8, 9));
    let wrong = PointInfo { status: 6, ..right.clone() };
    let evidence = PointInfo { evidence: 1, ..PointInfo { status: 4, ..paid(PointInfo::default(), (8, 9)) } };
    let wild = PointInfo { includes: vec![link(&point(11, 1))], ..right.clone() };
    for (number, id, info) in [
        (5, PointId { author: 32, ..high }, &right),
        (6, point(13, 0), &right),
        (6, point(9, 0), &right),
        (9, version(12, 0, 1), &right),
        (10, low, &right),
        (11, high, &wrong),
        (11, high, &evidence),
        (12, high, &wild),
    ] {
        refuses(&mut committer, number, |c| c.resolve(&id, info));
    }
    refuses(&mut Committer::new(3), 2, |c| c.resolve(&high, &right));
    let mut zero = committer.clone();
    assert_eq!(committer.resolve(&high, &right), Ok(()));
    assert_eq!((payload_of(&committer, &high), *word(&mut committer, 1)), ((8, 9), 8 << 32 | 9));
    assert_eq!(zero.resolve(&high, &paid(right, (0, 0))), Ok(()));
    assert_eq!((payload_of(&zero, &high), *word(&mut zero, 1)), ((0, 0), 0));
}

/// Any word is a pair of numbers: the tables count as started, and the sums go by what stands there.
#[test]
fn tables_with_any_payload() {
    for (n, any) in [0, 1, 1 << 32, u64::MAX, 0x8000_0000_7fff_ffff].into_iter().enumerate() {
        let mut committer = k13(PAYLOADS);
        *word(&mut committer, 1) = any;
        // of a free place
        *word(&mut committer, 11) = u64::MAX;
        assert!(committer.is_started());
        let (len, bytes) = (any >> 32, any & 0xffff_ffff);
        assert_eq!(k13_record(&committer, &LISTS), ("acbd".into(), 8 + len, 43_010 + bytes), "{n}");
    }
}

/// A drop, a remove, a reset and a start leave none.
#[test]
fn words_that_are_cleared() {
    let words =
        |committer: &Committer| committer.parts().0.links.chunks(LINK_WORDS).map(|place| place[7]).collect::<Vec<_>>();
    let mut committer = k13(PAYLOADS);
    put(&mut committer, point(10, 1), paid(valid(&[], &[]), (8, 8)));
    let kept = words(&committer);
    committer.commit(&k13_trigger(), &LISTS, &mut buffer(427)).unwrap();
    let mut dropped = committer.clone();
    assert_eq!(dropped.drop_upto(12), Ok(true));
    assert_eq!(words(&dropped), [&[0], &kept[1..6], &[0; 6]].concat());
    let mut removed = committer.clone();
    assert_eq!(removed.remove(13, None, &mut buffer(500)), Ok(()));
    assert_eq!(words(&removed), [&kept[..6], &[0; 6]].concat());
    let mut reset = committer.clone();
    assert_eq!(reset.reset(), Ok(()));
    assert_eq!(words(&reset), [0; 12]);
    for place in 0..12 {
        *word(&mut reset, place) = 77;
    }
    assert_eq!(reset.start(&Start { after_gap: true, ..used() }), Ok(()));
    assert_eq!(words(&reset), [0; 12]);
    let mut again = committer.clone();
    assert_eq!(again.commit(&k13_trigger(), &LISTS, &mut []), Ok(0));
    assert_unchanged(&again, &committer);
}
