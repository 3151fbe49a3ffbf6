//! Needed points (document 02, N3): one that is named and not resolved is 14, one that was never named 25. K13 with other
//! starts, top proofs and points left out.

use committer::{Committer, PointId, PointInfo, Refusal, Start};

use crate::commits::{anchor, proof, put, used};
use crate::common::{assert_outlook, beginning, buffer, handed, id, link, refuses, started, valid};
use crate::lists::k13_points;

const LISTS: [u8; 4] = [0, 0, 1, 0];

fn trigger() -> PointId {
    id(15, 0, 'f')
}

/// Commit and outlook are refused, no anchor is finished, and no byte is written.
fn refused(committer: &mut Committer, number: u32) {
    assert_outlook(committer, &trigger());
    let mut bytes = buffer(427);
    refuses(committer, number, |c| c.commit(&trigger(), &LISTS, &mut bytes));
    refuses(committer, number, |c| c.outlook(&trigger(), &mut bytes));
    assert_eq!(bytes, buffer(427));
}

/// The anchor d is handed out.
fn hands_out(committer: &mut Committer) {
    let mut bytes = buffer(427);
    assert_eq!(committer.commit(&trigger(), &LISTS, &mut bytes), Ok(1));
    assert_eq!(handed(committer, &bytes, 1)[0].anchor, id(13, 0, 'd'));
}

/// The points of K13, but for these, which are only named; the anchor has this top proof.
fn add_k13(committer: &mut Committer, top_proof: PointId, named_only: &[PointId]) {
    for (id, info) in k13_points() {
        let info = if id.round == 13 { PointInfo { top_proof, ..info } } else { info };
        match named_only.contains(&id) {
            true => committer.name(&id).unwrap(),
            false => put(committer, id, info),
        }
    }
    committer.certify(&id(13, 0, 'd')).unwrap();
}

fn k13(with: &Start, top_proof: PointId) -> Committer {
    let mut committer = started(9, with, 15);
    add_k13(&mut committer, top_proof, &[]);
    committer
}

#[test]
fn the_lowest_top_proof() {
    let z = id(10, 0, 'z');
    let mut committer = k13(&beginning(), z);
    refused(&mut committer, 25);
    committer.name(&z).unwrap();
    refused(&mut committer, 14);
    // 14 goes before 13: an unresolved point has no status
    committer.certify(&z).unwrap();
    refused(&mut committer, 14);
    committer.resolve(&z, &proof(z, &[])).unwrap();
    refused(&mut committer, 16);
    // in a round with a used mark it isn't looked up
    hands_out(&mut k13(&used(), z));
}

#[test]
fn a_top_proof_above_it() {
    let q = id(11, 0, 'q');
    let mut committer = k13(&used(), q);
    refused(&mut committer, 25);
    // another id of the same author, and the same digest in another round
    committer.name(&id(11, 0, 'r')).unwrap();
    committer.name(&id(12, 0, 'q')).unwrap();
    refused(&mut committer, 25);
    committer.name(&q).unwrap();
    refused(&mut committer, 14);
    committer.resolve(&q, &valid(&[], &[])).unwrap();
    refused(&mut committer, 16);
}

/// The id is the author's too.
#[test]
fn a_top_proof_of_another_author() {
    let mut committer = k13(&used(), id(11, 1, 'q'));
    committer.name(&id(11, 0, 'q')).unwrap();
    refused(&mut committer, 25);
}

/// What a link leads to is named: the proof, the anchor, a point of the history.
#[test]
fn linked_points_are_named() {
    for point in [id(14, 0, 'e'), id(13, 0, 'd'), id(11, 0, 'a')] {
        let mut committer = started(8, &used(), 15);
        add_k13(&mut committer, id(10, 0, 'z'), &[point]);
        refused(&mut committer, 14);
        let (_, info) = k13_points().into_iter().find(|(id, _)| *id == point).expect("a point of K13");
        committer.resolve(&point, &info).unwrap();
        hands_out(&mut committer);
    }
}

/// Below the walk nothing is looked up.
#[test]
fn a_top_proof_below_the_bottom() {
    hands_out(&mut k13(&beginning(), id(9, 0, 'q')));
    let mut committer = k13(&beginning(), id(11, 0, 'q'));
    committer.name(&id(11, 0, 'q')).unwrap();
    refused(&mut committer, 14);
    committer.drop_upto(12).unwrap();
    committer.gap_question().unwrap();
    let mut bytes = buffer(345);
    assert_eq!(committer.commit(&trigger(), &LISTS[..3], &mut bytes), Ok(1));
    assert_eq!(handed(&committer, &bytes, 1)[0].points.len(), 3);
    refuses(&mut committer, 6, |c| c.name(&id(11, 0, 'q')));
    // in the new bottom itself
    let mut committer = k13(&beginning(), id(12, 0, 'q'));
    committer.drop_upto(12).unwrap();
    refused(&mut committer, 25);
}

#[test]
fn a_reset_forgets_names() {
    let q = id(11, 0, 'q');
    let mut committer = k13(&used(), q);
    committer.name(&q).unwrap();
    refused(&mut committer, 14);
    committer.reset().unwrap();
    committer.start(&used()).unwrap();
    (11..=15).for_each(|round| committer.round(round, u32::MAX).unwrap());
    add_k13(&mut committer, q, &[]);
    refused(&mut committer, 25);
}

/// A trigger that isn't named or not resolved is 9, and so is a resolution or a certificate of what isn't named; a link to
/// it is 12.
#[test]
fn other_numbers_stay() {
    let mut committer = k13(&used(), id(11, 0, 'q'));
    let (t, q) = (id(15, 1, 'q'), id(12, 1, 'q'));
    refuses(&mut committer, 9, |c| c.commit(&t, &LISTS, &mut buffer(427)));
    refuses(&mut committer, 9, |c| c.outlook(&t, &mut buffer(427)));
    committer.name(&t).unwrap();
    refuses(&mut committer, 9, |c| c.commit(&t, &LISTS, &mut buffer(427)));
    refuses(&mut committer, 9, |c| c.outlook(&t, &mut buffer(427)));
    refuses(&mut committer, 9, |c| c.certify(&q));
    refuses(&mut committer, 9, |c| c.resolve(&q, &valid(&[], &[])));
    committer.name(&id(13, 1, 'r')).unwrap();
    let info = PointInfo { includes: vec![link(&q)], ..anchor(q, &[]) };
    refuses(&mut committer, 12, |c| c.resolve(&id(13, 1, 'r'), &info));
}

#[test]
fn the_two_texts() {
    assert_eq!(Refusal::PointMissing.to_string(), "point needed, named and not resolved (14)");
    assert_eq!(Refusal::NeverNamed.to_string(), "point needed, never named (25)");
}
