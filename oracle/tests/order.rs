//! The order inside a round of a history, and the place lists that the shuffles kept (02, N1).

mod common;

use std::collections::BTreeSet;

use common::*;
use oracle::{HAS_OWN_ORDER, Id, OWN_ORDER, Oracle, PlaceLists, Start, set_shuffle_order};

fn ids(anchors: &[oracle::Anchor]) -> Vec<Vec<Id>> {
    anchors.iter().map(|anchor| anchor.points.clone()).collect()
}

/// 11.0.a, 11.1.b, 11.2.c below the anchor 12.0.d.
fn three() -> Oracle {
    let mut oracle = started(&Start { used: Some(0), peers: 0b111, ..start(10, 2, 0, 10) }, 14);
    for (author, letter) in [(0, 'a'), (1, 'b'), (2, 'c')] {
        add(&mut oracle, p(11, author, letter), valid());
    }
    add(&mut oracle, p(12, 0, 'd'), anchor(p(10, 0, 'z'), &[(0, 'a'), (1, 'b'), (2, 'c')]));
    add(&mut oracle, p(13, 0, 'e'), proof(&[(0, 'd')]));
    add(&mut oracle, p(14, 0, 'f'), trigger(&[(0, 'e')]));
    oracle.certify(&p(12, 0, 'd')).done();
    oracle
}

/// "Uncommitted points come out in the reverse of that order": byte k says who stands at k.
#[test]
fn three_points_come_out_in_the_reverse() {
    let points = [p(11, 0, 'a'), p(11, 1, 'b'), p(11, 2, 'c')];
    let mut seen = BTreeSet::new();
    for order in (0..64).chain([OWN_ORDER]) {
        set_shuffle_order(order);
        let mut oracle = three();
        let anchors = anchors(oracle.commit(&p(14, 0, 'f')));
        let [rounds] = &oracle.place_lists()[..] else { panic!("one anchor") };
        let [top, list] = &rounds[..] else { panic!("two rounds") };
        assert_eq!(*top, [0]);
        let mut out: Vec<Id> = list.iter().rev().map(|place| points[usize::from(*place)]).collect();
        out.push(p(12, 0, 'd'));
        assert_eq!(ids(&anchors), [out]);
        seen.insert(list.clone());
    }
    assert_eq!(seen.len(), 6);
}

/// Ranks count committed points too.
#[test]
fn committed_points_are_listed() {
    set_shuffle_order(0);
    let mut oracle = started(&Start { used: Some(0), ..start(10, 2, 0, 10) }, 16);
    add(&mut oracle, p(11, 0, 'a'), valid());
    add(&mut oracle, p(12, 0, 'b'), anchor(p(10, 0, 'z'), &[(0, 'a')]));
    add(&mut oracle, p(13, 0, 'c'), proof(&[(0, 'b')]));
    add(&mut oracle, p(14, 0, 'd'), anchor(p(13, 0, 'c'), &[(0, 'c')]));
    add(&mut oracle, p(15, 0, 'e'), proof(&[(0, 'd')]));
    add(&mut oracle, p(16, 0, 'f'), trigger(&[(0, 'e')]));
    oracle.certify(&p(12, 0, 'b')).done();
    oracle.certify(&p(14, 0, 'd')).done();
    let anchors = anchors(oracle.commit(&p(16, 0, 'f')));
    let lists: PlaceLists = vec![vec![vec![0]; 2], vec![vec![0]; 3]];
    assert_eq!(*oracle.place_lists(), lists);
    assert_eq!(ids(&anchors), [[p(11, 0, 'a'), p(12, 0, 'b')], [p(13, 0, 'c'), p(14, 0, 'd')]]);
}

/// A round that only a witness link passes over has an empty list.
#[test]
fn a_round_without_linked_points() {
    let mut oracle = started(&Start { used: Some(0), ..start(10, 2, 0, 10) }, 15);
    add(&mut oracle, p(11, 0, 'a'), valid());
    add(&mut oracle, p(13, 0, 'd'), witness(anchor(p(10, 0, 'z'), &[]), &[(0, 'a')]));
    add(&mut oracle, p(14, 0, 'e'), proof(&[(0, 'd')]));
    add(&mut oracle, p(15, 0, 'f'), trigger(&[(0, 'e')]));
    oracle.certify(&p(13, 0, 'd')).done();
    assert_eq!(anchors(oracle.commit(&p(15, 0, 'f'))).len(), 1);
    assert_eq!(oracle.place_lists()[..], [[vec![0], vec![], vec![0]]]);
}

/// Of a commit that panics the lists end before the panic.
#[test]
fn a_panic_leaves_them_short() {
    let mut oracle = list_a(false);
    panics(oracle.commit(&p(13, 0, 'c')), "not certified by anchor");
    assert_eq!(oracle.place_lists()[..], [[vec![0]]]);
    panics(oracle.commit(&p(13, 0, 'c')), "not certified by anchor");
    assert!(oracle.place_lists().is_empty());
}

/// Where the sources of `rand` are there: from the last position down, each exchanged with one at or below it.
#[test]
fn the_rusts_own_order() {
    if !HAS_OWN_ORDER {
        return;
    }
    set_shuffle_order(OWN_ORDER);
    let mut oracle = three();
    assert_eq!(anchors(oracle.commit(&p(14, 0, 'f'))).len(), 1);
    let mut state = Pcg::from_seed(&digest('d'));
    let mut list = vec![0, 1, 2];
    for last in [2, 1] {
        list.swap(last, state.below(last as u32 + 1) as usize);
    }
    assert_eq!(oracle.place_lists()[..], [[vec![0], list]]);
}

/// PCG XSL RR 128/64, drawn from as `gen_index` does: the high half of a product with the low 32 bits of a draw, the low
/// half within the zone.
struct Pcg {
    state: u128,
    increment: u128,
}

impl Pcg {
    fn from_seed(seed: &[u8; 32]) -> Pcg {
        let (state, increment) = seed.split_at(16);
        let [state, increment] = [state, increment].map(|half| u128::from_le_bytes(half.try_into().expect("16 bytes")));
        let mut pcg = Pcg { state, increment: increment | 1 };
        pcg.state = pcg.state.wrapping_add(pcg.increment);
        pcg.step();
        pcg
    }

    fn step(&mut self) {
        let multiplier = 0x2360_ed05_1fc6_5da4_4385_df64_9fcc_f645;
        self.state = self.state.wrapping_mul(multiplier).wrapping_add(self.increment);
    }

    fn next_u32(&mut self) -> u32 {
        self.step();
        let folded = (self.state >> 64) as u64 ^ self.state as u64;
        folded.rotate_right((self.state >> 122) as u32) as u32
    }

    fn below(&mut self, range: u32) -> u32 {
        let zone = (range << range.leading_zeros()).wrapping_sub(1);
        loop {
            let product = u64::from(self.next_u32()) * u64::from(range);
            if product as u32 <= zone {
                return (product >> 32) as u32;
            }
        }
    }
}
