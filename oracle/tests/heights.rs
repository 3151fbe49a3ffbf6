//! Heights over includes and witness, against their definition in document 01.

mod common;

use std::collections::BTreeMap;

use common::*;
use oracle::{Id, Info, Link, Oracle};

#[test]
fn a_witness_link_costs_two() {
    let mut oracle = started(&start(10, 3, 0, 16), 20);
    add(&mut oracle, p(16, 0, 'a'), valid());
    add(&mut oracle, p(18, 0, 'b'), witness(valid(), &[(0, 'a')]));
    add(&mut oracle, p(19, 1, 'c'), includes(valid(), &[(0, 'b')]));
    add(&mut oracle, p(20, 0, 'd'), witness(includes(valid(), &[(1, 'c')]), &[(0, 'b')]));
    oracle.certify(&p(20, 0, 'd')).done();
    assert_eq!(word(&oracle, p(19, 1, 'c')), INIT | 3);
    assert_eq!(word(&oracle, p(18, 0, 'b')), INIT | 2);
    assert_eq!(word(&oracle, p(16, 0, 'a')), INIT);
    oracle.certify(&p(18, 0, 'b')).done();
    assert_eq!(word(&oracle, p(16, 0, 'a')), INIT | 2);
}

#[test]
fn certified_before_it_is_resolved() {
    let mut oracle = started(&start(10, 2, 0, 12), 13);
    add(&mut oracle, p(12, 0, 'a'), valid());
    oracle.name(&p(13, 0, 'b')).done();
    oracle.certify(&p(13, 0, 'b')).done();
    assert_eq!(word(&oracle, p(13, 0, 'b')), TOP | 3);
    assert_eq!(word(&oracle, p(12, 0, 'a')), INIT);
    oracle.resolve(&p(13, 0, 'b'), &includes(valid(), &[(0, 'a')])).done();
    assert_eq!(word(&oracle, p(13, 0, 'b')), TOP | INIT | 3);
    assert_eq!(word(&oracle, p(12, 0, 'a')), INIT | 2);
    // a second certificate changes nothing
    let before = oracle.points();
    oracle.certify(&p(13, 0, 'b')).done();
    assert_eq!(oracle.points(), before);
}

#[test]
fn statuses_without_links_have_no_flags() {
    let mut oracle = started(&start(10, 2, 0, 12), 12);
    for (letter, number, flags) in [('a', 2, INIT), ('b', 3, INIT), ('c', 4, 0), ('d', 5, 0)] {
        add(&mut oracle, p(12, 0, letter), status(number));
        assert_eq!(word(&oracle, p(12, 0, letter)), flags);
        oracle.certify(&p(12, 0, letter)).done();
        assert_eq!(word(&oracle, p(12, 0, letter)), TOP | flags | 3);
        assert_eq!(state(&oracle, p(12, 0, letter)).status, number);
    }
}

const HISTORY: u32 = 4;
const ROUNDS: std::ops::Range<u32> = 20..29;

/// Points with their links once resolved, and the tops.
#[derive(Default)]
struct Model {
    links: BTreeMap<Id, Option<Vec<Id>>>,
    tops: Vec<Id>,
}

impl Model {
    /// The largest H + 1 − (top's round − its round) over all tops with a path to the point, else 0.
    fn height(&self, id: &Id) -> u32 {
        let tops = self.tops.iter().filter(|top| self.reaches(top, id));
        tops.map(|top| (HISTORY + 1).saturating_sub(top.round - id.round)).max().unwrap_or(0)
    }

    fn reaches(&self, from: &Id, to: &Id) -> bool {
        let links = self.links[from].iter().flatten();
        from == to || links.filter(|link| link.round >= to.round).any(|link| self.reaches(link, to))
    }
}

struct Random(u64);

impl Random {
    fn below(&mut self, bound: u64) -> u64 {
        self.0 = self.0.wrapping_mul(6_364_136_223_846_793_005).wrapping_add(1_442_695_040_888_963_407);
        (self.0 >> 33) % bound
    }
    fn pick<'a, T>(&mut self, items: &'a [T]) -> &'a T {
        &items[self.below(items.len() as u64) as usize]
    }
}

/// One point by each of four authors in each round, to be resolved in any order.
fn named(oracle: &mut Oracle, model: &mut Model) -> Vec<Id> {
    let ids: Vec<Id> = ROUNDS
        .flat_map(|round| (0..4).map(move |author| p(round, author, char::from(b'a' + author))))
        .map(|mut id| {
            id.digest[1] = id.round as u8; // digests of different rounds are distinct
            id
        })
        .collect();
    for id in &ids {
        oracle.name(id).done();
        model.links.insert(*id, None);
    }
    ids
}

/// Each point of the round `down` below becomes a link with even chance.
fn some_links(random: &mut Random, ids: &[Id], id: &Id, down: u32) -> Vec<Id> {
    ids.iter().filter(|to| to.round + down == id.round && random.below(2) == 0).copied().collect()
}

fn resolved(status: u8, includes: &[Id], witness: &[Id]) -> Info {
    let link = |id: &Id| Link { peer: id.author, digest: id.digest };
    with(common::status(status), |info| {
        info.includes = includes.iter().map(link).collect();
        info.witness = witness.iter().map(link).collect();
    })
}

fn step(random: &mut Random, oracle: &mut Oracle, model: &mut Model, ids: &[Id]) {
    let id = random.pick(ids);
    if random.below(6) == 0 {
        oracle.certify(id).done();
        model.tops.push(*id);
    } else if model.links[id].is_none() {
        let includes = some_links(random, ids, id, 1);
        let witness = some_links(random, ids, id, 2);
        let status = 1 + random.below(3) as u8;
        oracle.resolve(id, &resolved(status, &includes, &witness)).done();
        model.links.insert(*id, Some([includes, witness].concat()));
    }
}

#[test]
fn heights_are_path_heights() {
    let mut above_zero = 0;
    for seed in 0..60 {
        oracle::set_hash_seed(seed);
        let mut random = Random(seed);
        let mut model = Model::default();
        let mut oracle = Oracle::new();
        oracle.start(&oracle::Start { peers: 0b1111, ..start(10, HISTORY, 0, ROUNDS.start) }).done();
        for round in ROUNDS.skip(1) {
            oracle.round(round, 0b1111).done();
        }
        let ids = named(&mut oracle, &mut model);
        for _ in 0..80 {
            step(&mut random, &mut oracle, &mut model, &ids);
            for point in oracle.points() {
                let height = u32::from(point.word & 0xfff);
                assert_eq!(height, model.height(&point.id), "seed {seed}, {:?}", point.id);
                above_zero += u32::from(height > 0);
            }
        }
    }
    assert!(above_zero > 10_000, "the lists hardly certify: {above_zero}");
}
