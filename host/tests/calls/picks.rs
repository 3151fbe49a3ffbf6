//! Picks (document 02, N4): "pick them by rising digest out of the round's places". Ranks count the needed points of one
//! round, whatever else it holds, wherever its points stand, whoever wrote them.

use committer::{Committer, POINT_BYTES, PointId, PointInfo, RECORD_BYTES, Start, Status};

use crate::commits::{anchor, proof, put, used};
use crate::common::{Noise, assert_outlook, buffer, handed, id, refuses, started, valid};
use crate::lists::{above_widest, hands_out, proved, refused_at_first, told, widest, widest_row, yields};
use crate::outlooks::look;

const ORDERS: [[u8; 3]; 6] = [[0, 1, 2], [0, 2, 1], [1, 0, 2], [1, 2, 0], [2, 0, 1], [2, 1, 0]];

/// Authors fall as letters rise.
fn at(round: u32, letter: char) -> PointId {
    id(round, 'z' as u32 - letter as u32, letter)
}

/// These points of a round, as links need them: by rising author.
fn row(round: u32, letters: &str) -> Vec<PointId> {
    let mut ids: Vec<PointId> = letters.chars().map(|letter| at(round, letter)).collect();
    ids.sort_by_key(|id| id.author);
    ids
}

/// Names these points of a round in this order and resolves them, each with these includes.
fn put_row(committer: &mut Committer, round: u32, letters: &str, includes: &[PointId]) {
    letters.chars().for_each(|letter| put(committer, at(round, letter), valid(includes, &[])));
}

fn x(round: u32) -> PointId {
    id(round, 0, 'x')
}

/// Points of 11 named in this order, some of them under the anchor x in 12. Returned with its trigger.
fn under_anchor(named: &str, needed: &str) -> (Committer, PointId) {
    let mut committer = started(8, &used(), 14);
    put_row(&mut committer, 11, named, &[]);
    put(&mut committer, x(12), anchor(id(10, 0, 'z'), &row(11, needed)));
    let trigger = yields(&mut committer, x(12));
    (committer, trigger)
}

/// The letters as they come out: in the reverse of the list's order.
fn come_out(letters: &str, list: &[u8]) -> String {
    list.iter().rev().map(|rank| char::from(letters.as_bytes()[usize::from(*rank)])).collect()
}

#[test]
fn one_needed_point() {
    for needed in ["a", "b", "c"] {
        let (committer, trigger) = under_anchor("bca", needed);
        assert_eq!(told(&committer, &trigger), [look(x(12), 2, &[1, 1])]);
        hands_out(&committer, &trigger, &[0, 0], &[&format!("{needed}x")]);
        for lists in [&[0][..], &[0, 1], &[0, 2]] {
            refused_at_first(&committer, &trigger, lists, 24);
        }
    }
}

/// The round holds points, but the anchor's witness link passes over it.
#[test]
fn no_needed_point() {
    let mut committer = started(8, &used(), 15);
    put_row(&mut committer, 11, "a", &[]);
    put_row(&mut committer, 12, "cb", &row(11, "a"));
    put(&mut committer, x(13), PointInfo { top_proof: id(10, 0, 'z'), ..valid(&[], &row(11, "a")) });
    let trigger = yields(&mut committer, x(13));
    assert_eq!(told(&committer, &trigger), [look(x(13), 2, &[1, 0, 1])]);
    hands_out(&committer, &trigger, &[0, 0], &["ax"]);
    hands_out(&committer, &trigger, &[0, 0, 1, 0], &["ax"]);
    for lists in [&[0][..], &[0, 1, 0, 0]] {
        refused_at_first(&committer, &trigger, lists, 24);
    }
}

/// A point that nobody links to has no rank.
#[test]
fn a_point_passed_over() {
    for needed in ["ac", "ab", "bc"] {
        let (committer, trigger) = under_anchor("abc", needed);
        assert_eq!(told(&committer, &trigger), [look(x(12), 3, &[1, 2])]);
        for list in [[0, 1], [1, 0]] {
            let expected = come_out(needed, &list) + "x";
            hands_out(&committer, &trigger, &[&[0], &list[..]].concat(), &[&expected]);
        }
        for list in [[0, 2], [2, 0], [1, 2], [2, 1]] {
            refused_at_first(&committer, &trigger, &[&[0], &list[..]].concat(), 24);
        }
    }
    let (committer, trigger) = under_anchor("abc", "ac");
    hands_out(&committer, &trigger, &[0, 0, 1], &["cax"]);
    hands_out(&committer, &trigger, &[0, 1, 0], &["acx"]);
}

/// The order of naming decides places, not ranks.
#[test]
fn named_in_any_order() {
    for order in ORDERS {
        let (committer, trigger) = under_anchor(&come_out("abc", &order), "abc");
        for list in ORDERS {
            let expected = come_out("abc", &list) + "x";
            hands_out(&committer, &trigger, &[&[0], &list[..]].concat(), &[&expected]);
        }
    }
}

/// b goes with the first anchor, x in 12. The second one, x in 14, reaches a, b and c by y, and b keeps its rank.
#[test]
fn a_committed_point_between_new_ones() {
    let mut committer = started(12, &Start { commit_history_rounds: 4, ..used() }, 16);
    let (p, y) = (id(13, 0, 'p'), at(12, 'y'));
    put_row(&mut committer, 11, "cab", &[]);
    put(&mut committer, x(12), anchor(id(10, 0, 'z'), &row(11, "b")));
    put(&mut committer, y, valid(&row(11, "abc"), &[]));
    put(&mut committer, p, proof(p, &[x(12), y]));
    put(&mut committer, x(14), anchor(p, &[p]));
    committer.certify(&x(12)).unwrap();
    let trigger = yields(&mut committer, x(14));
    assert_eq!(told(&committer, &trigger), [look(x(12), 2, &[1, 1]), look(x(14), 5, &[1, 1, 2, 3])]);
    for list in ORDERS {
        let second = come_out("abc", &list).replace('b', "") + "ypx";
        hands_out(&committer, &trigger, &[&[0, 0, 0, 0, 0, 1], &list[..]].concat(), &["bx", &second]);
    }
    hands_out(&committer, &trigger, &[0, 0, 0, 0, 0, 1, 2, 1, 0], &["bx", "acypx"]);
}

/// The points of the widest round as a commit with this list hands them out.
fn widest_order(committer: &Committer, trigger: &PointId, list: &[u8]) -> Vec<PointId> {
    let count = list.len() + 5;
    let mut bytes = buffer(RECORD_BYTES + count * POINT_BYTES);
    assert_eq!(committer.clone().commit(trigger, &[&[0, 3, 2, 1, 0], list].concat(), &mut bytes), Ok(1));
    let mut points = handed(committer, &bytes, 1).remove(0).points;
    let rest = points.split_off(list.len());
    assert_eq!(rest, [&above_widest()[..], &[id(13, 0, 'd')]].concat());
    points
}

/// All of a round, named in any order.
#[test]
fn all_of_128_points() {
    let mut noise = Noise::new(1);
    let row = widest_row();
    assert!(row.is_sorted_by_key(|id| id.digest));
    let named: Vec<PointId> = noise.shuffled(128).into_iter().map(|n| row[usize::from(n)]).collect();
    let (committer, trigger) = widest(&named, &row);
    let rising: Vec<u8> = (0..128).collect();
    let falling: Vec<u8> = (0..128).rev().collect();
    assert_eq!(widest_order(&committer, &trigger, &falling), row);
    assert!(widest_order(&committer, &trigger, &rising).iter().rev().eq(&row));
    for _ in 0..20 {
        let list = noise.shuffled(128);
        let expected: Vec<PointId> = list.iter().rev().map(|rank| row[usize::from(*rank)]).collect();
        assert_eq!(widest_order(&committer, &trigger, &list), expected);
    }
    for at in [0, 64, 127] {
        let mut list = falling.clone();
        list[at] = 128;
        refused_at_first(&committer, &trigger, &[&[0, 3, 2, 1, 0], &list[..]].concat(), 24);
    }
}

/// Some of a round's 128 points are needed, from nearly none to nearly all.
#[test]
fn some_of_128_points() {
    for seed in 1..=24 {
        let mut noise = Noise::new(seed);
        let row = widest_row();
        let named: Vec<PointId> = noise.shuffled(128).into_iter().map(|n| row[usize::from(n)]).collect();
        let needed: Vec<PointId> = row.into_iter().filter(|_| noise.below(25) < seed as u32).collect();
        let (committer, trigger) = widest(&named, &needed);
        let count = needed.len() as u32;
        assert_eq!(told(&committer, &trigger), [look(id(13, 0, 'd'), 5 + count, &[1, 4, count])]);
        let list = noise.shuffled(count);
        let expected: Vec<PointId> = list.iter().rev().map(|rank| needed[usize::from(*rank)]).collect();
        assert_eq!(widest_order(&committer, &trigger, &list), expected);
    }
}

/// Ranks are counted in each round alone.
#[test]
fn two_rounds_whose_digests_interleave() {
    let mut committer = started(12, &used(), 15);
    put_row(&mut committer, 11, "eac", &[]);
    put_row(&mut committer, 12, "dfb", &row(11, "ace"));
    put(&mut committer, x(13), anchor(id(10, 0, 'z'), &row(12, "bdf")));
    let trigger = yields(&mut committer, x(13));
    assert_eq!(told(&committer, &trigger), [look(x(13), 7, &[1, 3, 3])]);
    for (upper, lower) in ORDERS.iter().flat_map(|upper| ORDERS.iter().map(move |lower| (upper, lower))) {
        let expected = come_out("ace", lower) + &come_out("bdf", upper) + "x";
        hands_out(&committer, &trigger, &[&[0], &upper[..], &lower[..]].concat(), &[&expected]);
    }
    refused_at_first(&committer, &trigger, &[0, 0, 1, 2, 3, 4, 5], 24);
}

/// A point that refuses a history with this number: invalid and certified, not resolved, or invalid.
fn put_faulty(committer: &mut Committer, id: PointId, number: u32) {
    committer.name(&id).unwrap();
    if number != 14 {
        let info = PointInfo { status: Status::Invalid.number(), ..PointInfo::default() };
        committer.resolve(&id, &info).unwrap();
    }
    if number == 13 {
        committer.certify(&id).unwrap();
    }
}

/// The number is that of the lesser digest, b; a is faulty too, but not needed.
#[test]
fn two_faulty_points() {
    for (b, c) in [(13, 14), (13, 15), (14, 13), (14, 15), (15, 13), (15, 14)] {
        for named in ["abc", "cba"] {
            let mut committer = started(8, &used(), 14);
            for letter in named.chars() {
                put_faulty(&mut committer, at(11, letter), [c, b, c][letter as usize - 'a' as usize]);
            }
            put(&mut committer, x(12), anchor(id(10, 0, 'z'), &row(11, "bc")));
            // x isn't certified, or an invalid point would be
            let trigger = proved(&mut committer, x(12));
            assert_outlook(&committer, &trigger);
            refuses(&mut committer, b, |c| c.outlook(&trigger, &mut buffer(100)));
            refused_at_first(&committer, &trigger, &[0, 0, 1], b);
        }
    }
}
