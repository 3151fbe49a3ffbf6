//! Every refusal from 1 to 12 through every call that can give it. After each, state and tables are as before: see
//! `refuses`.

use committer::{Committer, Link, PointId, PointInfo, ROUND_MAX, Refusal, Refused, Start, Status, Tables};

use crate::common::{add, beginning, link, point, refuses, started, valid, version};

type ById = fn(&mut Committer, &PointId) -> Result<(), Refused>;

/// The calls that take an id.
const BY_ID: [ById; 3] = [|c, id| c.name(id), |c, id| c.resolve(id, &valid(&[], &[])), |c, id| c.certify(id)];

/// Every call but start, each with what it would accept on tables with the rounds 10 and 11.
fn refuse_all(committer: &mut Committer) {
    refuses(committer, 2, |c| c.reset());
    refuses(committer, 2, |c| c.round(11, 1));
    refuses(committer, 2, |c| c.gap_question());
    refuses(committer, 2, |c| c.drop_upto(10));
    refuses(committer, 2, |c| c.remove(10, None, &mut [0; 5]));
    for call in BY_ID {
        refuses(committer, 2, |c| call(c, &point(10, 0)));
    }
}

#[test]
fn start_1() {
    let wrong = [
        Start { commit_history_rounds: 0, ..beginning() },
        Start { commit_history_rounds: 256, ..beginning() },
        Start { commit_history_rounds: u32::MAX, ..beginning() },
        Start { deduplicate_rounds: 65536, ..beginning() },
        Start { genesis: ROUND_MAX + 1, bottom: ROUND_MAX + 1, ..beginning() },
        Start { bottom: ROUND_MAX + 1, ..beginning() },
        Start { bottom: 9, ..beginning() },
        Start { used: Some(32), ..beginning() },
        Start { used: Some(u32::MAX - 1), ..beginning() },
        Start { used: Some(u32::MAX), ..beginning() },
    ];
    for with in wrong {
        refuses(&mut Committer::new(4), 1, |c| c.start(&with));
        // 1 comes before 2
        refuses(&mut started(4, &beginning(), 11), 1, |c| c.start(&with));
    }
    let right = [
        Start { commit_history_rounds: 1, deduplicate_rounds: 65535, ..beginning() },
        Start { commit_history_rounds: 255, used: Some(31), ..beginning() },
        Start { bottom: ROUND_MAX, peers: 0, ..beginning() },
        Start { genesis: 0, bottom: 0, ..beginning() },
    ];
    for with in right {
        assert_eq!(Committer::new(4).start(&with), Ok(()));
    }
}

#[test]
fn start_1_of_the_number_of_places() {
    for places in [0, 4097, 5000] {
        refuses(&mut Committer::new(places), 1, |c| c.start(&beginning()));
    }
    for places in [1, 4096] {
        assert_eq!(Committer::new(places).start(&beginning()), Ok(()));
    }
}

/// Tables whose lengths are for different numbers of places.
fn misshapen() -> Vec<Committer> {
    let lengths: [fn(&mut Tables); 10] = [
        |t| t.keys.truncate(31),
        |t| t.keys.push(0),
        |t| t.keys.clear(),
        |t| t.links.truncate(3 * 328),
        |t| t.links.push(0),
        |t| t.links.clear(),
        |t| t.certs.truncate(3),
        |t| t.certs.push(0),
        |t| t.order.clear(),
        |t| t.order.push(0),
    ];
    let with = |cut: &fn(&mut Tables)| {
        let mut committer = started(4, &beginning(), 11);
        cut(committer.parts_mut().0);
        committer
    };
    lengths.iter().map(with).collect()
}

#[test]
fn lengths_that_differ_are_refused() {
    for mut committer in misshapen() {
        refuses(&mut committer, 1, |c| c.start(&beginning()));
        refuse_all(&mut committer);
        assert_eq!((committer.summary(), committer.points()), (None, vec![]));
    }
}

#[test]
fn not_started_2() {
    refuse_all(&mut Committer::new(4));
    refuse_all(&mut Committer::new(0));
    refuse_all(&mut Committer::new(4097));
    let mut reset = started(4, &beginning(), 11);
    reset.reset().unwrap();
    refuse_all(&mut reset);
}

#[test]
fn started_twice_2() {
    let mut committer = started(4, &beginning(), 11);
    add(&mut committer, &point(10, 0), &[], &[]);
    refuses(&mut committer, 2, |c| c.start(&beginning()));
    refuses(&mut committer, 2, |c| c.start(&Start { bottom: 40, ..beginning() }));
}

#[test]
fn round_3() {
    let mut committer = started(1, &beginning(), 11);
    for round in [13, 14, 600, ROUND_MAX, ROUND_MAX + 1, u32::MAX] {
        refuses(&mut committer, 3, |c| c.round(round, 1));
    }
    assert_eq!(committer.round(12, 1), Ok(()));
    let mut last = started(1, &Start { bottom: ROUND_MAX - 1, ..beginning() }, ROUND_MAX);
    for round in [ROUND_MAX + 1, ROUND_MAX + 2, u32::MAX] {
        refuses(&mut last, 3, |c| c.round(round, 1));
    }
    assert_eq!(last.round(ROUND_MAX, 1), Ok(()));
}

#[test]
fn round_4() {
    let mut committer = started(1, &beginning(), 521);
    refuses(&mut committer, 4, |c| c.round(522, 1));
    // 3 comes before 4
    refuses(&mut committer, 3, |c| c.round(523, 1));
    assert_eq!(committer.round(521, 1), Ok(()));
    assert_eq!(committer.drop_upto(11), Ok(true));
    assert_eq!(committer.round(522, 1), Ok(()));
    refuses(&mut committer, 4, |c| c.round(523, 1));
}

#[test]
fn name_4() {
    let mut committer = started(5, &beginning(), 11);
    for n in 0..4 {
        committer.name(&version(10, 0, n)).unwrap();
    }
    committer.name(&point(11, 0)).unwrap();
    refuses(&mut committer, 4, |c| c.name(&point(10, 1)));
    // 7 and 8 come before 4
    refuses(&mut committer, 7, |c| c.name(&point(11, 0)));
    refuses(&mut committer, 8, |c| c.name(&version(10, 0, 4)));
}

#[test]
fn author_5_and_round_6() {
    // peers 0 and 31 in the bottom, none in the round above it
    let mut committer = Committer::new(4);
    committer.start(&Start { bottom: 20, peers: 1 | 1 << 31, ..beginning() }).unwrap();
    committer.round(21, 0).unwrap();
    for call in BY_ID {
        for (number, round, author) in [
            (5, 20, 32),
            (5, 20, u32::MAX),
            // 5 of an author above 31 comes before 6
            (5, 19, 32),
            (5, 22, 33),
            (6, 19, 0),
            (6, 0, 0),
            (6, 22, 31),
            (6, 20 + 512, 0),
            (6, u32::MAX, 0),
            // 6 comes before 5 of an author that isn't a peer
            (6, 19, 1),
            (5, 20, 1),
            (5, 20, 30),
            (5, 21, 0),
            (5, 21, 31),
        ] {
            refuses(&mut committer, number, |c| call(c, &point(round, author)));
        }
    }
    assert_eq!(committer.name(&point(20, 0)), Ok(()));
    assert_eq!(committer.name(&point(20, 31)), Ok(()));
}

#[test]
fn a_dropped_round_6() {
    let mut committer = started(4, &beginning(), 14);
    add(&mut committer, &point(11, 0), &[], &[]);
    committer.drop_upto(12).unwrap();
    for call in BY_ID {
        refuses(&mut committer, 6, |c| call(c, &point(11, 0)));
    }
}

#[test]
fn name_7() {
    let mut committer = started(8, &beginning(), 11);
    let id = point(10, 3);
    committer.name(&id).unwrap();
    refuses(&mut committer, 7, |c| c.name(&id));
    // by another author too
    refuses(&mut committer, 7, |c| c.name(&PointId { author: 4, ..id }));
    // another round is another matter
    assert_eq!(committer.name(&PointId { round: 11, ..id }), Ok(()));
    // 7 comes before 8
    for n in 1..4 {
        committer.name(&version(10, 3, n)).unwrap();
    }
    refuses(&mut committer, 7, |c| c.name(&version(10, 3, 2)));
}

#[test]
fn name_8() {
    let mut committer = started(16, &beginning(), 11);
    for n in 0..4 {
        committer.name(&version(10, 3, n)).unwrap();
    }
    refuses(&mut committer, 8, |c| c.name(&version(10, 3, 4)));
    assert_eq!(committer.name(&version(10, 4, 4)), Ok(()));
    assert_eq!(committer.name(&version(11, 3, 4)), Ok(()));
}

#[test]
fn resolve_and_certify_9() {
    let mut committer = started(8, &beginning(), 11);
    committer.name(&point(10, 3)).unwrap();
    let others = [
        point(10, 4),
        point(11, 3),
        version(10, 3, 1),
        PointId { author: 4, ..point(10, 3) },
        PointId { round: 11, ..point(10, 3) },
    ];
    for id in others {
        refuses(&mut committer, 9, |c| c.resolve(&id, &valid(&[], &[])));
        refuses(&mut committer, 9, |c| c.certify(&id));
        // 9 comes before 11
        refuses(&mut committer, 9, |c| c.resolve(&id, &PointInfo::default()));
    }
    assert_eq!(committer.certify(&point(10, 3)), Ok(()));
    assert_eq!(committer.resolve(&point(10, 3), &valid(&[], &[])), Ok(()));
}

#[test]
fn resolve_10() {
    let mut committer = started(8, &beginning(), 11);
    for (author, status) in
        (0..).zip([Status::Valid, Status::TransInvalid, Status::Invalid, Status::IllFormed, Status::NotFound])
    {
        let id = point(10, author);
        let info = PointInfo { status: status.number(), ..PointInfo::default() };
        committer.name(&id).unwrap();
        committer.resolve(&id, &info).unwrap();
        refuses(&mut committer, 10, |c| c.resolve(&id, &info));
        // 10 comes before 11
        refuses(&mut committer, 10, |c| c.resolve(&id, &PointInfo::default()));
    }
}

/// Links under the peers, to nothing in particular.
fn links(peers: impl IntoIterator<Item = u32>) -> Vec<Link> {
    peers.into_iter().map(|peer| Link { peer, digest: [7; 32] }).collect()
}

/// Resolutions of a wrong form, whatever the round.
fn malformed() -> Vec<PointInfo> {
    let info = valid(&[], &[]);
    let mut wrong = Vec::new();
    for status in [0, 6, 7, 255, 256, 257, u32::MAX] {
        wrong.push(PointInfo { status, ..info.clone() });
    }
    for status in [4, 5] {
        wrong.push(PointInfo { status, includes: links([0]), ..info.clone() });
        wrong.push(PointInfo { status, witness: links([0]), ..info.clone() });
        wrong.push(PointInfo { status, evidence: 1, ..info.clone() });
        wrong.push(PointInfo { status, evidence: 1 << 31, ..info.clone() });
    }
    let of_peers = [
        links(0..33),
        links(std::iter::repeat_n(0, 33)),
        links(std::iter::repeat_n(0, 1000)),
        links([32]),
        links([0, 32]),
        links([u32::MAX]),
        links([0, 0]),
        links([5, 4]),
        links([0, 1, 2, 2]),
        links([31, 0]),
    ];
    for peers in of_peers {
        wrong.push(PointInfo { includes: peers.clone(), ..info.clone() });
        wrong.push(PointInfo { witness: peers, ..info.clone() });
    }
    for author in [32, 255, u32::MAX] {
        for status in 1..=5 {
            wrong.push(PointInfo { status, top_proof: PointId { author, ..PointId::default() }, ..info.clone() });
        }
    }
    wrong
}

#[test]
fn resolve_11() {
    let mut committer = started(4, &Start { bottom: 20, ..beginning() }, 22);
    committer.name(&point(22, 0)).unwrap();
    for info in malformed() {
        refuses(&mut committer, 11, |c| c.resolve(&point(22, 0), &info));
    }
    // the links lead nowhere: 11 comes before 12
    refuses(&mut committer, 12, |c| c.resolve(&point(22, 0), &PointInfo { includes: links([3]), ..valid(&[], &[]) }));
}

#[test]
fn links_below_round_0_11() {
    let mut committer = started(4, &Start { genesis: 0, bottom: 0, ..beginning() }, 2);
    for round in 0..=2 {
        committer.name(&point(round, 0)).unwrap();
    }
    let includes = PointInfo { includes: links([0]), ..valid(&[], &[]) };
    let witness = PointInfo { witness: links([0]), ..valid(&[], &[]) };
    refuses(&mut committer, 11, |c| c.resolve(&point(0, 0), &includes));
    refuses(&mut committer, 11, |c| c.resolve(&point(0, 0), &witness));
    refuses(&mut committer, 11, |c| c.resolve(&point(1, 0), &witness));
    refuses(&mut committer, 12, |c| c.resolve(&point(1, 0), &includes));
    refuses(&mut committer, 12, |c| c.resolve(&point(2, 0), &witness));
    assert_eq!(committer.resolve(&point(0, 0), &valid(&[], &[])), Ok(()));
    assert_eq!(committer.resolve(&point(1, 0), &valid(&[point(0, 0)], &[])), Ok(()));
    assert_eq!(committer.resolve(&point(2, 0), &valid(&[point(1, 0)], &[point(0, 0)])), Ok(()));
}

/// A number of links that isn't that of the words lent; only the C function can be called so.
#[test]
fn numbers_of_links_that_differ_11() {
    let mut committer = started(4, &beginning(), 11);
    committer.name(&point(11, 0)).unwrap();
    committer.name(&point(10, 0)).unwrap();
    let (tables, state) = committer.parts_mut();
    let id = (&point(11, 0)).into();
    let refs = [0u64; 10];
    for (includes, witness, words) in [
        (1, 0, 0),
        (1, 0, 4),
        (1, 0, 6),
        (0, 0, 5),
        (1, 1, 5),
        (usize::MAX, 0, 5),
        (0, usize::MAX, 0),
        (usize::MAX / 5 + 1, 0, 10),
    ] {
        let resolution = committer::sys::Resolution { includes, witness, ..(&valid(&[], &[])).into() };
        let before = tables.clone();
        // Safety: the words lent are at most those of `refs`; the tables are vectors.
        let reply = unsafe {
            committer::sys::committer_resolve(
                *state,
                tables.keys.as_mut_ptr(),
                tables.keys.len(),
                tables.links.as_mut_ptr(),
                tables.links.len(),
                tables.certs.as_mut_ptr(),
                tables.certs.len(),
                tables.order.as_ptr(),
                tables.order.len(),
                id,
                resolution,
                refs.as_ptr(),
                words,
            )
        };
        assert_eq!((reply.refused, reply.said, reply.anchors, reply.conflict), (11, 0, 0, 0));
        assert!(reply.state == *state && *tables == before);
    }
}

#[test]
fn resolve_12() {
    let mut committer = started(8, &Start { bottom: 20, ..beginning() }, 23);
    let (low, mid) = (point(20, 1), point(21, 2));
    committer.name(&low).unwrap();
    committer.name(&mid).unwrap();
    committer.name(&point(22, 0)).unwrap();
    let wild = [
        valid(&[point(21, 3)], &[]),
        valid(&[mid, point(21, 3)], &[low]),
        valid(&[mid], &[point(20, 0), low]),
        valid(&[PointId { author: 3, ..mid }], &[]),
        valid(&[version(21, 2, 1)], &[]),
        // the digest is named, in another round
        valid(&[low], &[]),
        valid(&[], &[mid]),
    ];
    for info in wild {
        for status in 1..=3 {
            refuses(&mut committer, 12, |c| c.resolve(&point(22, 0), &PointInfo { status, ..info.clone() }));
        }
    }
    // links to points that aren't resolved will do
    assert_eq!(committer.resolve(&point(22, 0), &valid(&[mid], &[low])), Ok(()));
}

#[test]
fn thirty_two_links_of_a_kind_will_do() {
    let mut committer = started(65, &beginning(), 12);
    let row = |round| (0..32).map(|author| point(round, author)).collect::<Vec<_>>();
    for id in row(10).iter().chain(&row(11)) {
        committer.name(id).unwrap();
    }
    add(&mut committer, &point(12, 0), &row(11), &row(10));
    committer.certify(&point(12, 0)).unwrap();
    let heights: Vec<u16> = committer.points().iter().map(|point| point.height()).collect();
    assert_eq!(heights, [vec![1; 32], vec![2; 32], vec![3]].concat());
    let links: Vec<Link> = row(11).iter().map(link).collect();
    assert_eq!(links.len(), committer::LINKS_MAX);
}

#[test]
fn refusals_have_their_numbers_and_texts() {
    let all: Vec<Refusal> = (1..=27).map(|number| Refusal::of(number, 77).unwrap()).collect();
    for (refusal, number) in all.iter().zip(1..) {
        assert_eq!(refusal.number(), number);
        assert!(refusal.to_string().contains(&format!("({number})")));
    }
    assert_eq!(all[12], Refusal::Conflict { round: 77 });
    assert!(all[12].to_string().ends_with("at round 77"));
    assert_eq!((Refusal::of(0, 0), Refusal::of(28, 0)), (None, None));
}
