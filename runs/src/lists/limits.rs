//! Lists at the limits of each size, and one beyond.

use committer::{Call, Link, PLACES_MAX, PointId, PointInfo, ROUND_MAX, Start};

use super::{commit, digest, link, point, valid};
use crate::compare::List;

pub fn limits() -> Vec<List> {
    let mut lists = vec![
        full_table(),
        many_rounds(),
        many_links(),
        many_digests(),
        one_place(),
        highest_rounds(),
        late_chain(255),
        zero(),
    ];
    lists.extend([1, 2, 255].into_iter().flat_map(|h| [chain(h, 1), chain(h, 2), woven(h)]));
    lists.extend(starts());
    lists.extend([many_anchors(1), many_anchors(2), large_history(), full_rounds(), many_removed()]);
    lists
}

/// Six rounds of 128 points, each with 64 links and evidence of all 32 peers, none of what was signed referenced; removed in two steps, the
/// second of which meets 128 entries of the memory.
fn full_rounds() -> List {
    let mut calls: Vec<Call> = (12..=20).map(|round| Call::Round { round, peers: ALL }).collect();
    // an author links to its own first version, to the others' last
    let links = |round: u32, author: u32| {
        let version = |peer| if peer == author { 0 } else { 3 };
        if round < 11 { vec![] } else { (0..32).map(|peer| link(peer, number(round, peer, version(peer)))).collect() }
    };
    for round in 11..17 {
        for (author, version) in (0..32).flat_map(|author| (0..4).map(move |version| (author, version))) {
            let id = at(round, author, version);
            let info = valid(links(round - 1, author), links(round - 2, author));
            calls.extend([Call::Name(id), Call::Resolve(id, PointInfo { evidence: ALL, ..info })]);
        }
    }
    anchor(&mut calls, 18);
    calls.extend([14, 18, 18].map(|round| Call::Remove { round, since: Some(0) }));
    list(6 * 128 + 3, Start { bottom: 11, used: None, ..start(1, ALL) }, calls)
}

/// As many rounds as can be removed at once after a commit, 508, none with a point. Peer 31 is in every second round.
fn many_removed() -> List {
    let mut calls: Vec<Call> =
        (12..=522).map(|round| Call::Round { round, peers: if round % 2 == 0 { ALL } else { ALL >> 1 } }).collect();
    anchor(&mut calls, 520);
    calls.extend([521, 520, 520].map(|round| Call::Remove { round, since: Some(13) }));
    list(3, Start { bottom: 11, used: None, ..start(1, ALL) }, calls)
}

/// An anchor by 0, its proof and its trigger, and the commit.
fn anchor(calls: &mut Vec<Call>, round: u32) {
    let [anchor, proof, trigger] = [0, 1, 2].map(|n| at(round + n, 0, 0));
    let below = |id: PointId| valid(vec![Link { peer: 0, digest: id.digest }], vec![]);
    let infos = [
        PointInfo { top_proof: at(10, 0, 0), ..valid(vec![], vec![]) },
        PointInfo { proof: true, top_proof: proof, ..below(anchor) },
        PointInfo { trigger: true, ..below(proof) },
    ];
    for (id, info) in [anchor, proof, trigger].into_iter().zip(infos) {
        calls.extend([Call::Name(id), Call::Resolve(id, info)]);
    }
    calls.extend([Call::Certify(anchor), commit(trigger)]);
}

/// Every round's point is a proof and the anchor of the next, or every second one: the most anchors that one commit can have, H 1.
fn many_anchors(step: u32) -> List {
    let mut calls = Vec::new();
    for round in 11..=521 {
        let id = at(round, 0, 0);
        let proof = if step == 1 { round > 11 && round < 521 } else { round % 2 == 0 };
        let below = if step == 1 || round % 2 == 0 { round } else { round - 1 };
        let top_proof = if proof { id } else { at(if round == 11 { 10 } else { below }, 0, 0) };
        let includes = if round > 11 { vec![link(0, number(round - 1, 0, 0))] } else { vec![] };
        calls.push(Call::Round { round, peers: 1 });
        calls.push(Call::Name(id));
        let info = PointInfo { payload_len: round, payload_bytes: u32::MAX - round, ..valid(includes, vec![]) };
        calls.push(Call::Resolve(id, PointInfo { proof, trigger: round == 521, top_proof, ..info }));
        calls.push(Call::Certify(id));
    }
    calls.extend([commit(at(521, 0, 0)), commit(at(521, 0, 0)), Call::Drop(300), commit(at(521, 0, 0))]);
    list(511, start(1, 1), calls)
}

/// An anchor 255 rounds above genesis + 1, and 4,096 points in all: its history is as large as can be, and so are its sums.
fn large_history() -> List {
    let authors = |round| match round {
        11 => 14,
        266.. => 1,
        _ => 16,
    };
    let mut calls = Vec::new();
    for round in 11..=268 {
        calls.push(Call::Round { round, peers: ALL });
        for author in 0..authors(round) {
            let id = at(round, author, 0);
            // each point includes its author's and the next one's, the first of a round all
            let linked = |peer: &u32| author == 0 || *peer == author || *peer == (author + 1) % 16;
            let includes = match round {
                11 => vec![],
                _ => {
                    (0..authors(round - 1)).filter(linked).map(|peer| link(peer, number(round - 1, peer, 0))).collect()
                }
            };
            let proof = round == 267;
            let top_proof = if proof { id } else { at(10, 0, 0) };
            calls.push(Call::Name(id));
            calls.push(Call::Resolve(
                id,
                PointInfo { proof, trigger: round == 268, top_proof, ..most(valid(includes, vec![])) },
            ));
        }
    }
    calls.extend([commit(at(268, 0, 0)), Call::Certify(at(266, 0, 0)), commit(at(268, 0, 0))]);
    list(PLACES_MAX, start(255, ALL), calls)
}

/// With the greatest payload.
fn most(info: PointInfo) -> PointInfo {
    PointInfo { payload_len: u32::MAX, payload_bytes: u32::MAX, ..info }
}

const ALL: u32 = u32::MAX;
const ORDER: u64 = 1;

fn start(commit_history_rounds: u32, peers: u32) -> Start {
    Start { genesis: 10, commit_history_rounds, bottom: 10, peers, used: Some(0), ..Start::default() }
}

fn list(places: usize, with: Start, calls: impl IntoIterator<Item = Call>) -> List {
    List { places, calls: std::iter::once(Call::Start(with)).chain(calls).collect(), order: ORDER }
}

/// The number of a point's digest: peers in the low bits, so that the orders of authors and digests differ.
fn number(round: u32, author: u32, version: u32) -> u32 {
    (round % 1024) << 8 | (author * 11 % 32) << 2 | version
}

fn at(round: u32, author: u32, version: u32) -> PointId {
    point(round, author, number(round, author, version))
}

/// Links to the first versions of all 32 peers of a round.
fn all_links(round: u32) -> Vec<Link> {
    (0..32).map(|peer| link(peer, number(round, peer, 0))).collect()
}

/// 4,096 points in 32 rounds, four digests of each author; some with 64 links; the next name, then names in freed places.
fn full_table() -> List {
    let mut calls = Vec::new();
    for round in 10..42 {
        if round > 10 {
            calls.push(Call::Round { round, peers: ALL });
        }
        for author in 0..32 {
            calls.extend((0..4).map(|version| Call::Name(at(round, author, version))));
        }
    }
    calls.push(Call::Round { round: 42, peers: ALL });
    calls.push(Call::Name(at(42, 0, 0)));
    for round in [41, 12, 40, 20, 39] {
        for author in 0..32 {
            let info = valid(all_links(round - 1), all_links(round - 2));
            calls.push(Call::Resolve(at(round, author, 0), info));
        }
        calls.push(Call::Certify(at(round, 5, 0)));
    }
    calls.push(Call::Drop(11));
    calls.extend((0..32).flat_map(|author| (0..4).map(move |version| Call::Name(at(42, author, version)))));
    calls.push(Call::Name(at(41, 0, 4)));
    calls.push(Call::Name(PointId { digest: digest(7), ..at(41, 40, 0) }));
    calls.push(Call::Drop(42));
    list(PLACES_MAX, start(20, ALL), calls)
}

/// 512 rounds and the next, then rounds whose records stand where dropped ones stood.
fn many_rounds() -> List {
    let mut calls: Vec<Call> = (11..=522).map(|round| Call::Round { round, peers: 1 + round % 2 * 2 }).collect();
    for round in [10, 11, 100, 521] {
        calls.push(Call::Name(at(round, 0, 0)));
        calls.push(Call::Certify(at(round, 0, 0)));
    }
    calls.push(Call::Round { round: 522, peers: 1 });
    calls.push(Call::Round { round: 523, peers: 1 });
    calls.push(Call::Drop(12));
    calls.extend((522..=524).map(|round| Call::Round { round, peers: 3 }));
    calls.push(Call::Name(at(522, 1, 0)));
    calls.push(Call::Resolve(at(522, 1, 0), valid(vec![link(0, number(521, 0, 0))], vec![])));
    calls.push(Call::Drop(522));
    calls.extend((523..=600).map(|round| Call::Round { round, peers: 3 }));
    list(8, start(255, 1), calls)
}

/// 32 links of a kind, and 33: one to a peer above 31, one peer twice.
fn many_links() -> List {
    let mut calls = vec![Call::Round { round: 11, peers: ALL }, Call::Round { round: 12, peers: ALL }];
    for round in [10, 11, 12] {
        calls.extend((0..32).map(|author| Call::Name(at(round, author, 0))));
    }
    let more = |peer: u32, round: u32| {
        let mut links = all_links(round);
        links.push(link(peer, number(round, peer % 32, 0)));
        links
    };
    let id = at(12, 0, 0);
    for peer in [31, 32, 0] {
        calls.push(Call::Resolve(id, valid(more(peer, 11), vec![])));
        calls.push(Call::Resolve(id, valid(vec![], more(peer, 10))));
    }
    calls.push(Call::Resolve(id, valid(all_links(11), all_links(10))));
    calls.push(Call::Certify(id));
    calls.extend((0..32).map(|author| Call::Resolve(at(11, author, 0), valid(all_links(10), vec![]))));
    list(96, start(3, ALL), calls)
}

/// Four digests of an author and the fifth, in two rounds.
fn many_digests() -> List {
    let mut calls = vec![Call::Round { round: 11, peers: 3 }];
    for round in [10, 11] {
        for author in [0, 1] {
            calls.extend((0..6).map(|version| Call::Name(point(round, author, round * 100 + author * 10 + version))));
        }
    }
    list(64, start(1, 3), calls)
}

fn one_place() -> List {
    let name = |version| Call::Name(at(10, 0, version));
    let again = |version| Call::Name(at(11, 0, version));
    let calls = vec![
        name(0),
        name(1),
        name(0),
        Call::Certify(at(10, 0, 0)),
        Call::Round { round: 11, peers: 1 },
        again(0),
        Call::Drop(11),
        again(0),
        again(1),
        Call::Drop(12),
        Call::Gap,
        Call::Gap,
    ];
    list(1, start(1, 1), calls)
}

/// Up to round 4,000,000,000 and beyond.
fn highest_rounds() -> List {
    let with = Start {
        genesis: ROUND_MAX - 300,
        commit_history_rounds: 255,
        deduplicate_rounds: 65_535,
        bottom: ROUND_MAX - 2,
        peers: 3,
        after_gap: true,
        used: Some(31),
    };
    let mut calls: Vec<Call> = (0..5).map(|n| Call::Round { round: ROUND_MAX - 1 + n, peers: 3 }).collect();
    for round in ROUND_MAX - 2..=ROUND_MAX + 1 {
        calls.push(Call::Name(at(round, 0, 0)));
        let includes = if round > ROUND_MAX - 2 { vec![link(0, number(round - 1, 0, 0))] } else { vec![] };
        calls.push(Call::Resolve(at(round, 0, 0), valid(includes, vec![])));
        calls.push(Call::Certify(at(round, 0, 0)));
    }
    calls.extend([Call::Gap, Call::Gap, Call::Drop(u32::MAX), Call::Gap, Call::Drop(ROUND_MAX), Call::Drop(0)]);
    list(8, with, calls)
}

/// Rounds 0 and 1, where links end.
fn zero() -> List {
    let calls = vec![
        Call::Name(at(0, 0, 0)),
        Call::Resolve(at(0, 0, 0), valid(vec![link(0, 1)], vec![])),
        Call::Resolve(at(0, 0, 0), valid(vec![], vec![link(0, 1)])),
        Call::Resolve(at(0, 0, 0), valid(vec![], vec![])),
        Call::Round { round: 1, peers: 3 },
        Call::Name(at(1, 1, 0)),
        Call::Resolve(at(1, 1, 0), valid(vec![], vec![link(0, 1)])),
        Call::Resolve(at(1, 1, 0), valid(vec![link(0, number(0, 0, 0))], vec![])),
        Call::Certify(at(1, 1, 0)),
        Call::Drop(0),
        Call::Round { round: 0, peers: 1 },
        Call::Start(Start { peers: 1, commit_history_rounds: 1, ..Start::default() }),
        // not one peer: the Rust panics
        Call::Round { round: 0, peers: 3 },
    ];
    list(8, Start { commit_history_rounds: 5, peers: 1, ..Start::default() }, calls)
}

/// A chain by includes or by witness that is longer than H: the height falls to 0 on the way. Then a top in the middle.
fn chain(commit_history_rounds: u32, down: u32) -> List {
    let length = commit_history_rounds + 8;
    let mut calls = Vec::new();
    for round in 10..10 + length {
        calls.push(Call::Round { round: round + 1, peers: 1 });
        calls.push(Call::Name(at(round, 0, 0)));
        calls.push(Call::Resolve(at(round, 0, 0), chained(round, down)));
    }
    let last = 9 + length;
    calls.push(Call::Certify(at(last, 0, 0)));
    calls.push(Call::Certify(at(last - 1, 0, 0)));
    calls.push(Call::Certify(at(10 + length / 2, 0, 0)));
    calls.push(Call::Certify(at(last, 0, 0)));
    calls.push(Call::Drop(last - 3));
    list(length as usize, start(commit_history_rounds, 1), calls)
}

fn chained(round: u32, down: u32) -> PointInfo {
    let target = round - down.min(round);
    let links = if target >= 10 { vec![link(0, number(target, 0, 0))] } else { vec![] };
    if down == 1 { valid(links, vec![]) } else { valid(vec![], links) }
}

/// Certified before anything is resolved; resolved from the newest down, so that each resolution hands on one height.
fn late_chain(commit_history_rounds: u32) -> List {
    let length = commit_history_rounds + 4;
    let mut calls = Vec::new();
    for round in 10..10 + length {
        calls.push(Call::Round { round: round + 1, peers: 1 });
        calls.push(Call::Name(at(round, 0, 0)));
    }
    calls.push(Call::Certify(at(9 + length, 0, 0)));
    for round in (10..10 + length).rev() {
        calls.push(Call::Resolve(at(round, 0, 0), chained(round, 1)));
    }
    list(length as usize, start(commit_history_rounds, 1), calls)
}

/// Two peers whose points include one the other and have witness links too; resolved in a mixed order.
fn woven(commit_history_rounds: u32) -> List {
    let length = commit_history_rounds.min(40) + 6;
    let mut calls = Vec::new();
    for round in 10..10 + length {
        calls.push(Call::Round { round: round + 1, peers: 3 });
        calls.extend([0, 1].map(|author| Call::Name(at(round, author, 0))));
    }
    let link_to = |round: u32, peer: u32| if round >= 10 { vec![link(peer, number(round, peer, 0))] } else { vec![] };
    for n in 0..2 * length {
        // a step that is prime to the number of points takes each once
        let k = n * 11 % (2 * length);
        let (round, author) = (10 + k / 2, k % 2);
        let info = valid(link_to(round - 1, 1 - author), link_to(round - 2, author));
        calls.push(Call::Resolve(at(round, author, 0), info));
        if n % 9 == 4 {
            calls.push(Call::Certify(at(round, author, 0)));
        }
    }
    list(2 * length as usize, start(commit_history_rounds, 3), calls)
}

/// Starts at the ends of their ranges and one beyond, on tables of the least, the greatest and wrong numbers of places.
fn starts() -> Vec<List> {
    let with = start(1, 3);
    let kinds = [
        with,
        Start { commit_history_rounds: 0, ..with },
        Start { commit_history_rounds: 255, ..with },
        Start { commit_history_rounds: 256, ..with },
        Start { deduplicate_rounds: 65_535, after_gap: true, ..with },
        Start { deduplicate_rounds: 65_536, ..with },
        Start { bottom: ROUND_MAX, ..with },
        Start { bottom: ROUND_MAX + 1, ..with },
        Start { genesis: ROUND_MAX, bottom: ROUND_MAX, ..with },
        Start { genesis: ROUND_MAX + 1, bottom: ROUND_MAX + 1, ..with },
        Start { bottom: 9, ..with },
        Start { bottom: 9, peers: 1, ..with },
        Start { bottom: 8, ..with },
        Start { used: Some(31), ..with },
        Start { used: Some(32), ..with },
        Start { used: None, peers: 0, ..with },
        // at most, and one above, the round from which a full history needs H rounds
        Start { commit_history_rounds: 2, bottom: 12, after_gap: true, deduplicate_rounds: 5, ..with },
        Start { commit_history_rounds: 2, bottom: 13, after_gap: true, deduplicate_rounds: 5, ..with },
        // not one peer: the Rust panics
        Start { genesis: 0, bottom: 0, peers: 3, ..with },
    ];
    let after = [Call::Gap, Call::Round { round: 11, peers: 1 }, Call::Gap, Call::Reset, Call::Reset];
    let mut lists = Vec::new();
    for places in [0, 1, PLACES_MAX, PLACES_MAX + 1] {
        for kind in kinds {
            lists.push(list(places, kind, std::iter::once(Call::Start(kind)).chain(after.clone())));
        }
    }
    lists
}
