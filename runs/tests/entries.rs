//! The lists of docs/DIFFERENCES.md that commit or remove, on both sides: the library answers as document 01 asks, and the harness names what the
//! Rust does by the entry or row.

use committer::{Call, JournalDagEvent, PointId, PointInfo, Start};
use runs::compare::{List, lent};
use runs::counts::Counts;
use runs::known::Known;
use runs::library::{Library, Side};
use runs::lists::{commit, digest, link, valid};
use runs::view::Answer;

/// Of the Rust's shuffle.
const ORDER: u64 = 1;

/// 11.0.a and so on.
fn id(round: u32, author: u32, letter: char) -> PointId {
    PointId { round, author, digest: digest(letter as u32) }
}

fn start(genesis: u32, commit_history_rounds: u32, peers: u32, used: Option<u32>) -> Start {
    Start { genesis, commit_history_rounds, bottom: genesis, peers, used, ..Start::default() }
}

/// A start and the rounds up to the top.
fn begun(with: Start, top: u32) -> Vec<Call> {
    let rounds = (with.bottom + 1..=top).map(|round| Call::Round { round, peers: with.peers });
    std::iter::once(Call::Start(with)).chain(rounds).collect()
}

fn includes(links: &[(u32, char)]) -> PointInfo {
    valid(links.iter().map(|(peer, letter)| link(*peer, *letter as u32)).collect(), vec![])
}

fn proof(id: PointId, links: &[(u32, char)]) -> PointInfo {
    PointInfo { proof: true, top_proof: id, ..includes(links) }
}

fn trigger(links: &[(u32, char)]) -> PointInfo {
    PointInfo { trigger: true, ..includes(links) }
}

fn top(top_proof: PointId, links: &[(u32, char)]) -> PointInfo {
    PointInfo { top_proof, ..includes(links) }
}

fn put(calls: &mut Vec<Call>, id: PointId, info: PointInfo) {
    calls.extend([Call::Name(id), Call::Resolve(id, info)]);
}

/// 11.0.a, 12.0.b, 13.0.c or the same from another round on: anchor, proof, trigger.
fn three(calls: &mut Vec<Call>, first: u32, sought: PointId) {
    let [a, b, c] = [id(first, 0, 'a'), id(first + 1, 0, 'b'), id(first + 2, 0, 'c')];
    put(calls, a, top(sought, &[]));
    put(calls, b, proof(b, &[(0, 'a')]));
    put(calls, c, trigger(&[(0, 'b')]));
}

fn list_a(after_gap: bool, certified: bool) -> Vec<Call> {
    let mut calls = begun(Start { after_gap, ..start(10, 1, 1, Some(0)) }, 13);
    three(&mut calls, 11, id(10, 0, 'z'));
    if certified {
        calls.push(Call::Certify(id(11, 0, 'a')));
    }
    calls.push(commit(id(13, 0, 'c')));
    calls
}

/// The library's number, round and finished anchors at the last call, 0 if it isn't refused; and what the harness has met.
fn played(calls: Vec<Call>) -> ((u32, u32, usize), Counts) {
    let mut counts = Counts::default();
    let (list, ended) = lent::<Library>(&List { places: 12, calls, order: ORDER }, &mut counts);
    ended.unwrap_or_else(|found| panic!("{found}"));
    let mut library = Library::new(12);
    let last = list.calls.iter().map(|call| library.call(call)).last().expect("calls");
    let numbers = match last {
        Answer::Refused(why) => (why.number, why.round, why.finished.len()),
        Answer::Anchors(anchors) => (0, 0, anchors.len()),
        _ => (0, 0, 0),
    };
    (numbers, counts)
}

fn meets(calls: Vec<Call>, numbers: (u32, u32, usize), known: Known) {
    let (given, counts) = played(calls);
    assert_eq!(given, numbers);
    let met = counts.known.contains_key(&known) || counts.tried.keys().any(|(_, named)| *named == known);
    assert!(met, "{known} isn't met: {counts}");
}

#[test]
fn entries_1_3_12_14() {
    let one = Start { deduplicate_rounds: 5, ..start(10, 2, 1, None) };
    let mut calls = begun(one, 10);
    put(&mut calls, id(10, 0, 'a'), PointInfo { status: 3, ..PointInfo::default() });
    calls.push(commit(id(10, 0, 'a')));
    meets(calls, (15, 0, 0), Known::Entry(1));
    let mut calls = list_a(false, true);
    calls.push(Call::Drop(13));
    meets(calls, (0, 0, 0), Known::Entry(3));
    for (round, number) in [(11, 6), (10, 9)] {
        let mut calls = begun(start(10, 1, 1, None), 10);
        calls.push(commit(id(round, 0, 'a')));
        meets(calls, (number, 0, 0), Known::Entry(12));
    }
    meets(list_a(false, true), (0, 0, 1), Known::Entry(14));
}

#[test]
fn entry_4() {
    let mut calls = begun(Start { deduplicate_rounds: 5, ..start(10, 2, 3, Some(0)) }, 14);
    let c = id(12, 0, 'c');
    put(&mut calls, id(11, 0, 'a'), top(id(10, 0, 'z'), &[]));
    put(&mut calls, id(11, 1, 'b'), PointInfo { status: 3, ..PointInfo::default() });
    put(&mut calls, c, proof(c, &[(0, 'a'), (1, 'b')]));
    put(&mut calls, id(13, 0, 'd'), proof(id(13, 0, 'd'), &[(0, 'c')]));
    put(&mut calls, id(14, 0, 'e'), trigger(&[(0, 'd')]));
    calls.extend([Call::Certify(c), commit(id(14, 0, 'e'))]);
    meets(calls, (13, 11, 1), Known::Entry(4));
}

/// The digests of 11.0 and 11.1, as given and exchanged.
#[test]
fn entry_5() {
    for (low, high, numbers) in [('a', 'b', (13, 11, 0)), ('b', 'a', (14, 0, 0))] {
        let mut calls = begun(Start { deduplicate_rounds: 5, ..start(10, 2, 3, Some(0)) }, 14);
        let d = id(13, 0, 'd');
        put(&mut calls, id(11, 0, low), PointInfo { status: 3, ..PointInfo::default() });
        calls.push(Call::Name(id(11, 1, high)));
        put(&mut calls, id(12, 0, 'c'), top(id(10, 0, 'z'), &[(0, low), (1, high)]));
        put(&mut calls, d, proof(d, &[(0, 'c')]));
        put(&mut calls, id(14, 0, 'e'), trigger(&[(0, 'd')]));
        calls.extend([Call::Certify(id(12, 0, 'c')), commit(id(14, 0, 'e'))]);
        let (given, _) = played(calls);
        assert_eq!(given, numbers);
    }
}

/// The commit with lists, 11.0.a and 11.1.b below the anchor 12.0.c; the Rust's own are lent by the harness.
#[test]
fn entry_6() {
    let mut calls = begun(Start { deduplicate_rounds: 5, ..start(10, 2, 3, Some(0)) }, 14);
    let [a, b, c, d] = [id(11, 0, 'a'), id(11, 1, 'b'), id(12, 0, 'c'), id(13, 0, 'd')];
    put(&mut calls, a, includes(&[]));
    put(&mut calls, b, includes(&[]));
    put(&mut calls, c, top(id(10, 0, 'z'), &[(0, 'a'), (1, 'b')]));
    put(&mut calls, d, proof(d, &[(0, 'c')]));
    put(&mut calls, id(14, 0, 'e'), trigger(&[(0, 'd')]));
    calls.push(Call::Certify(c));
    let with_lists = |lists: &[u8]| {
        let mut library = Library::new(12);
        calls.iter().for_each(|call| assert_eq!(library.call(call), Answer::Done));
        match library.call(&Call::Commit(id(14, 0, 'e'), lists.to_vec())) {
            Answer::Anchors(anchors) => Ok(anchors[0].points.clone()),
            Answer::Refused(why) => Err(why.number),
            other => panic!("{other:?}"),
        }
    };
    assert_eq!(with_lists(&[0, 0, 1]), Ok(vec![b, a, c]));
    assert_eq!(with_lists(&[0, 1, 0]), Ok(vec![a, b, c]));
    assert_eq!(with_lists(&[0, 0, 0]), Err(24));
    calls.push(commit(id(14, 0, 'e')));
    meets(calls, (0, 0, 1), Known::Entry(6));
}

#[test]
fn entry_7() {
    let mut calls = begun(start(0, 1, 1, Some(0)), 3);
    three(&mut calls, 1, id(0, 0, 'z'));
    calls.extend([Call::Certify(id(1, 0, 'a')), commit(id(3, 0, 'c'))]);
    meets(calls, (0, 0, 1), Known::Entry(7));
    let mut calls = begun(start(0, 1, 1, None), 3);
    let e = id(0, 0, 'e');
    put(&mut calls, e, proof(e, &[]));
    three(&mut calls, 1, e);
    calls.push(commit(id(3, 0, 'c')));
    let (given, counts) = played(calls);
    assert_eq!(given, (16, 0, 0));
    assert_eq!(counts.tried.get(&(16, Known::Entry(7))), Some(&1), "{counts}");
}

/// A first executable round of 0, and round 0 inspected; 01 refuses both removes.
#[test]
fn entry_7_of_removes() {
    let mut calls = begun(start(0, 1, 1, Some(0)), 3);
    calls.push(Call::Remove { round: 1, since: None });
    meets(calls, (23, 0, 0), Known::Entry(7));
    let mut calls = begun(start(0, 1, 1, None), 2);
    calls.extend([Call::Drop(0), Call::Remove { round: 2, since: Some(0) }]);
    meets(calls, (23, 0, 0), Known::Entry(7));
}

/// Two proofs of one previous point; the Rust reports one or the other, by its hash seed.
#[test]
fn entry_8() {
    let mut calls = begun(Start { bottom: 2, ..start(1, 1, 3, None) }, 7);
    let signed = PointInfo { evidence: 0b10, ..includes(&[(0, 'a')]) };
    for (id, info) in [
        (id(2, 0, 'b'), signed.clone()),
        (id(2, 0, 'c'), signed),
        (id(2, 1, 'd'), includes(&[])),
        (id(3, 1, 'e'), includes(&[])),
        (id(5, 0, 'f'), top(id(1, 0, 'z'), &[])),
        (id(6, 0, 'g'), proof(id(6, 0, 'g'), &[(0, 'f')])),
        (id(7, 0, 'h'), trigger(&[(0, 'g')])),
    ] {
        put(&mut calls, id, info);
    }
    calls.extend([Call::Certify(id(5, 0, 'f')), commit(id(7, 0, 'h'))]);
    calls.push(Call::Remove { round: 5, since: Some(0) });
    let mut met = [false; 2];
    for seed in 0..32 {
        oracle::set_hash_seed(seed);
        let (given, counts) = played(calls.clone());
        assert_eq!(given, (0, 0, 0));
        assert_eq!(counts.events.iter().collect::<Vec<_>>(), [(&4, &1), (&5, &1)]);
        met[usize::from(counts.known.contains_key(&Known::Entry(8)))] = true;
    }
    assert_eq!(met, [true, true]);
    let (list, _) = lent::<Library>(&List { places: 12, calls, order: ORDER }, &mut Counts::default());
    let mut library = Library::new(12);
    let Some(Answer::Removed(told)) = list.calls.iter().map(|call| library.call(call)).last() else {
        panic!("a remove");
    };
    let (blamed, proofs) = (vec![id(2, 1, 'd'), id(3, 1, 'e')], vec![id(2, 0, 'c')]);
    let digests = vec![digest('b' as u32), digest('c' as u32)];
    let events = [
        JournalDagEvent::Equivocated { author: 0, round: 2, digests },
        JournalDagEvent::EvidenceNoInclusion { signer: 1, blamed, proofs },
    ];
    assert_eq!(told.events, events);
    assert_eq!(told.peers.iter().map(|peer| peer.score).collect::<Vec<_>>(), [22, 1]);
}

#[test]
fn entries_9_and_14_of_removes() {
    let mut calls = begun(start(10, 1, 1, None), 10);
    calls.push(Call::Remove { round: 10, since: None });
    meets(calls, (23, 0, 0), Known::Entry(9));
    // the Rust drains a round, all rounds, or panics
    for round in [12, 15, 16] {
        let mut calls = list_a(false, true);
        calls.push(Call::Remove { round, since: None });
        meets(calls, (23, 0, 0), Known::Entry(9));
    }
    let mut calls = list_a(false, true);
    calls.push(Call::Remove { round: 11, since: None });
    let (given, counts) = played(calls);
    assert_eq!(given, (0, 0, 0));
    assert_eq!(counts.remove_buffers, 4, "{counts}");
}

/// 10.0.a as told, 11.0.b a trigger that includes it.
fn two(told: Option<PointInfo>, used: Option<u32>) -> Vec<Call> {
    let mut calls = begun(start(10, 1, 1, used), 11);
    calls.push(Call::Name(id(10, 0, 'a')));
    calls.extend(told.map(|info| Call::Resolve(id(10, 0, 'a'), info)));
    put(&mut calls, id(11, 0, 'b'), trigger(&[(0, 'a')]));
    calls.push(commit(id(11, 0, 'b')));
    calls
}

#[test]
fn rows_14_to_16() {
    let a = id(10, 0, 'a');
    meets(two(None, None), (14, 0, 0), Known::Row(14));
    meets(two(Some(PointInfo { status: 3, ..PointInfo::default() }), None), (15, 0, 0), Known::Row(15));
    meets(two(Some(includes(&[])), None), (16, 0, 0), Known::Row(16));
    meets(two(Some(proof(a, &[])), None), (16, 0, 0), Known::Row(16));
    meets(two(None, Some(1)), (16, 0, 0), Known::Row(16));
    let mut calls = begun(start(10, 1, 1, None), 12);
    three(&mut calls, 10, id(11, 0, 'b'));
    calls.push(commit(id(12, 0, 'c')));
    meets(calls, (16, 0, 0), Known::Row(16));
}

/// 10.0.a is the anchor. Its top proof is never named; named; named by another author; named and then lost with a reset.
#[test]
fn row_25() {
    let list = |named: &[PointId]| {
        let mut calls = begun(start(10, 1, 3, None), 12);
        calls.extend(named.iter().copied().map(Call::Name));
        three(&mut calls, 10, id(10, 0, 'z'));
        calls.push(commit(id(12, 0, 'c')));
        calls
    };
    meets(list(&[]), (25, 0, 0), Known::Row(25));
    meets(list(&[id(10, 0, 'z')]), (14, 0, 0), Known::Row(14));
    meets(list(&[id(10, 1, 'z')]), (25, 0, 0), Known::Row(25));
    let mut calls = list(&[id(10, 0, 'z')]);
    calls.push(Call::Reset);
    calls.extend(list(&[]));
    meets(calls, (25, 0, 0), Known::Row(25));
}

#[test]
fn rows_17_18_20_22() {
    let with = Start { deduplicate_rounds: 5, bottom: 20, ..start(10, 2, 1, Some(0)) };
    let mut calls = begun(with, 23);
    three(&mut calls, 21, id(20, 0, 'z'));
    calls.extend([Call::Certify(id(21, 0, 'a')), Call::Drop(10), Call::Gap, commit(id(23, 0, 'c'))]);
    meets(calls, (17, 0, 0), Known::Row(17));
    meets(list_a(false, false), (18, 0, 0), Known::Row(18));
    meets(list_a(true, true), (20, 0, 0), Known::Row(20));
    let mut calls = begun(start(10, 1, 1, None), 12);
    three(&mut calls, 10, id(9, 0, 'z'));
    calls.push(commit(id(12, 0, 'c')));
    meets(calls, (22, 0, 0), Known::Row(22));
}
