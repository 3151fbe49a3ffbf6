//! Writes the recorded runs of `crates/recorded` anew: parts 0 to 102 as they stand in CRATES/recorded/stdin, their commits with the Rust's place
//! lists, the parts of remove, of place lists, of payloads, of needed points, of what a record's reader tests and leaves unread, of outlooks that
//! add up, of links behind points and of skipped triggers, the sample that `record` wrote into SAMPLE, and the part that is cut short. Texts are
//! what the library answers, but for the counts of outlooks, which are made from links and marks, and the links behind points, which are made from
//! the links; those of the sample are the Rust's, but for the links behind points. What `crates/replay` plays, K13, is part 67 without its last
//! commit.
//!
//!     cargo run --release --offline --bin parts -- CRATES SAMPLE

use committer::{Call, Link, PointId, PointInfo, Start, record};
use runs::compare::{List, lent};
use runs::counts::Counts;
use runs::library::Library;
use runs::lists::{tower, tower_point};
use runs::play::{PLACES, full_counted};
use std::fs;
use std::process::ExitCode;

fn digest(letter: char) -> [u8; 32] {
    let mut digest = [0; 32];
    digest[31] = letter as u8;
    digest
}
fn id(round: u32, author: u32, letter: char) -> PointId {
    PointId { round, author, digest: digest(letter) }
}
fn links(links: &[(u32, char)]) -> Vec<Link> {
    links.iter().map(|&(peer, l)| Link { peer, digest: digest(l) }).collect()
}
fn of(status: u32) -> PointInfo {
    PointInfo { status, ..PointInfo::default() }
}
fn valid() -> PointInfo {
    of(1)
}
fn includes(l: &[(u32, char)]) -> PointInfo {
    PointInfo { includes: links(l), ..valid() }
}
fn witness(l: &[(u32, char)]) -> PointInfo {
    PointInfo { witness: links(l), ..valid() }
}
fn signed(evidence: u32, l: &[(u32, char)]) -> PointInfo {
    PointInfo { evidence, ..includes(l) }
}
type Points = Vec<(PointId, PointInfo)>;
fn start(peers: u32) -> Start {
    Start { genesis: 1, commit_history_rounds: 1, bottom: 2, peers, ..Start::default() }
}
fn rounds(with: &Start, top: u32) -> Vec<Call> {
    let above = (with.bottom + 1..=top).map(|round| Call::Round { round, peers: with.peers });
    std::iter::once(Call::Start(*with)).chain(above).collect()
}
fn put(calls: &mut Vec<Call>, id: PointId, info: PointInfo) {
    calls.extend([Call::Name(id), Call::Resolve(id, info)]);
}
fn anchor(calls: &mut Vec<Call>, round: u32, letters: [char; 3], top_proof: PointId) {
    let [f, g, h] = letters;
    put(calls, id(round, 0, f), PointInfo { top_proof, ..valid() });
    let proof = id(round + 1, 0, g);
    put(calls, proof, PointInfo { proof: true, top_proof: proof, ..includes(&[(0, f)]) });
    put(calls, id(round + 2, 0, h), PointInfo { trigger: true, ..includes(&[(0, g)]) });
    calls.extend([Call::Certify(id(round, 0, f)), Call::Commit(id(round + 2, 0, h), vec![0])]);
}
const FGH: [char; 3] = ['f', 'g', 'h'];
fn list(with: &Start, round: u32, points: Points) -> Vec<Call> {
    let mut calls = rounds(with, round + 2);
    points.into_iter().for_each(|(id, info)| put(&mut calls, id, info));
    anchor(&mut calls, round, FGH, id(1, 0, 'z'));
    calls
}
fn two_proofs(d: PointInfo, e: PointInfo) -> Points {
    let proof = signed(0b10, &[(0, 'a')]);
    vec![(id(2, 0, 'b'), proof.clone()), (id(2, 0, 'c'), proof), (id(2, 1, 'd'), d), (id(3, 1, 'e'), e)]
}
fn remove(round: u32, since: Option<u32>) -> Call {
    Call::Remove { round, since }
}
fn with(mut calls: Vec<Call>, more: impl IntoIterator<Item = Call>) -> Vec<Call> {
    calls.extend(more);
    calls
}
fn entry_8() -> Vec<Call> {
    list(&start(0b11), 5, two_proofs(valid(), valid()))
}
fn again(bottom: u32) -> Vec<Call> {
    let mut calls = with(entry_8(), [remove(4, Some(0)), Call::Reset]);
    calls.extend(rounds(&Start { bottom, ..start(0b11) }, bottom + 4));
    put(&mut calls, id(bottom, 1, 'e'), valid());
    anchor(&mut calls, bottom + 2, FGH, id(1, 0, 'z'));
    with(calls, [remove(bottom + 2, Some(0))])
}
fn statuses(certified: bool) -> Vec<Call> {
    let cause = |status| PointInfo { cause: true, ..of(status) };
    let points = [(id(2, 0, 'b'), cause(2)), (id(2, 0, 'c'), cause(3)), (id(2, 0, 'd'), of(4)), (id(2, 0, 'e'), of(5))];
    let named = id(2, 1, 'i');
    let mut calls = list(&start(0b11), 5, points.to_vec());
    calls.push(Call::Name(named));
    if certified {
        calls.extend(points.iter().map(|(id, _)| *id).chain([named]).map(Call::Certify));
    }
    with(calls, [remove(4, Some(0))])
}
fn retained(c: PointInfo, e: PointInfo, more: Points) -> Vec<Call> {
    let mut points = vec![
        (id(3, 0, 'a'), valid()),
        (id(4, 0, 'b'), signed(0b11, &[(0, 'a')])),
        (id(4, 1, 'c'), c),
        (id(5, 1, 'e'), e),
    ];
    points.extend(more);
    with(list(&start(0b11), 7, points), [remove(7, Some(4))])
}

// ---- place lists (02, N1)

/// Anchor, proof and trigger, the anchor with these links and this top proof, certified.
fn chain(calls: &mut Vec<Call>, round: u32, letters: [char; 3], info: PointInfo) {
    let [d, e, f] = letters;
    put(calls, id(round, 0, d), info);
    let proof = id(round + 1, 0, e);
    put(calls, proof, PointInfo { proof: true, top_proof: proof, ..includes(&[(0, d)]) });
    put(calls, id(round + 2, 0, f), PointInfo { trigger: true, ..includes(&[(0, e)]) });
    calls.push(Call::Certify(id(round, 0, d)));
}
const DEF: [char; 3] = ['d', 'e', 'f'];
fn from_10(commit_history_rounds: u32, peers: u32) -> Start {
    Start { genesis: 10, commit_history_rounds, bottom: 10, peers, used: Some(0), ..Start::default() }
}
fn under(l: &[(u32, char)]) -> PointInfo {
    PointInfo { top_proof: id(10, 0, 'z'), ..includes(l) }
}
/// K13: 11.0.a, 12.0.b, 12.1.c, anchor 13.0.d.
fn four(with: Start) -> Vec<Call> {
    let mut calls = rounds(&with, 15);
    put(&mut calls, id(11, 0, 'a'), valid());
    put(&mut calls, id(12, 0, 'b'), includes(&[(0, 'a')]));
    put(&mut calls, id(12, 1, 'c'), includes(&[(0, 'a')]));
    chain(&mut calls, 13, DEF, under(&[(0, 'b'), (1, 'c')]));
    calls
}
/// Two anchors, 12.0.b and 14.0.d.
fn two() -> Vec<Call> {
    let mut calls = rounds(&from_10(2, 1), 16);
    put(&mut calls, id(11, 0, 'a'), valid());
    chain(&mut calls, 12, ['b', 'c', 'd'], under(&[(0, 'a')]));
    // 14.0.d is no trigger here, but the next anchor
    let d = calls.len() - 2;
    calls[d] = Call::Resolve(id(14, 0, 'd'), PointInfo { top_proof: id(13, 0, 'c'), ..includes(&[(0, 'c')]) });
    let e = id(15, 0, 'e');
    put(&mut calls, e, PointInfo { proof: true, top_proof: e, ..includes(&[(0, 'd')]) });
    put(&mut calls, id(16, 0, 'f'), PointInfo { trigger: true, ..includes(&[(0, 'e')]) });
    calls.push(Call::Certify(id(14, 0, 'd')));
    calls
}
fn listed() -> Vec<Vec<Call>> {
    let commit = |round, bytes: &[u8]| Call::Commit(id(round, 0, 'f'), bytes.to_vec());
    let look = |round| Call::Outlook(id(round, 0, 'f'));
    // 127: 24 for a place twice, a byte not below its count, lists too short, none; then right ones with two bytes behind
    let wrong: [&[u8]; 5] = [&[0, 0, 0, 0], &[0, 2, 0, 0], &[1, 1, 0, 0], &[0, 0, 1], &[]];
    let tried = wrong.into_iter().chain([&[0, 0, 1, 0, 255, 255][..]]).map(|bytes| commit(15, bytes));
    let mut lists = vec![with(four(from_10(2, 3)), std::iter::once(look(15)).chain(tried))];
    // 128: 20 before 24
    let after_gap = four(Start { after_gap: true, ..from_10(2, 3) });
    lists.push(with(after_gap, [commit(15, &[]), Call::Gap, commit(15, &[]), commit(15, &[0, 1, 0, 0])]));
    // 129: three points in a round
    let mut calls = rounds(&from_10(2, 7), 14);
    let three = [(0, 'a'), (1, 'b'), (2, 'c')];
    three.into_iter().for_each(|(peer, letter)| put(&mut calls, id(11, peer, letter), valid()));
    chain(&mut calls, 12, DEF, under(&three));
    lists.push(with(calls, [look(14), commit(14, &[0, 1, 2, 0])]));
    // 130: two anchors, anchor by anchor
    lists.push(with(two(), [look(16), commit(16, &[0, 0]), look(16), commit(16, &[0, 0, 0]), look(16)]));
    // 131, 132: at once; the second one's lists wrong
    lists.push(with(two(), [commit(16, &[0; 5])]));
    lists.push(with(two(), [commit(16, &[0, 0, 1, 0, 0])]));
    // 133: a round without linked points
    let mut calls = rounds(&from_10(2, 1), 15);
    put(&mut calls, id(11, 0, 'a'), valid());
    chain(&mut calls, 13, DEF, PointInfo { witness: links(&[(0, 'a')]), ..under(&[]) });
    lists.push(with(calls, [look(15), commit(15, &[0, 0])]));
    // 134: a history that ends at the bottom
    let mut calls = rounds(&Start { bottom: 15, ..from_10(4, 1) }, 18);
    chain(&mut calls, 16, DEF, PointInfo { top_proof: id(15, 0, 'z'), ..valid() });
    lists.push(with(calls, [look(18), commit(18, &[0])]));
    lists
}

// ---- payloads (02, N2)

/// Of the points of K13, in the order in which they are resolved.
const K13: [(u32, u32); 6] = [(1, 10), (2, 200), (3, 3_000), (4, 40_000), (5, 5), (6, 6)];
fn paying(info: PointInfo, (payload_len, payload_bytes): (u32, u32)) -> PointInfo {
    PointInfo { payload_len, payload_bytes, ..info }
}
/// The calls, their resolutions with these payloads.
fn paid(mut calls: Vec<Call>, payloads: [(u32, u32); 6]) -> Vec<Call> {
    let infos = calls.iter_mut().filter_map(|call| match call {
        Call::Resolve(_, info) => Some(info),
        _ => None,
    });
    infos.zip(payloads).for_each(|(info, payload)| *info = paying(info.clone(), payload));
    calls
}
fn summed() -> Vec<Vec<Call>> {
    let commit = |round, bytes: &[u8]| Call::Commit(id(round, 0, 'f'), bytes.to_vec());
    let k13 = |payloads| paid(four(from_10(2, 3)), payloads);
    let a = id(11, 0, 'a');
    // 135, 136: K13 in either order; 137: the greatest numbers
    let mut lists = vec![
        with(k13(K13), [commit(15, &[0, 0, 1, 0])]),
        with(k13(K13), [commit(15, &[0, 1, 0, 0])]),
        with(k13([(u32::MAX, u32::MAX); 6]), [commit(15, &[0, 0, 1, 0])]),
    ];
    // 138: a second resolution with other numbers is refused with 10, and the first ones stay
    let again = Call::Resolve(a, paying(valid(), (100, 7)));
    lists.push(with(k13(K13), [again, commit(15, &[0, 0, 1, 0])]));
    // 139: 12.0.b is linked from the second anchor's history and summed in the first one's
    lists.push(with(paid(two(), [(1, 100); 6]), [commit(16, &[0; 5])]));
    // 140: an ill-formed and a not found point, in no history
    let mut calls = k13(K13);
    put(&mut calls, id(11, 1, 'x'), paying(of(4), (7, 7)));
    put(&mut calls, id(11, 1, 'y'), paying(of(5), (7, 7)));
    lists.push(with(calls, [Call::Outlook(id(15, 0, 'f')), commit(15, &[0, 0, 1, 0])]));
    // 141: certified before it is resolved, and resolved last; after a drop other points in the places that it frees
    let mut calls = k13(K13);
    let first = calls.iter().position(|call| matches!(call, Call::Resolve(id, _) if *id == a)).unwrap();
    let late = calls.remove(first);
    calls.extend([Call::Certify(a), late, commit(15, &[0, 0, 1, 0]), Call::Drop(13), Call::Gap]);
    calls.extend((16..=18).map(|round| Call::Round { round, peers: 3 }));
    let info = PointInfo { top_proof: id(14, 0, 'e'), ..includes(&[(0, 'f')]) };
    chain(&mut calls, 16, ['g', 'h', 'i'], paying(info, (8, 80)));
    lists.push(with(calls, [Call::Commit(id(18, 0, 'i'), vec![0; 3])]));
    lists
}

// ---- needed points (02, N3)

/// Commit and outlook of K13 before its anchor's top proof is named, after it, and after it is resolved so.
fn sought(with: Start, top_proof: PointId, resolved: PointInfo, between: &[Call]) -> Vec<Call> {
    let [commit, look] = [Call::Commit(id(15, 0, 'f'), vec![0, 0, 1, 0]), Call::Outlook(id(15, 0, 'f'))];
    let mut calls = four(with);
    for call in &mut calls {
        if let Call::Resolve(PointId { round: 13, .. }, info) = call {
            info.top_proof = top_proof;
        }
    }
    calls.extend([look.clone(), commit.clone(), Call::Name(top_proof), look, commit.clone()]);
    calls.extend(between.iter().cloned());
    calls.extend([Call::Resolve(top_proof, resolved), commit]);
    calls
}
fn needed() -> Vec<Vec<Call>> {
    let (z, q) = (id(10, 0, 'z'), id(11, 0, 'q'));
    let proof = PointInfo { proof: true, top_proof: z, ..valid() };
    let again = [Call::Certify(z), Call::Commit(id(15, 0, 'f'), vec![0, 0, 1, 0])];
    let above = sought(from_10(2, 3), q, valid(), &[]);
    vec![
        // 143: in the lowest round; certified before it is resolved
        sought(Start { used: None, ..from_10(2, 3) }, z, proof, &again),
        // 144: above it, and once more after a reset
        with(above.clone(), std::iter::once(Call::Reset).chain(above)),
    ]
}

// ---- records of a trace (02, N5)

/// The order of 26 and 27, and what isn't read.
fn traced() -> Vec<Vec<u8>> {
    let begun = |bytes: &[u8]| [encoded(&[Call::Start(start(0b11))]), bytes.to_vec()].concat();
    // 145, 146: a version that is unknown, of wrong length: 27; cut short: 26
    let mut parts = vec![begun(&[0, 0, 0, 3, 2, 9, 0]), begun(&[0, 0, 0, 4, 2, 9])];
    let commit = || Call::Commit(id(15, 0, 'f'), vec![0, 0, 1, 0]);
    let k13 = encoded(&with(four(from_10(2, 3)), [commit()]));
    // 147: the flag of the start is yes at 255: 20, and after the question the anchor
    let mut after_gap = k13.clone();
    after_gap[FLAG_AT] = 255;
    parts.push([after_gap, encoded(&[Call::Gap, commit()])].concat());
    // 148: further mark bits
    let mut marked = k13;
    let mut at = 0;
    while let Ok((call, length)) = record::decode(&marked[at..]) {
        if matches!(call, Call::Resolve(..)) {
            marked[at + MARKS_AT] |= 0xf8;
        }
        at += length;
    }
    parts.push(marked);
    // 149, 150: the removes of 105 and 106, with a flag of 7, and with a round after a flag of 0
    for (flag, since) in [(7, 0), (0, 3)] {
        let mut removed = encoded(&[remove(5, Some(since))]);
        removed[REMOVE_FLAG_AT] = flag;
        parts.push([encoded(&entry_8()), removed].concat());
    }
    parts
}

// ---- outlooks that add up (02, N6)

/// Which points of B4 are certified, and whether its second anchor includes 13.1.g too, which includes 12.0.b and 12.1.h.
struct B4 {
    with: Start,
    certified: &'static [(u32, char)],
    broad: bool,
}

/// Anchors 12.0.b and 14.0.d, proofs 13.0.c and 15.0.e, trigger 16.0.f, 11.0.a below them; each includes the one before. The second history
/// reaches the first one's points.
fn b4(of: &B4) -> Vec<Call> {
    let mut calls = rounds(&of.with, 16);
    put(&mut calls, id(11, 0, 'a'), valid());
    put(&mut calls, id(12, 0, 'b'), under(&[(0, 'a')]));
    let [c, e] = [id(13, 0, 'c'), id(15, 0, 'e')];
    put(&mut calls, c, PointInfo { proof: true, top_proof: c, ..includes(&[(0, 'b')]) });
    if of.broad {
        put(&mut calls, id(12, 1, 'h'), includes(&[(0, 'a')]));
        put(&mut calls, id(13, 1, 'g'), includes(&[(0, 'b'), (1, 'h')]));
    }
    let below: &[(u32, char)] = if of.broad { &[(0, 'c'), (1, 'g')] } else { &[(0, 'c')] };
    put(&mut calls, id(14, 0, 'd'), PointInfo { top_proof: c, ..includes(below) });
    put(&mut calls, e, PointInfo { proof: true, top_proof: e, ..includes(&[(0, 'd')]) });
    put(&mut calls, id(16, 0, 'f'), PointInfo { trigger: true, ..includes(&[(0, 'e')]) });
    with(calls, of.certified.iter().map(|(round, letter)| Call::Certify(id(*round, 0, *letter))))
}
fn added_up() -> Vec<Vec<Call>> {
    let commit = |round, bytes: &[u8]| Call::Commit(id(round, 0, 'f'), bytes.to_vec());
    let look = |round| Call::Outlook(id(round, 0, 'f'));
    let start = |commit_history_rounds| Start { deduplicate_rounds: 5, ..from_10(commit_history_rounds, 3) };
    let plain = |with| b4(&B4 { with, certified: &[(14, 'd')], broad: false });
    vec![
        // 151: the lists of both anchors from one outlook
        with(plain(start(4)), [look(16), commit(16, &[0; 5]), look(16)]),
        // 152: a byte too few: 24 with one anchor; what was told of the second stays
        with(plain(start(4)), [look(16), commit(16, &[0; 4]), look(16), commit(16, &[0; 3]), look(16)]),
        // 153: before the gap question the same counts, and 20
        with(
            plain(Start { after_gap: true, ..start(4) }),
            [look(16), commit(16, &[0; 5]), Call::Gap, look(16), commit(16, &[0; 5]), look(16)],
        ),
        // 154: 18 at the second anchor
        with(
            b4(&B4 { with: start(4), certified: &[(12, 'b')], broad: false }),
            [look(16), commit(16, &[0; 5]), look(16)],
        ),
        // 155: K13
        with(four(start(2)), [look(15), commit(15, &[0, 0, 1, 0]), look(15)]),
        // 156: histories that don't overlap
        with(
            b4(&B4 { with: start(1), certified: &[(12, 'b'), (14, 'd')], broad: false }),
            [look(16), commit(16, &[0; 4]), look(16)],
        ),
        // 157: committed points that new ones link to
        with(
            b4(&B4 { with: start(4), certified: &[(14, 'd')], broad: true }),
            [look(16), commit(16, &[0, 0, 0, 0, 1, 0, 1, 0]), look(16)],
        ),
    ]
}

// ---- the link behind each point (02, N7)

/// What differs from list C: the anchor 13.0.e without its witness 11.1.b, or over 12.1.d alone; the status of d.
struct C {
    witness: bool,
    left: bool,
    status: u32,
}

/// List C: 11.0.a and 11.1.b; 12.0.c and 12.1.d, which include both; the anchor 13.0.e over c and d with the witness b; 14.0.f, 15.0.g.
fn list_c(of: &C) -> Vec<Call> {
    let mut calls = rounds(&Start { deduplicate_rounds: 5, ..from_10(4, 3) }, 15);
    let low = [(0, 'a'), (1, 'b')];
    low.into_iter().for_each(|(peer, letter)| put(&mut calls, id(11, peer, letter), valid()));
    put(&mut calls, id(12, 0, 'c'), includes(&low));
    put(&mut calls, id(12, 1, 'd'), PointInfo { status: of.status, ..includes(&low) });
    let over = under(if of.left { &[(0, 'c'), (1, 'd')] } else { &[(1, 'd')] });
    let witness = links(if of.witness { &[(1, 'b')] } else { &[] });
    chain(&mut calls, 13, ['e', 'f', 'g'], PointInfo { witness, ..over });
    calls
}
fn told() -> Vec<Vec<Call>> {
    let commit = |bytes: &[u8]| Call::Commit(id(15, 0, 'g'), bytes.to_vec());
    let whole = || C { witness: true, left: true, status: 1 };
    // 163: 13.1.h isn't reached, though it links to c, and to a as a witness
    let mut beside = list_c(&whole());
    put(&mut beside, id(13, 1, 'h'), PointInfo { witness: links(&[(0, 'a')]), ..includes(&[(0, 'c')]) });
    vec![
        // 158: the lowest digest of a round, and a witness before an include
        with(list_c(&whole()), [commit(&[0, 1, 0, 1, 0])]),
        // 159: without the witness
        with(list_c(&C { witness: false, ..whole() }), [commit(&[0, 1, 0, 1, 0])]),
        // 160: in the other order of the lists
        with(list_c(&whole()), [commit(&[0, 0, 1, 0, 1])]),
        // 161, 162: over 12.1.d alone, which is valid, and trans-invalid
        with(list_c(&C { left: false, ..whole() }), [commit(&[0, 0, 1, 0])]),
        with(list_c(&C { left: false, status: 2, ..whole() }), [commit(&[0, 0, 1, 0])]),
        with(beside, [commit(&[0, 1, 0, 1, 0])]),
    ]
}

// ---- skipped triggers (02, N9)

/// Boards in the same state that commit the triggers of these rounds, with so many bytes of lists; the last board only the latest one.
fn boards(sought_by_15: u32, boards: &[&[(u32, usize)]]) -> Vec<Vec<Call>> {
    let commit = |(round, bytes): &(u32, usize)| Call::Commit(tower_point(*round), vec![0; *bytes]);
    boards.iter().map(|commits| with(tower(sought_by_15), commits.iter().map(commit))).collect()
}
/// What a board hands out and is left with.
fn outcome(calls: &Vec<Call>) -> String {
    played(&encoded(calls)).lines().filter(|line| *line != "ok").map(|line| format!("{line}\n")).collect()
}
fn skipped() -> Vec<Vec<Call>> {
    let passing = [
        // 164 to 166: 13 and 15; 13, and then on the board of 164 only 15, on this one 13 and 15; 15 alone
        boards(14, &[&[(13, 1), (15, 2)], &[(13, 1), (13, 0), (15, 2)], &[(15, 3)]]),
        // 167 to 170: 13 and 17; 15 and 17; all three; 17 alone
        boards(14, &[&[(13, 1), (17, 4)], &[(15, 3), (17, 2)], &[(13, 1), (15, 2), (17, 2)], &[(17, 5)]]),
        // 171, 172: 13 twice; once
        boards(14, &[&[(13, 1), (13, 0)], &[(13, 1)]]),
    ];
    for boards in &passing {
        assert!(boards.windows(2).all(|pair| outcome(&pair[0]) == outcome(&pair[1])), "the chain passes the proof");
    }
    // 173, 174: 13 and 17; 17 alone, whose chain doesn't pass 12
    let other = boards(10, &[&[(13, 1), (17, 2)], &[(17, 2)]]);
    assert_ne!(outcome(&other[0]), outcome(&other[1]), "the chain doesn't pass the proof");
    passing.into_iter().chain([other]).flatten().collect()
}

/// Where the flag of a start, the marks of a resolution and the flag of a remove stand in their records.
const FLAG_AT: usize = 26;
const MARKS_AT: usize = 44;
const REMOVE_FLAG_AT: usize = 10;

fn parts() -> Vec<Vec<u8>> {
    let mut lists: Vec<Vec<Call>> = Vec::new();
    // 103: 23 before the anchor and above it, nothing to drain
    let a = Start { genesis: 10, commit_history_rounds: 1, bottom: 10, peers: 1, used: Some(0), ..Start::default() };
    let mut calls = rounds(&a, 13);
    anchor(&mut calls, 11, ['a', 'b', 'c'], id(10, 0, 'z'));
    let commit = calls.pop().unwrap();
    lists.push(with(
        calls,
        [remove(11, None), commit, remove(12, None), remove(11, None), remove(11, Some(0)), remove(0, Some(0))],
    ));
    // 104: 2
    lists.push(vec![remove(10, None)]);
    // 105 to 107: two proofs of one previous point; since 0, none, 3
    for since in [Some(0), None, Some(3)] {
        lists.push(with(entry_8(), [remove(5, since)]));
    }
    // 108: in two steps
    lists.push(with(entry_8(), [remove(4, Some(0)), remove(5, Some(0))]));
    // 109, 110: a reset between them
    lists.extend([again(3), again(4)]);
    // 111 to 114: what was signed is referenced
    for peer in [0, 1] {
        let a = [(peer, 'a')];
        lists.push(with(list(&start(0b11), 5, two_proofs(valid(), witness(&a))), [remove(5, Some(0))]));
        lists.push(with(list(&start(0b11), 5, two_proofs(includes(&a), valid())), [remove(5, Some(0))]));
    }
    // 115: genesis isn't reported
    lists.push(with(list(&Start { genesis: 2, ..start(0b11) }, 5, two_proofs(valid(), valid())), [remove(5, Some(0))]));
    // 116, 117: points of every status
    lists.extend([statuses(false), statuses(true)]);
    // 118 to 122: the previous point stands in a retained round
    let a = [(0, 'a')];
    let second = |status| vec![(id(4, 1, 'd'), PointInfo { status, ..includes(&a) })];
    lists.push(retained(valid(), valid(), vec![]));
    lists.push(retained(includes(&a), valid(), vec![]));
    lists.push(retained(valid(), witness(&a), vec![]));
    lists.push(retained(valid(), valid(), second(1)));
    lists.push(retained(valid(), valid(), second(3)));
    // 123, 124: two anchors; K10
    let mut calls = rounds(&start(0b11), 12);
    anchor(&mut calls, 5, FGH, id(1, 0, 'z'));
    anchor(&mut calls, 10, ['k', 'l', 'm'], id(6, 0, 'g'));
    lists.push(with(calls, [remove(10, Some(4))]));
    let points = ['a', 'b', 'c'].map(|letter| (id(2, 0, letter), valid())).to_vec();
    lists.push(with(list(&start(0b1), 14, points), [remove(14, Some(0))]));
    let mut parts: Vec<Vec<u8>> = lists.iter().map(|calls| encoded(calls)).collect();
    // 125, 126: records of 8 and 10 bytes
    for length in [8, 10] {
        let mut part = encoded(&[Call::Start(start(0b11))]);
        let mut broken = encoded(&[remove(5, Some(0))]);
        broken.resize(6 + length, 0);
        broken[3] = 2 + length as u8;
        part.extend(broken);
        parts.push(part);
    }
    parts.extend(listed().iter().chain(&summed()).map(|calls| encoded(calls)));
    // 142: a resolution without payload
    let mut broken = encoded(&[Call::Resolve(id(2, 0, 'a'), valid())]);
    broken.truncate(broken.len() - 8);
    broken[3] -= 8;
    parts.push([encoded(&[Call::Start(start(0b11))]), broken].concat());
    parts.extend(needed().iter().map(|calls| encoded(calls)));
    parts.extend(traced());
    parts.extend(added_up().iter().chain(&told()).chain(&skipped()).map(|calls| encoded(calls)));
    parts
}

/// The records of calls, the bench's of an outlook.
fn encoded(calls: &[Call]) -> Vec<u8> {
    let record = |call: &Call| match call {
        Call::Outlook(id) => record::outlook(id),
        _ => record::encode(call),
    };
    calls.iter().flat_map(|call| record(call).expect("a call of the parts has a record")).collect()
}

/// What `replay` writes.
fn played(recording: &[u8]) -> String {
    full_counted(record::bench_calls(recording))
}

/// Of the Rust's shuffle.
const ORDER: u64 = 1;

/// The part, its commits with the Rust's place lists. One that is broken or has no commit stays. The Rust has no other top proof of a proof than the proof itself,
/// which is read of anchors only.
fn lent_lists(part: &[u8]) -> Vec<u8> {
    let Ok(mut calls) = record::bench_calls(part).collect::<Result<Vec<Call>, _>>() else {
        return part.to_vec();
    };
    if !calls.iter().any(|call| matches!(call, Call::Commit(..))) {
        return part.to_vec();
    }
    assert!(encoded(&calls) == part, "a record is what its call is written as");
    let for_rust = |call: &Call| match call {
        Call::Resolve(id, info) if info.proof => Call::Resolve(*id, PointInfo { top_proof: *id, ..info.clone() }),
        _ => call.clone(),
    };
    let list = List { places: PLACES, calls: calls.iter().map(for_rust).collect(), order: ORDER };
    let (list, ended) = lent::<Library>(&list, &mut Counts::default());
    ended.unwrap_or_else(|why| panic!("{why}"));
    for (call, lent) in calls.iter_mut().zip(list.calls).filter(|(call, _)| matches!(call, Call::Commit(..))) {
        *call = lent;
    }
    encoded(&calls)
}

fn main() -> ExitCode {
    let args: Vec<String> = std::env::args().collect();
    let [_, crates, sample] = &args[..] else {
        eprintln!("usage: parts CRATES SAMPLE");
        return ExitCode::from(2);
    };
    let mut input = &fs::read(format!("{crates}/recorded/stdin")).unwrap()[..];
    let mut all: Vec<Vec<u8>> = Vec::new();
    for _ in 0..=102 {
        let (length, rest) = input.split_first_chunk::<4>().unwrap();
        let (part, rest) = rest.split_at(u32::from_be_bytes(*length) as usize);
        all.push(lent_lists(part));
        input = rest;
    }
    // the part that is cut short stands last
    let mut cut = input;
    loop {
        let (length, rest) = cut.split_first_chunk::<4>().unwrap();
        let length = u32::from_be_bytes(*length) as usize;
        if rest.len() < length {
            break;
        }
        cut = &rest[length..];
    }
    all.extend(parts());
    let sample_at = all.len();
    all.push(fs::read(format!("{sample}/stdin")).unwrap());
    let sample_text = fs::read_to_string(format!("{sample}/stdout")).unwrap();
    let (mut bytes, mut text) = (Vec::new(), String::new());
    for (n, part) in all.iter().enumerate() {
        bytes.extend((part.len() as u32).to_be_bytes());
        bytes.extend(part);
        text += &format!("part {n}\n");
        if n == sample_at {
            text += &sample_text;
        } else {
            text += &played(part);
        }
    }
    bytes.extend(cut);
    text += &format!("cut part {}\n", all.len());
    println!("{} parts, the sample is {sample_at}, {} bytes", all.len() + 1, bytes.len());
    let mut k13: Vec<Call> = record::bench_calls(&all[67]).map(Result::unwrap).collect();
    k13.pop();
    let k13 = encoded(&k13);
    write(&format!("{crates}/replay"), &k13, &played(&k13));
    write(&format!("{crates}/recorded"), &bytes, &text);
    ExitCode::SUCCESS
}

fn write(folder: &str, input: &[u8], output: &str) {
    fs::write(format!("{folder}/stdin"), input).unwrap();
    fs::write(format!("{folder}/stdout"), output).unwrap();
}
