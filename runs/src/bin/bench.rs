//! Times calls of the library and of the Rust at several numbers of points held, beside a plain read of the tables.
//!
//!     cargo run --release --offline --bin bench

use std::fs;
use std::hint::black_box;
use std::time::Instant;

use committer::{Call, Committer, KEY_WORDS, LINK_WORDS, Link, PLACES_MAX, PointId, PointInfo, Start, Tables};
use runs::compare::in_a_row;
use runs::library::records;
use runs::lists::{commit, digest};
use runs::rust::Rust;
use runs::view::{Answer, Told};

const SIZES: [u32; 4] = [64, 256, 1024, 4096];
const PEERS: u32 = 32;
const BOTTOM: u32 = 10;
const HISTORY_ROUNDS: u32 = 20;
/// Growth is judged between these.
const SMALL: usize = 1;
const LARGE: usize = 3;

/// Microseconds of the four calls, at one number of points.
struct Calls {
    round: f64,
    name: f64,
    resolve: f64,
    certify: f64,
}

struct Times {
    points: u32,
    ours: Calls,
    /// the gap question: the table test and little else
    test: f64,
    /// ours less the test
    rest: Calls,
    rust: Calls,
    read_all: f64,
    read_needed: f64,
}

fn main() {
    oracle::set_shuffle_order(oracle::OWN_ORDER);
    print_machine();
    let times: Vec<Times> = SIZES.into_iter().map(measured).collect();
    print_calls(&times);
    print_growth(&times);
    print_reads(&times);
    print_commits();
    print_outlooks();
    print_removes();
}

// ---- what is timed

fn id(n: u32) -> PointId {
    PointId { round: BOTTOM + n / PEERS, author: n % PEERS, digest: digest(n + 1) }
}

/// All 32 points of the round below; the bottom's have no links.
fn info(n: u32) -> PointInfo {
    let below = (n / PEERS).checked_sub(1);
    let includes = below.map_or(Vec::new(), |row| {
        (0..PEERS).map(|peer| Link { peer, digest: digest(row * PEERS + peer + 1) }).collect()
    });
    PointInfo { status: 1, includes, ..PointInfo::default() }
}

fn start() -> Call {
    Call::Start(Start {
        genesis: BOTTOM,
        commit_history_rounds: HISTORY_ROUNDS,
        bottom: BOTTOM,
        peers: u32::MAX,
        ..Start::default()
    })
}

/// The calls until all points but the last are named and resolved.
fn filling(points: u32) -> Vec<Call> {
    let mut calls = vec![start()];
    for n in 0..points {
        if n > 0 && n % PEERS == 0 {
            calls.push(Call::Round { round: id(n).round, peers: u32::MAX });
        }
        if n + 1 < points {
            calls.push(Call::Name(id(n)));
            calls.push(Call::Resolve(id(n), info(n)));
        }
    }
    calls
}

/// The calls that are timed, in the order in which each finds what it needs.
fn timed(points: u32) -> [Call; 4] {
    let last = points - 1;
    let next = Call::Round { round: id(last).round + 1, peers: u32::MAX };
    [Call::Name(id(last)), Call::Resolve(id(last), info(last)), next, Call::Certify(id(last))]
}

fn repetitions(points: u32) -> usize {
    (400_000 / points as usize).clamp(150, 2_000)
}

/// The calls, the test and the reads take turns, each with the tables just copied: what else the machine does falls on all alike.
fn measured(points: u32) -> Times {
    let stages = stages(points);
    let calls = timed(points);
    let places = points as usize;
    let mut work = stages[0].clone();
    let [mut tests, mut alls, mut neededs] = [const { Vec::new() }; 3];
    let mut ours: [Vec<f64>; 4] = Default::default();
    let mut rest: [Vec<f64>; 4] = Default::default();
    for _ in 0..repetitions(points) {
        let mut after_copy = |stage: usize, call: &dyn Fn(&mut Committer) -> u64| {
            restore(&mut work, &stages[stage], points);
            clock(|| call(&mut work))
        };
        let test = after_copy(3, &|work| work.gap_question().expect("started").into());
        tests.push(test);
        alls.push(after_copy(3, &|work| read_all(work.parts().0, places)));
        neededs.push(after_copy(3, &|work| read_needed(work.parts().0, places)));
        for n in 0..4 {
            let time = after_copy(n, &|work| {
                take(work, &calls[n]);
                0
            });
            ours[n].push(time);
            rest[n].push(time - test);
        }
    }
    Times {
        points,
        ours: Calls::of(ours),
        test: median(tests),
        rest: Calls::of(rest),
        rust: rust(points),
        read_all: median(alls),
        read_needed: median(neededs),
    }
}

/// The library before each of the timed calls.
fn stages(points: u32) -> Vec<Committer> {
    let mut committer = Committer::new(PLACES_MAX);
    filling(points).iter().for_each(|call| take(&mut committer, call));
    let mut stages = Vec::new();
    for call in timed(points) {
        stages.push(committer.clone());
        take(&mut committer, &call);
    }
    stages
}

fn take(committer: &mut Committer, call: &Call) {
    assert_eq!(committer.call(call), committer::Answer::Done);
}

/// Names take the lowest free place, so the first places are the used ones.
fn restore(work: &mut Committer, before: &Committer, points: u32) {
    let (from, from_state) = before.parts();
    let (to, to_state) = work.parts_mut();
    let places = points as usize;
    to.keys[..places * KEY_WORDS].copy_from_slice(&from.keys[..places * KEY_WORDS]);
    to.links[..places * LINK_WORDS].copy_from_slice(&from.links[..places * LINK_WORDS]);
    to.certs[..places].copy_from_slice(&from.certs[..places]);
    to.order[..places].copy_from_slice(&from.order[..places]);
    *to_state = *from_state;
}

/// The Rust can't be copied: each repetition builds it anew, and times the four calls one after the other.
fn rust(points: u32) -> Calls {
    let filling = filling(points);
    let calls = timed(points);
    let mut times: [Vec<f64>; 4] = Default::default();
    for _ in 0..(40_000 / points as usize).clamp(25, 200) {
        let mut rust = Rust::after(&filling);
        for (call, times) in calls.iter().zip(&mut times) {
            times.push(clock(|| assert_eq!(rust.call(call), Told::Answer(Answer::Done))));
        }
    }
    Calls::of(times)
}

// ---- commits

/// New points of an anchor's history.
const HISTORIES: [u32; 3] = [32, 128, 1024];
/// Points of each author in a round, and new points of a history that has such rounds.
const ROUNDS: [(u32, u32); 2] = [(1, 1056), (4, 1056)];

/// The calls until an anchor with so many new points can be committed, 32 more than whole rows have: rows with so many points of each of 32
/// authors, one row of 31 points, the anchor; its proof and the trigger.
fn committable(points: u32, versions: u32) -> (Vec<Call>, PointId) {
    let row = |round: u32, authors: u32| (0..authors).map(move |n| at(round, n)).collect::<Vec<_>>();
    let full =
        |round: u32| (0..versions).flat_map(move |v| (0..PEERS).map(move |n| version(round, n, v))).collect::<Vec<_>>();
    let whole = (points - PEERS) / (PEERS * versions);
    let anchor = at(BOTTOM + whole + 2, 0);
    let mut rows: Vec<Vec<PointId>> = (1..=whole).map(|n| full(BOTTOM + n)).collect();
    rows.push(row(anchor.round - 1, PEERS - 1));
    rows.extend((0..3).map(|n| row(anchor.round + n, 1)));
    let bottom = Start {
        genesis: BOTTOM,
        commit_history_rounds: 255,
        bottom: BOTTOM,
        peers: u32::MAX,
        used: Some(0),
        ..Start::default()
    };
    let mut calls = vec![Call::Start(bottom)];
    let mut below: Vec<PointId> = Vec::new();
    for row in rows {
        calls.push(Call::Round { round: row[0].round, peers: u32::MAX });
        for (n, id) in row.iter().enumerate() {
            let includes = one_of_each(&below, n);
            let proof = id.round == anchor.round + 1;
            let top_proof = if proof { *id } else { at(BOTTOM, 0) };
            let trigger = id.round == anchor.round + 2;
            let info = PointInfo { status: 1, proof, trigger, top_proof, includes, ..PointInfo::default() };
            calls.extend([Call::Name(*id), Call::Resolve(*id, info)]);
        }
        below = row;
    }
    calls.push(Call::Certify(anchor));
    (calls, at(anchor.round + 2, 0))
}

/// Links to one point of each author, another one for the next n: a row of 31 or more links to all points of the row below it.
fn one_of_each(below: &[PointId], n: usize) -> Vec<Link> {
    let of = |peer: u32| below.iter().filter(move |id| id.author == peer);
    (0..PEERS).filter_map(|peer| of(peer).cycle().nth((n + peer as usize) % 4)).map(link_to).collect()
}

fn at(round: u32, author: u32) -> PointId {
    version(round, author, 0)
}

/// One of up to four points of an author in a round.
fn version(round: u32, author: u32, version: u32) -> PointId {
    PointId { round, author, digest: digest((round * 4 + version) * PEERS + author) }
}

fn print_commits() {
    println!("\n| new points of the anchor | commit, library | table test | library less the test | Rust |");
    println!("|---|---|---|---|---|");
    for points in HISTORIES {
        println!("| {points} | {} |", commit_times(points, 1));
    }
    println!(
        "\n| points of a round | new points of the anchor | commit, library | table test | library less the test | Rust |"
    );
    println!("|---|---|---|---|---|---|");
    for (versions, points) in ROUNDS {
        println!("| {} | {points} | {} |", PEERS * versions, commit_times(points, versions));
    }
}

fn commit_times(points: u32, versions: u32) -> String {
    let (calls, trigger) = committable(points, versions);
    let [ours, test, rest] = our_commit(points, &calls, &trigger);
    let rust = rust_commit(points, &calls, &trigger);
    format!("{ours:.1} | {test:.1} | {rest:.1} | {rust:.1}")
}

/// The place lists of the Rust's commit.
fn lists(calls: &[Call], trigger: &PointId) -> Vec<u8> {
    let mut rust = Rust::after(calls);
    rust.call(&commit(*trigger));
    in_a_row(rust.place_lists())
}

/// The commit, the table test, and the one less the other.
fn our_commit(points: u32, calls: &[Call], trigger: &PointId) -> [f64; 3] {
    let mut before = Committer::new(PLACES_MAX);
    calls.iter().for_each(|call| take(&mut before, call));
    let mut work = before.clone();
    let mut buffer = vec![0; committer::COMMIT_BYTES_MAX];
    let lists = lists(calls, trigger);
    let mut times: [Vec<f64>; 3] = Default::default();
    for _ in 0..repetitions(points) {
        restore(&mut work, &before, points + 2);
        let test = clock(|| work.gap_question().expect("started"));
        restore(&mut work, &before, points + 2);
        let ours = clock(|| assert_eq!(work.commit(trigger, &lists, &mut buffer), Ok(1)));
        assert_eq!(records(&buffer, 1)[0].points.len(), points as usize);
        for (times, time) in times.iter_mut().zip([ours, test, ours - test]) {
            times.push(time);
        }
    }
    times.map(median)
}

fn rust_commit(points: u32, calls: &[Call], trigger: &PointId) -> f64 {
    let commit = commit(*trigger);
    let mut times = Vec::new();
    for _ in 0..(40_000 / points as usize).clamp(25, 200) {
        let mut rust = Rust::after(calls);
        times.push(clock(|| assert!(matches!(rust.call(&commit), Told::Answer(Answer::Anchors(_))))));
    }
    median(times)
}

// ---- outlooks

/// Anchors that a trigger yields, and H. In the last the history of each anchor reaches all rows below it, as many as the places allow.
const CHAINS: [(u32, u32); 3] = [(1, HISTORY_ROUNDS), (9, HISTORY_ROUNDS), (60, 255)];
/// Rows below the first anchor.
const LEAD: u32 = 4;
/// An outlook of so many anchors should take at most so many times as long as their commit.
const JUDGED: u32 = 9;
const RATIO_MOST: f64 = 1.2;

/// The calls until a trigger yields so many anchors: rows of 32 points, each of which includes the row below; above the first rows anchors
/// and proofs of peer 0 in turn, then the trigger.
fn chained(anchors: u32, commit_history_rounds: u32) -> (Vec<Call>, PointId) {
    let first = BOTTOM + LEAD + 1;
    let top = first + 2 * anchors;
    let bottom = Start {
        genesis: BOTTOM,
        commit_history_rounds,
        bottom: BOTTOM,
        peers: u32::MAX,
        used: Some(0),
        ..Start::default()
    };
    let mut calls = vec![Call::Start(bottom)];
    for round in BOTTOM + 1..=top {
        calls.push(Call::Round { round, peers: u32::MAX });
        let below = (0..PEERS).filter(|_| round > BOTTOM + 1).map(|peer| at(round - 1, peer));
        let includes: Vec<Link> = below.map(|id| Link { peer: id.author, digest: id.digest }).collect();
        for id in (0..PEERS).map(|author| at(round, author)) {
            let proof = round > first && (round - first) % 2 == 1;
            let top_proof = match round {
                _ if proof => id,
                _ if round > first => at(round - 1, id.author),
                _ => at(BOTTOM, 0),
            };
            let trigger = round == top;
            let info =
                PointInfo { status: 1, proof, trigger, top_proof, includes: includes.clone(), ..PointInfo::default() };
            calls.extend([Call::Name(id), Call::Resolve(id, info)]);
        }
    }
    calls.push(Call::Certify(at(top - 2, 0)));
    (calls, at(top, 0))
}

fn print_outlooks() {
    println!(
        "\n| anchors | H | points handed out | outlook, library | commit, library | outlook to commit | table test |"
    );
    println!("|---|---|---|---|---|---|---|");
    let mut judged = 0.0;
    for (anchors, commit_history_rounds) in CHAINS {
        let (calls, trigger) = chained(anchors, commit_history_rounds);
        let (points, [outlook, commit, test]) = our_outlook(anchors, &calls, &trigger);
        let ratio = outlook / commit;
        println!(
            "| {anchors} | {commit_history_rounds} | {points} | {outlook:.1} | {commit:.1} | {ratio:.2} | {test:.1} |"
        );
        if anchors == JUDGED {
            judged = ratio;
        }
    }
    let met = if judged <= RATIO_MOST { "met" } else { "not met" };
    println!("\nOutlook to commit of {JUDGED} anchors, at most {RATIO_MOST}: {judged:.2}, {met}.");
}

/// The points handed out, and the times of the outlook, the commit of the same trigger and the table test, which take turns.
fn our_outlook(anchors: u32, calls: &[Call], trigger: &PointId) -> (usize, [f64; 3]) {
    let held = (LEAD + 2 * anchors + 1) * PEERS;
    let mut before = Committer::new(PLACES_MAX);
    calls.iter().for_each(|call| take(&mut before, call));
    let mut work = before.clone();
    let mut buffer = vec![0; committer::COMMIT_BYTES_MAX.max(committer::OUTLOOK_BYTES_MAX)];
    let lists = lists(calls, trigger);
    let mut points = 0;
    let mut times: [Vec<f64>; 3] = Default::default();
    for _ in 0..repetitions(held) {
        restore(&mut work, &before, held);
        let test = clock(|| work.gap_question().expect("started"));
        restore(&mut work, &before, held);
        let outlook = clock(|| assert_eq!(work.outlook(trigger, &mut buffer), Ok(anchors)));
        restore(&mut work, &before, held);
        let commit = clock(|| assert_eq!(work.commit(trigger, &lists, &mut buffer), Ok(anchors)));
        points = records(&buffer, anchors).iter().map(|anchor| anchor.points.len()).sum();
        for (times, time) in times.iter_mut().zip([outlook, commit, test]) {
            times.push(time);
        }
    }
    (points, times.map(median))
}

// ---- removes

/// Rounds of so many points, all of them removed at once.
struct Removed {
    name: &'static str,
    rounds: u32,
    /// digests of each author in a round; with more than one the points have witness links too, and no signer references what it signed
    versions: u32,
}

const REMOVED: [Removed; 3] = [
    Removed { name: "32 rounds of 32 points, 32 includes, all signed", rounds: 32, versions: 1 },
    Removed { name: "128 rounds of 32 points, 32 includes, all signed", rounds: 128, versions: 1 },
    Removed {
        name: "32 rounds of 128 points, 32 includes, 32 witness, all signed, none referenced",
        rounds: 32,
        versions: 4,
    },
];

/// The first row's round.
const FIRST: u32 = BOTTOM + 1;

impl Removed {
    fn at(&self, round: u32, author: u32, version: u32) -> PointId {
        PointId { round, author, digest: digest((round * PEERS + author) * 4 + version) }
    }

    /// In the first round three points less, so that an anchor, its proof and its trigger have places.
    fn row(&self, round: u32) -> Vec<PointId> {
        let all = (0..PEERS).flat_map(|author| (0..self.versions).map(move |version| (author, version)));
        let less = if round == FIRST { 3 } else { 0 };
        all.skip(less).map(|(author, version)| self.at(round, author, version)).collect()
    }

    /// Links to the points of a round, of an author to its own first version, to the others' last.
    fn links(&self, round: u32, author: u32) -> Vec<Link> {
        let version = |peer| if peer == author { 0 } else { self.versions - 1 };
        let row = self.row(round);
        let named = |id: &PointId| row.contains(id);
        (0..PEERS).map(|peer| self.at(round, peer, version(peer))).filter(named).map(|id| link_to(&id)).collect()
    }

    fn info(&self, id: &PointId) -> PointInfo {
        let includes = if id.round > FIRST { self.links(id.round - 1, id.author) } else { Vec::new() };
        let far = self.versions > 1 && id.round > FIRST + 1;
        let witness = if far { self.links(id.round - 2, (id.author + 1) % PEERS) } else { Vec::new() };
        PointInfo { status: 1, evidence: u32::MAX, includes, witness, ..PointInfo::default() }
    }

    fn anchor(&self) -> PointId {
        self.at(FIRST + self.rounds + 1, 0, 0)
    }

    /// Until the anchor's commit; H is 1.
    fn calls(&self) -> Vec<Call> {
        let [anchor, proof, trigger] = [0, 1, 2].map(|n| self.at(self.anchor().round + n, 0, 0));
        let start =
            Start { genesis: BOTTOM, commit_history_rounds: 1, bottom: FIRST, peers: u32::MAX, ..Start::default() };
        let mut calls = vec![Call::Start(start)];
        calls.extend((FIRST + 1..=trigger.round).map(|round| Call::Round { round, peers: u32::MAX }));
        for id in (FIRST..FIRST + self.rounds).flat_map(|round| self.row(round)) {
            calls.extend([Call::Name(id), Call::Resolve(id, self.info(&id))]);
        }
        let one = |top_proof, below: Option<PointId>| PointInfo {
            status: 1,
            top_proof,
            includes: below.iter().map(link_to).collect(),
            ..PointInfo::default()
        };
        let infos = [
            one(at(BOTTOM, 0), None),
            PointInfo { proof: true, ..one(proof, Some(anchor)) },
            PointInfo { trigger: true, ..one(at(BOTTOM, 0), Some(proof)) },
        ];
        for (id, info) in [anchor, proof, trigger].into_iter().zip(infos) {
            calls.extend([Call::Name(id), Call::Resolve(id, info)]);
        }
        // the anchor is all of its history
        calls.extend([Call::Certify(anchor), Call::Commit(trigger, vec![0])]);
        calls
    }

    fn points(&self) -> u32 {
        self.rounds * PEERS * self.versions
    }
}

fn link_to(id: &PointId) -> Link {
    Link { peer: id.author, digest: id.digest }
}

fn print_removes() {
    println!(
        "\n| removed | bytes of the answer | remove, library | table test | drop of the same rounds | remove less the drop | Rust |"
    );
    println!("|---|---|---|---|---|---|---|");
    for removed in REMOVED {
        let (bytes, [ours, test, drop, rest]) = our_remove(&removed);
        let rust = rust_remove(&removed);
        println!("| {} | {bytes} | {ours:.0} | {test:.0} | {drop:.0} | {rest:.0} | {rust:.0} |", removed.name);
    }
}

/// The bytes of the answer, and the times of the remove, the table test, the drop of the same rounds, and the remove less the drop. They
/// take turns.
fn our_remove(removed: &Removed) -> (usize, [f64; 4]) {
    let mut before = Committer::new(PLACES_MAX);
    for call in removed.calls() {
        assert!(!matches!(before.call(&call), committer::Answer::Refused(..)), "{call:?}");
    }
    let (round, points) = (removed.anchor().round, removed.points());
    let mut work = before.clone();
    let mut buffer = vec![0; committer::REMOVE_BYTES_MAX];
    let mut bytes = 0;
    let mut times: [Vec<f64>; 4] = Default::default();
    for _ in 0..repetitions(points).min(60) {
        restore(&mut work, &before, points);
        let test = clock(|| work.gap_question().expect("started"));
        restore(&mut work, &before, points);
        let drop = clock(|| assert_eq!(work.drop_upto(round - 1), Ok(true)));
        restore(&mut work, &before, points);
        let ours = clock(|| assert_eq!(work.remove(round, Some(0), &mut buffer), Ok(())));
        bytes = committer::removal(&buffer).expect("a whole answer").bytes();
        for (times, time) in times.iter_mut().zip([ours, test, drop, ours - drop]) {
            times.push(time);
        }
    }
    (bytes, times.map(median))
}

fn rust_remove(removed: &Removed) -> f64 {
    let calls = removed.calls();
    let round = removed.anchor().round;
    let mut times = Vec::new();
    for _ in 0..15 {
        let mut rust = Rust::after(&calls);
        times.push(clock(|| assert_eq!(rust.remove_counts(round, Some(0)).done().0, PEERS as usize)));
    }
    median(times)
}

/// The sum of every word of the used places.
fn read_all(tables: &Tables, places: usize) -> u64 {
    sum(&tables.keys[..places * KEY_WORDS])
        .wrapping_add(sum(&tables.links[..places * LINK_WORDS]))
        .wrapping_add(sum(&tables.certs[..places]))
        .wrapping_add(sum(&tables.order[..places]))
}

/// The sum of the words that the table test can't do without: of a place's links the evidence, the top proof's round and author, the 64
/// targets, and the digests of its 32 includes.
fn read_needed(tables: &Tables, places: usize) -> u64 {
    let mut total = sum(&tables.keys[..places * KEY_WORDS])
        .wrapping_add(sum(&tables.certs[..places]))
        .wrapping_add(sum(&tables.order[..places]));
    for links in tables.links[..places * LINK_WORDS].chunks_exact(LINK_WORDS) {
        total = total.wrapping_add(sum(&links[..3])).wrapping_add(sum(&links[8..72 + 4 * PEERS as usize]));
    }
    total
}

fn sum(words: &[u64]) -> u64 {
    words.iter().fold(0, |total, word| total.wrapping_add(*word))
}

// ---- clocks

fn clock<T>(call: impl FnOnce() -> T) -> f64 {
    let begun = Instant::now();
    black_box(call());
    begun.elapsed().as_secs_f64() * 1e6
}

fn median(mut times: Vec<f64>) -> f64 {
    times.sort_unstable_by(f64::total_cmp);
    times[times.len() / 2]
}

// ---- what is printed

/// Where the machine tells.
fn print_machine() {
    let cores = std::thread::available_parallelism().map_or("?".into(), |cores| cores.to_string());
    let model = field("/proc/cpuinfo", "model name").unwrap_or("unknown processor".into());
    let memory = field("/proc/meminfo", "MemTotal").unwrap_or("unknown".into());
    println!("{cores} cores ({model}), memory {memory}. Medians, in microseconds.\n");
}

fn field(file: &str, name: &str) -> Option<String> {
    let text = fs::read_to_string(file).ok()?;
    let line = text.lines().find(|line| line.starts_with(name))?;
    Some(line.split_once(':')?.1.trim().into())
}

impl Calls {
    /// In the order of `timed`.
    fn of(times: [Vec<f64>; 4]) -> Calls {
        let [name, resolve, round, certify] = times.map(median);
        Calls { round, name, resolve, certify }
    }

    fn each(&self) -> [(&'static str, f64); 4] {
        [("round", self.round), ("name", self.name), ("resolve", self.resolve), ("certify", self.certify)]
    }
}

fn print_calls(times: &[Times]) {
    println!("| points held | call | library | table test | library less the test | Rust |");
    println!("|---|---|---|---|---|---|");
    for at in times {
        for n in 0..4 {
            let (call, ours) = at.ours.each()[n];
            let (rest, rust) = (at.rest.each()[n].1, at.rust.each()[n].1);
            println!("| {} | {call} | {ours:.1} | {:.1} | {rest:.1} | {rust:.2} |", at.points, at.test);
        }
    }
}

fn print_growth(times: &[Times]) {
    let (small, large) = (&times[SMALL], &times[LARGE]);
    println!("\n| from {} to {} points, times | library | Rust |", small.points, large.points);
    println!("|---|---|---|");
    for n in 0..4 {
        let (call, ours) = large.ours.each()[n];
        let ours = ours / small.ours.each()[n].1;
        let rust = large.rust.each()[n].1 / small.rust.each()[n].1;
        println!("| {call} | {ours:.1} | {rust:.1} |");
    }
    println!("| table test | {:.1} | |", large.test / small.test);
}

fn print_reads(times: &[Times]) {
    println!(
        "\n| points held | table test | read of all words | test to read | read of the words needed | test to read |"
    );
    println!("|---|---|---|---|---|---|");
    for Times { points, test, read_all, read_needed, .. } in times {
        let (to_all, to_needed) = (test / read_all, test / read_needed);
        println!("| {points} | {test:.1} | {read_all:.1} | {to_all:.1} | {read_needed:.1} | {to_needed:.1} |");
    }
}
