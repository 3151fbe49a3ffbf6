//! Plays random lists of calls, reads all points after each call, and says how many calls answer or leave something
//! else with another hash seed.
//!
//!     cargo run --offline --release --example random -- CALLS SEED

use std::hash::{DefaultHasher, Hash, Hasher};
use std::time::Instant;

use oracle::{CommitAnswer, Id, Info, Link, Oracle, Outcome, Start, set_hash_seed};

const PEERS: u8 = 4;
const ALL: u32 = (1 << PEERS) - 1;
const ROUNDS: u32 = 15;

enum Call {
    Start(Start),
    Round(u32),
    Name(Id),
    Resolve(Id, Info),
    Certify(Id),
    GapQuestion,
    Drop(u32),
    Commit(Id),
    Remove(u32, Option<u32>),
}

struct Random(u64);

impl Random {
    fn below(&mut self, bound: u64) -> u64 {
        self.0 = self.0.wrapping_mul(6_364_136_223_846_793_005).wrapping_add(1_442_695_040_888_963_407);
        (self.0 >> 33) % bound
    }
    /// true in so many of a hundred
    fn chance(&mut self, percent: u64) -> bool {
        self.below(100) < percent
    }
    fn digest(&mut self) -> [u8; 32] {
        let mut bytes = [0; 32];
        for chunk in bytes.chunks_mut(4) {
            chunk.copy_from_slice(&(self.below(1 << 31) as u32).to_be_bytes());
        }
        bytes
    }
}

/// Writes one list: peer 0 leads, with an anchor, a proof and a trigger in turn.
struct Writer<'a> {
    random: &'a mut Random,
    calls: Vec<Call>,
    bottom: u32,
    last_committed_proof: Id,
    /// points of the last round and of the one before
    below: [Vec<Id>; 2],
}

impl Writer<'_> {
    fn list(random: &mut Random) -> Vec<Call> {
        let bottom = 10 + 10 * random.below(2) as u32;
        let start = Start {
            genesis: 10,
            commit_history_rounds: 1 + random.below(4) as u32,
            deduplicate_rounds: random.below(4) as u32,
            bottom,
            peers: ALL,
            after_gap: random.chance(30),
            used: Some(0),
        };
        let last_committed_proof = Id { round: bottom, author: 0, digest: random.digest() };
        let calls = vec![Call::Start(start), Call::GapQuestion];
        let mut writer = Writer { random, calls, bottom, last_committed_proof, below: [Vec::new(), Vec::new()] };
        for round in bottom + 1..bottom + ROUNDS {
            writer.round(round);
        }
        writer.calls
    }

    fn round(&mut self, round: u32) {
        self.calls.push(Call::Round(round));
        let mut points = Vec::new();
        for author in 0..PEERS {
            let versions = u64::from(author == 0 || self.random.chance(85)) + u64::from(self.random.chance(2));
            for _ in 0..versions {
                points.push(self.point(round, author));
            }
        }
        self.certify(&points);
        if (round - self.bottom).is_multiple_of(3) {
            self.after_trigger(points[0]);
        }
        self.below = [points, std::mem::take(&mut self.below[0])];
    }

    fn point(&mut self, round: u32, author: u8) -> Id {
        let id = Id { round, author, digest: self.random.digest() };
        self.calls.push(Call::Name(id));
        if self.random.chance(99) {
            let info = self.info(id);
            self.calls.push(Call::Resolve(id, info));
        }
        id
    }

    fn info(&mut self, id: Id) -> Info {
        let stage = (id.round - self.bottom) % 3;
        let proof = id.author == 0 && stage == 2;
        if proof {
            self.last_committed_proof = id;
        }
        let status = match self.random.below(100) {
            _ if id.author == 0 => 1,
            0 => 5,
            1 => 4,
            2 => 3,
            3..8 => 2,
            _ => 1,
        };
        let linked = status < 4;
        Info {
            status,
            proof,
            trigger: id.author == 0 && stage == 0,
            cause: self.random.chance(50),
            top_proof: self.last_committed_proof,
            evidence: if linked { self.random.below(1 << PEERS) as u32 } else { 0 },
            includes: if linked { self.links(0, 90, id.author) } else { Vec::new() },
            witness: if linked { self.links(1, 30, PEERS) } else { Vec::new() },
            payload_len: self.random.below(1 << 32) as u32,
            payload_bytes: self.random.below(1 << 32) as u32,
        }
    }

    /// At most one link to each author, and one to `own` with more certainty.
    fn links(&mut self, down: usize, percent: u64, own: u8) -> Vec<Link> {
        let mut links: Vec<Link> = Vec::new();
        for id in &self.below[down] {
            let percent = if id.author == own { 99 } else { percent };
            if links.last().is_none_or(|last| last.peer != id.author) && self.random.chance(percent) {
                links.push(Link { peer: id.author, digest: id.digest });
            }
        }
        links
    }

    fn certify(&mut self, points: &[Id]) {
        for id in points {
            let leads = id.author == 0 && (id.round - self.bottom) % 3 == 1;
            if self.random.chance(if leads { 98 } else { 10 }) {
                self.calls.push(Call::Certify(*id));
            }
        }
    }

    fn after_trigger(&mut self, trigger: Id) {
        if self.random.chance(5) {
            self.calls.push(Call::Drop(trigger.round - self.random.below(8) as u32));
            self.calls.push(Call::GapQuestion);
        }
        if self.random.chance(80) {
            self.calls.push(Call::Commit(trigger));
        }
        if self.random.chance(60) {
            let since = self.random.chance(80).then_some(0);
            self.calls.push(Call::Remove(trigger.round - 2, since));
        }
    }
}

#[derive(Default)]
struct Counts {
    calls: u64,
    points_read: u64,
    panics: u64,
    no_calls: u64,
    commits: u64,
    anchors: u64,
    history: u64,
    conflicts: u64,
    events: u64,
}

impl Counts {
    /// The answer as text, for comparison.
    fn answer<T: std::fmt::Debug>(&mut self, outcome: Outcome<T>) -> String {
        match &outcome {
            Outcome::Done(_) => {}
            Outcome::Panicked(_) => self.panics += 1,
            Outcome::NoCall(_) => self.no_calls += 1,
        }
        format!("{outcome:?}")
    }

    fn commit(&mut self, outcome: &Outcome<CommitAnswer>) {
        self.commits += 1;
        match outcome {
            Outcome::Done(CommitAnswer::Anchors(anchors)) => {
                self.anchors += anchors.len() as u64;
                self.history += anchors.iter().map(|anchor| anchor.points.len() as u64).sum::<u64>();
            }
            Outcome::Done(CommitAnswer::HistoryConflict(_)) => self.conflicts += 1,
            Outcome::Panicked(_) | Outcome::NoCall(_) => {}
        }
    }
}

/// An answer as text, and a hash of points and state after the call.
type Seen = (String, u64);

fn seen(answer: String, oracle: &Oracle, counts: &mut Counts) -> Seen {
    let points = oracle.points();
    counts.points_read += points.len() as u64;
    let mut hasher = DefaultHasher::new();
    (points, oracle.state()).hash(&mut hasher);
    (answer, hasher.finish())
}

/// Plays a list up to a panic.
fn play(list: &[Call], counts: &mut Counts, all: &mut Vec<Seen>) {
    let mut oracle = Oracle::new();
    let panics = counts.panics;
    for call in list {
        counts.calls += 1;
        let answer = match call {
            Call::Start(start) => counts.answer(oracle.start(start)),
            Call::Round(round) => counts.answer(oracle.round(*round, ALL)),
            Call::Name(id) => counts.answer(oracle.name(id)),
            Call::Resolve(id, info) => counts.answer(oracle.resolve(id, info)),
            Call::Certify(id) => counts.answer(oracle.certify(id)),
            Call::GapQuestion => counts.answer(oracle.gap_question()),
            Call::Drop(round) => counts.answer(oracle.drop_upto(*round)),
            Call::Commit(id) => {
                let outcome = oracle.commit(id);
                counts.commit(&outcome);
                counts.answer(outcome)
            }
            Call::Remove(anchor, since) => {
                let outcome = oracle.remove(*anchor, *since);
                if let Outcome::Done(answer) = &outcome {
                    counts.events += answer.events.len() as u64;
                }
                counts.answer(outcome)
            }
        };
        all.push(seen(answer, &oracle, counts));
        if counts.panics > panics {
            return;
        }
    }
}

/// About so many calls, with one hash seed.
fn run(calls: u64, seed: u64, hash_seed: u64) -> (Counts, Vec<Seen>) {
    set_hash_seed(hash_seed);
    let mut random = Random(seed);
    let (mut counts, mut all) = (Counts::default(), Vec::new());
    while counts.calls < calls {
        play(&Writer::list(&mut random), &mut counts, &mut all);
    }
    (counts, all)
}

/// The beginning of a message without its numbers.
fn kind(message: &str) -> String {
    message.chars().filter(|c| !c.is_ascii_digit()).take(50).collect()
}

/// The first panic of each kind, with the number of that kind.
fn panics(all: &[Seen]) -> Vec<(usize, &str)> {
    let mut kinds: Vec<(usize, &str)> = Vec::new();
    for (answer, _) in all.iter().filter(|(answer, _)| answer.starts_with("Panicked")) {
        match kinds.iter_mut().find(|(_, first)| kind(first) == kind(answer)) {
            Some((number, _)) => *number += 1,
            None => kinds.push((1, answer)),
        }
    }
    kinds
}

fn main() {
    let argument = |n, default| std::env::args().nth(n).map_or(default, |text| text.parse().expect("a number"));
    let (calls, seed) = (argument(1, 100_000), argument(2, 1));
    let begun = Instant::now();
    let (counts, all) = run(calls, seed, 0);
    println!("{} calls, {} points read, {:?}", counts.calls, counts.points_read, begun.elapsed());
    println!(
        "{} commits: {} anchors with {} points, {} conflicts",
        counts.commits, counts.anchors, counts.history, counts.conflicts
    );
    println!("{} events, {} calls that the Rust hasn't, {} panics:", counts.events, counts.no_calls, counts.panics);
    for (number, first) in panics(&all) {
        println!("  {number} like {first}");
    }
    for hash_seed in 1..=3 {
        // a thread of its own, for the maps that a thread keeps
        let other = std::thread::spawn(move || run(calls, seed, hash_seed).1).join().expect("it plays");
        let answers = all.iter().zip(&other).filter(|(one, two)| one.0 != two.0).count();
        let left = all.iter().zip(&other).filter(|(one, two)| one.1 != two.1).count();
        println!("hash seed {hash_seed}: {answers} answers differ, {left} states differ");
    }
}
