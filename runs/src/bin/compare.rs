//! Plays lists of calls on the library and on the Rust and compares them after each call.
//!
//!     cargo run --release --offline --bin compare -- [SEED]

use std::process::ExitCode;
use std::sync::atomic::{AtomicBool, Ordering};
use std::time::Instant;

use runs::compare::{Difference, List, compare, lent};
use runs::counts::Counts;
use runs::known::Known;
use runs::library::Library;
use runs::lists::{chained, damaged, grown, limits, removing, shorts, waiting};
use runs::notation;
use runs::random::Random;
use runs::shrink::shrink;

const SEED: u64 = 1;
const GROWN: u64 = 2_000;
const DAMAGED: u64 = 1_200;
const CHAINED: u64 = 1_500;
const CHAINED_DAMAGED: u64 = 1_500;
const WAITING: u64 = 2_500;
const REMOVING: u64 = 1_200;
const REMOVING_DAMAGED: u64 = 600;
/// Every so many random lists run under both hash seeds.
const TWICE: u64 = 4;
/// Of each number that the calls at hand are refused with, the Rust is given at least so many.
const TRIED_LEAST: u64 = 200;
const CALLS_LEAST: u64 = 100_000;
/// Anchor records that both handed out, and commits refused with 13, 14, 15, 16, 18, 20, 25 that the Rust was given.
const ANCHORS_LEAST: u64 = 5_000;
const COMMITS_LEAST: u64 = 100;
/// Of the records those with sums that aren't 0, and with one of more than 32 bits.
const SUMS_LEAST: u64 = 5_000;
const WIDE_SUMS_LEAST: u64 = 1_000;
/// Of the records those with three linked points or more in a round.
const THREE_LEAST: u64 = 5_000;
/// Commits with a damaged place list.
const DAMAGED_LISTS_LEAST: u64 = 5_000;
/// Links behind points of each word, and points of each kind that has more than one linker, or one outside the record.
const LINKS_LEAST: u64 = 20_000;
/// Outlooks that tell anchors, and commits of two anchors or more that had the outlook's counts.
const OUTLOOKS_LEAST: u64 = 5_000;
const SEVERAL_LEAST: u64 = 5_000;
/// Pairs of triggers in which the later one's chain passes the first one's proof and the first one yields anchors.
const SKIPPED_LEAST: u64 = 10_000;
/// Removes that both took, events of each kind that both reported, events with another proof in the Rust.
const REMOVES_LEAST: u64 = 20_000;
const EVENTS_LEAST: u64 = 2_000;
const LESSER_LEAST: u64 = 200;

/// A list, its family, and whether it runs under both hash seeds.
struct Task {
    family: &'static str,
    twice: bool,
    list: List,
}

type Failure = (Task, Difference);

fn main() -> ExitCode {
    let Some(seed) = seed() else {
        eprintln!("usage: compare [SEED], a number; {SEED} if left out");
        return ExitCode::from(2);
    };
    let begun = Instant::now();
    let stop = AtomicBool::new(false);
    let (counts, failure) = std::thread::scope(|scope| {
        let workers = [0, 1].map(|worker| {
            scope.spawn({
                let stop = &stop;
                move || work(seed, worker, stop)
            })
        });
        let mut counts = Counts::default();
        let mut failure = None;
        for worker in workers {
            let (its, failed) = worker.join().expect("a worker panics only by a fault of the harness");
            counts.add(&its);
            failure = failure.or(failed);
        }
        (counts, failure)
    });
    println!("seed {seed}, {:.1} s", begun.elapsed().as_secs_f64());
    print!("{counts}");
    match failure {
        Some(failure) => report(&failure),
        None => enough(&counts),
    }
}

fn seed() -> Option<u64> {
    match std::env::args().nth(1) {
        Some(text) => text.parse().ok(),
        None => Some(SEED),
    }
}

/// Every second list, and of the random ones some of the other worker's. Each worker has a hash seed of its own.
fn work(seed: u64, worker: u64, stop: &AtomicBool) -> (Counts, Option<Failure>) {
    oracle::set_hash_seed(seed.wrapping_mul(2).wrapping_add(worker));
    let mut counts = Counts::default();
    for (n, mut task) in (0..).zip(tasks(seed)) {
        if stop.load(Ordering::Relaxed) {
            break;
        }
        if n % 2 != worker && !task.twice {
            continue;
        }
        // half of the lists of either worker
        if oracle::HAS_OWN_ORDER && n / 2 % 2 == 0 {
            task.list.order = oracle::OWN_ORDER;
        }
        *counts.lists.entry(task.family).or_default() += 1;
        if let Err(found) = compare::<Library>(&task.list, &mut counts) {
            stop.store(true, Ordering::Relaxed);
            return (counts, Some((task, found)));
        }
    }
    (counts, None)
}

fn tasks(seed: u64) -> impl Iterator<Item = Task> {
    let random = move |family, n| Random::of(seed, family, n);
    let once = |family| move |list| Task { family, twice: false, list };
    let grown_tasks =
        (0..GROWN).map(move |n| Task { family: "random growth", twice: n % TWICE == 0, list: grown(random(1, n)) });
    let damaged_tasks = (0..DAMAGED).map(move |n| {
        let list = damaged(grown(random(2, n)), random(3, n));
        Task { family: "damaged", twice: n % TWICE == 0, list }
    });
    let chained_tasks =
        (0..CHAINED).map(move |n| Task { family: "chains", twice: n % TWICE == 0, list: chained(random(5, n)) });
    let damaged_chains = (0..CHAINED_DAMAGED).map(move |n| {
        let list = damaged(chained(random(6, n)), random(7, n));
        Task { family: "damaged chains", twice: n % TWICE == 0, list }
    });
    let removing_tasks =
        (0..REMOVING).map(move |n| Task { family: "removing", twice: n % TWICE == 0, list: removing(random(8, n)) });
    let damaged_removing = (0..REMOVING_DAMAGED).map(move |n| {
        let list = damaged(removing(random(9, n)), random(10, n));
        Task { family: "damaged removing", twice: n % TWICE == 0, list }
    });
    let waiting_tasks =
        (0..WAITING).map(move |n| Task { family: "waiting", twice: n % TWICE == 0, list: waiting(random(11, n)) });
    // short lists first, so that a difference is shown by a short one; the long ones of the limits last
    (shorts().map(once("short")))
        .chain(grown_tasks)
        .chain(damaged_tasks)
        .chain(chained_tasks)
        .chain(damaged_chains)
        .chain(removing_tasks)
        .chain(damaged_removing)
        .chain(waiting_tasks)
        .chain(limits().into_iter().map(once("limits")))
}

fn report((task, found): &Failure) -> ExitCode {
    println!("\nA difference that docs/DIFFERENCES.md doesn't name, in a list of the family '{}'.", task.family);
    println!("{found}");
    let (list, found) = shrink::<Library>(&task.list, found);
    let (list, _) = lent::<Library>(&list, &mut Counts::default());
    println!("\nThe shortest list found:\n{}\n{found}", notation::written(&list));
    println!("\nIts records:\n{}", notation::records(&list));
    ExitCode::FAILURE
}

/// Fails a run that compared too little.
fn enough(counts: &Counts) -> ExitCode {
    let mut good = counts.calls() >= CALLS_LEAST;
    let commits = [13, 14, 15, 16, 18, 20, 25].map(|number| (number, COMMITS_LEAST));
    for (number, least) in (1..=12).chain([23]).map(|number| (number, TRIED_LEAST)).chain(commits) {
        let tried = counts.tried_of(number);
        if tried < least {
            println!("refusal {number} was given to the Rust {tried} times only, not {least}");
            good = false;
        }
    }
    if counts.anchors < ANCHORS_LEAST {
        println!("{} anchor records were compared only, not {ANCHORS_LEAST}", counts.anchors);
        good = false;
    }
    let (sums, wide) = (counts.sums, counts.wide_sums);
    if sums < SUMS_LEAST || wide < WIDE_SUMS_LEAST {
        println!("{sums} records with sums that aren't 0 were compared, not {SUMS_LEAST}, or");
        println!("{wide} with one of more than 32 bits, not {WIDE_SUMS_LEAST}");
        good = false;
    }
    let (three, lists) = (counts.three_linked, counts.damaged_lists);
    if three < THREE_LEAST || lists < DAMAGED_LISTS_LEAST {
        println!("{three} records with three linked points were compared, not {THREE_LEAST}, or");
        println!("{lists} damaged place lists were tried, not {DAMAGED_LISTS_LEAST}");
        good = false;
    }
    for (what, times) in counts.links.named() {
        if times < LINKS_LEAST {
            println!("links behind points, {what}: {times} only were compared, not {LINKS_LEAST}");
            good = false;
        }
    }
    let outlooks = counts.outlooks_with_anchors();
    if outlooks < OUTLOOKS_LEAST {
        println!("{outlooks} outlooks with anchors were compared only, not {OUTLOOKS_LEAST}");
        good = false;
    }
    let several = counts.several_as_told();
    if several < SEVERAL_LEAST {
        println!("{several} commits of two anchors or more were compared with their outlook only, not {SEVERAL_LEAST}");
        good = false;
    }
    good &= enough_pairs(counts);
    let removes = counts.removes_taken();
    if removes < REMOVES_LEAST {
        println!("{removes} removes were compared only, not {REMOVES_LEAST}");
        good = false;
    }
    for kind in 1..=5 {
        let events = counts.events.get(&kind).copied().unwrap_or(0);
        if events < EVENTS_LEAST {
            println!("{events} events of kind {kind} were compared only, not {EVENTS_LEAST}");
            good = false;
        }
    }
    let lesser = counts.times(Known::Entry(8));
    if lesser < LESSER_LEAST {
        println!("entry 8 was met {lesser} times only, not {LESSER_LEAST}");
        good = false;
    }
    println!("{}", if good { "no other difference" } else { "too little was compared" });
    if good { ExitCode::SUCCESS } else { ExitCode::FAILURE }
}

/// Of triggers that are passed, with anchors, and of others whose records differ.
fn enough_pairs(counts: &Counts) -> bool {
    let ([_, passed, _], [_, _, differ]) = (counts.skipped.passed, counts.skipped.others);
    let good = passed >= SKIPPED_LEAST && differ > 0;
    if !good {
        println!("{passed} pairs of triggers that are passed had anchors of the first, not {SKIPPED_LEAST}, or");
        println!("{differ} that aren't passed had other records, not 1");
    }
    good
}
