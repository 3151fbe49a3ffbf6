//! Compares draws of the library with those of rand_pcg, its source unchanged, and times both.
//!
//!     cargo run --release --offline --bin draws -- [SEED]

use std::collections::BTreeSet;
use std::hint::black_box;
use std::process::ExitCode;
use std::time::Instant;

use committer::{Answer, Committer, Pcg};
use oracle::OwnPcg;
use runs::compare::List;
use runs::library::with_lists;
use runs::lists::chained;
use runs::random::Random;

const SEED: u64 = 1;
/// Lists that commit, those of `compare`.
const CHAINED: u64 = 1_500;
const RANDOM: u64 = 100_000;
/// Of each digest.
const DRAWS: u64 = 64;
/// Different digests of anchors.
const ANCHORS_LEAST: usize = 100;

type Digest = [u8; 32];

fn main() -> ExitCode {
    if !oracle::HAS_OWN_ORDER {
        eprintln!("the sources of rand are missing: see the README of the oracle");
        return ExitCode::FAILURE;
    }
    let Some(seed) = std::env::args().nth(1).map_or(Some(SEED), |text| text.parse().ok()) else {
        eprintln!("usage: draws [SEED], a number; {SEED} if left out");
        return ExitCode::from(2);
    };
    let anchors: BTreeSet<Digest> = (0..CHAINED).flat_map(|n| anchors(&chained(Random::of(seed, 5, n)))).collect();
    let mut random = Random::of(seed, 8, 0);
    let randoms = (0..RANDOM).map(|_| std::array::from_fn(|_| random.word() as u8));
    let mut digests = 0;
    for digest in anchors.iter().copied().chain(randoms) {
        if let Err(why) = same_draws(&digest) {
            println!("{why}");
            return ExitCode::FAILURE;
        }
        digests += 1;
    }
    println!(
        "seed {seed}: {} digests of anchors and {RANDOM} random ones, {} draws compared, no difference",
        anchors.len(),
        digests * DRAWS,
    );
    print_times();
    if anchors.len() < ANCHORS_LEAST {
        println!("too little was compared: {} digests of anchors, not {ANCHORS_LEAST}", anchors.len());
        return ExitCode::FAILURE;
    }
    ExitCode::SUCCESS
}

/// The digests of the anchors that a list hands out.
fn anchors(list: &List) -> Vec<Digest> {
    let mut committer = Committer::new(list.places);
    let mut digests = Vec::new();
    for call in &list.calls {
        if let Answer::Handed(anchors) | Answer::Refused(_, anchors) = committer.call(&with_lists(&committer, call)) {
            digests.extend(anchors.iter().map(|anchor| anchor.anchor.digest));
        }
    }
    digests
}

fn own(seed: Digest) -> OwnPcg {
    OwnPcg::from_seed(seed).expect("the sources are there")
}

fn same_draws(digest: &Digest) -> Result<(), String> {
    let mut ours = Pcg::from_digest(digest);
    let mut rust = own(*digest);
    for n in 1..=DRAWS {
        let (ours, rust) = (ours.next_u64(), rust.next_u64());
        if ours != rust {
            let digest: String = digest.iter().map(|byte| format!("{byte:02x}")).collect();
            return Err(format!("draw {n} of digest {digest}: {ours:016x}, rand_pcg's {rust:016x}"));
        }
    }
    Ok(())
}

/// Medians over turns of so many draws on each side.
const TURNS: usize = 301;
const TIMED: u32 = 100_000;

fn print_times() {
    let mut ours = Pcg::from_digest(&[1; 32]);
    let mut rust = own([1; 32]);
    let [mut our_times, mut rust_times] = [const { Vec::new() }; 2];
    for _ in 0..TURNS {
        our_times.push(nanoseconds(|| ours.next_u64()));
        rust_times.push(nanoseconds(|| rust.next_u64()));
    }
    let median = |mut times: Vec<f64>| {
        times.sort_unstable_by(f64::total_cmp);
        times[TURNS / 2]
    };
    println!("a draw: library {:.1} ns, rand_pcg {:.1} ns", median(our_times), median(rust_times));
}

fn nanoseconds(mut draw: impl FnMut() -> u64) -> f64 {
    let begun = Instant::now();
    for _ in 0..TIMED {
        black_box(draw());
    }
    begun.elapsed().as_secs_f64() * 1e9 / f64::from(TIMED)
}
