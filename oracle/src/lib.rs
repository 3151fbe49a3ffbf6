//! The committer of broxus/tycho, its sources unchanged, driven by calls with plain numbers. README.md says what is
//! unchanged, what is a shim and what a stand-in.

// Read from the sources, or stand-ins for what those name.
#[allow(unused, non_local_definitions, unexpected_cfgs, clippy::all)]
mod dag;
#[allow(unused, clippy::all)]
mod effects;
#[allow(unused, clippy::all)]
mod engine;
#[allow(unused, clippy::all)]
mod intercom;
#[allow(unused, non_local_definitions, unexpected_cfgs, clippy::all)]
mod models;
#[allow(unused, clippy::all)]
mod moderator;
#[allow(unused, clippy::all)]
mod storage;

// The driver's side.
mod calls;
mod convert;
mod outcome;
mod reads;
mod types;

pub use calls::{Oracle, PlaceLists};
pub use outcome::Outcome;
pub use rand::{HAS_OWN as HAS_OWN_ORDER, OWN as OWN_ORDER, OwnPcg};
pub use types::*;

/// For this thread. Maps made from now on take this seed; those that exist keep theirs, also the ones that the thread
/// keeps to hand heights on. So set it before a thread's first call, and run each seed in a thread of its own.
pub fn set_hash_seed(seed: u64) {
    ahash::set_seed(seed);
}

/// For this thread. 0, as at the beginning: points inside a round are tested by rising digest, and come out by falling
/// digest. Any other number chooses permutations; `OWN_ORDER` those of the Rust, if `HAS_OWN_ORDER`.
pub fn set_shuffle_order(order: u64) {
    rand::set_order(order);
}
