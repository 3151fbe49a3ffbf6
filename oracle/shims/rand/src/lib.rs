//! `shuffle` in an order that can be set, which keeps what it did: the numbers from 0 on are shuffled, applied to the
//! slice and kept. The sources sort before they shuffle, so a number kept is a point's rank by digest. One of the orders
//! is the Rust's own, where the sources of `rand` and `rand_pcg` are there.

use std::cell::{Cell, RefCell};

/// The numbers of each shuffle, by generators made.
pub type Kept = Vec<Vec<Vec<u8>>>;

thread_local! {
    static ORDER: Cell<u64> = const { Cell::new(0) };
    static KEPT: RefCell<Kept> = const { RefCell::new(Vec::new()) };
}

/// The order that is the Rust's own: `rand` 0.8.5 and `rand_pcg` 0.3.1 shuffle the numbers. Without their sources it is
/// one as any other.
pub const OWN: u64 = u64::MAX;
pub const HAS_OWN: bool = cfg!(own_rand);

/// For this thread. 0: `shuffle` leaves the order as it is; any other number chooses the permutations, which differ
/// from generator to generator and from shuffle to shuffle.
pub fn set_order(order: u64) {
    ORDER.set(order);
}

/// What was kept since the last call, of this thread.
pub fn take_kept() -> Kept {
    KEPT.take()
}

/// The sources name it under cfg(test).
pub fn random<T>() -> T {
    unimplemented!("nothing is random")
}

pub trait SeedableRng {
    type Seed;
    fn from_seed(seed: Self::Seed) -> Self;
}

/// The generator that `rand_pcg` hands out.
pub struct Draws {
    state: u64,
    #[cfg(own_rand)]
    own: own::Pcg64,
}

#[cfg(own_rand)]
mod own {
    extern crate own_pcg;
    extern crate own_rand;

    pub use own_pcg::Pcg64;
    pub use own_rand::seq::SliceRandom;
    pub use own_rand::{RngCore, SeedableRng};
}

/// `Pcg64` of `rand_pcg` itself. Without its source there is none.
pub struct OwnPcg {
    #[cfg(own_rand)]
    pcg: own::Pcg64,
    #[cfg(not(own_rand))]
    none: std::convert::Infallible,
}

impl OwnPcg {
    #[cfg(own_rand)]
    pub fn from_seed(seed: [u8; 32]) -> Option<OwnPcg> {
        Some(OwnPcg { pcg: own::SeedableRng::from_seed(seed) })
    }

    #[cfg(not(own_rand))]
    pub fn from_seed(_: [u8; 32]) -> Option<OwnPcg> {
        None
    }

    #[inline]
    pub fn next_u64(&mut self) -> u64 {
        #[cfg(own_rand)]
        return own::RngCore::next_u64(&mut self.pcg);
        #[cfg(not(own_rand))]
        match self.none {}
    }
}

impl Draws {
    pub fn from_seed(seed: [u8; 32]) -> Draws {
        KEPT.with_borrow_mut(|kept| kept.push(Vec::new()));
        Draws {
            state: seed.into_iter().fold(ORDER.get(), |state, byte| next(state ^ u64::from(byte))),
            #[cfg(own_rand)]
            own: own::SeedableRng::from_seed(seed),
        }
    }

    fn below(&mut self, count: usize) -> usize {
        self.state = next(self.state);
        (self.state >> 33) as usize % count
    }

    fn shuffled(&mut self, count: usize) -> Vec<u8> {
        assert!(count <= 256, "a number is a byte");
        let mut numbers: Vec<u8> = (0..=255).take(count).collect();
        match ORDER.get() {
            0 => {}
            #[cfg(own_rand)]
            OWN => own::SliceRandom::shuffle(&mut numbers[..], &mut self.own),
            _ => (1..count).rev().for_each(|last| numbers.swap(last, self.below(last + 1))),
        }
        numbers
    }
}

fn next(state: u64) -> u64 {
    state.wrapping_mul(6_364_136_223_846_793_005).wrapping_add(1_442_695_040_888_963_407)
}

pub mod prelude {
    use super::{Draws, KEPT};

    pub trait SliceRandom {
        fn shuffle<R: AsMut<Draws>>(&mut self, rng: &mut R);
    }

    impl<T: Clone> SliceRandom for [T] {
        fn shuffle<R: AsMut<Draws>>(&mut self, rng: &mut R) {
            let numbers = rng.as_mut().shuffled(self.len());
            let sorted = self.to_vec();
            for (to, number) in self.iter_mut().zip(&numbers) {
                to.clone_from(&sorted[usize::from(*number)]);
            }
            KEPT.with_borrow_mut(|kept| kept.last_mut().expect("a generator is made first").push(numbers));
        }
    }
}
