//! Draws of the generator: known ones, and those of the definition over numbers of 128 bits.

use committer::Pcg;

use crate::common::Noise;

/// A digest of a first byte, a byte 16 and a last byte.
fn digest(first: u8, middle: u8, last: u8) -> [u8; 32] {
    let mut digest = [0; 32];
    (digest[0], digest[16], digest[31]) = (first, middle, last);
    digest
}

#[test]
fn known_draws() {
    // the PCG suite's state 42 and stream 54
    let suite: &[u64] = &[
        0x86b1da1d72062b68,
        0x1304aa46c9853d39,
        0xa3670e9e0dd50358,
        0xf9090e529a7dae00,
        0xc85b9fd837996f2c,
        0x606121f8e3919196,
    ];
    let rows: [([u8; 32], &[u64]); 9] = [
        ([0; 32], &[0xd4feb4e5a4bcfe09, 0xe85a7fe071b026e6, 0x3a5b9037fe928c11, 0x7b044380d100f216]),
        ([0xff; 32], &[0x10c7e2e2ad774324, 0x37b886fba8936d78, 0xac1d4935eb33730f, 0x47a176960492b6ff]),
        // rand_pcg's own test
        (
            std::array::from_fn(|i| i as u8 + 1),
            &[8740028313290271629, 0x8f872b6c29ed479d, 0xbb46bb14f4e2e6d1, 0x5a7293535a9331f3],
        ),
        (digest(0x2a, 0x6d, 0), suite),
        // the lowest bit of the increment is set, so 6c is as good
        (digest(0x2a, 0x6c, 0), suite),
        (digest(0, 0, 1), &[0xfe30e5a4bcfe09d4, 0xcdd0b4fff8e3604d]),
        (digest(1, 0, 0), &[0x71564ba1920863f1, 0x06f710dff5126daf]),
        // rotations by 0 and 63
        (digest(0x1e, 0, 0), &[0x478237f8b6896a3f]),
        (digest(0x13, 0, 0), &[0x9398abe34ab3d0c0]),
    ];
    for (digest, draws) in rows {
        assert_eq!(Pcg::from_digest(&digest).take(draws.len()).collect::<Vec<u64>>(), draws, "{digest:02x?}");
    }
}

#[test]
fn first_states() {
    let zero = Pcg::from_digest(&[0; 32]);
    assert_eq!((zero.state(), zero.increment()), (0x2360ed051fc65da44385df649fccf646, 1));
    let ones = Pcg::from_digest(&[0xff; 32]);
    assert_eq!((ones.state(), ones.increment()), (0xb93e25f5c07344b778f44136c0661375, u128::MAX));
}

fn stepped(state: u128, increment: u128) -> u128 {
    state.wrapping_mul(0x2360ED051FC65DA44385DF649FCCF645).wrapping_add(increment)
}

fn output(state: u128) -> u64 {
    ((state >> 64) as u64 ^ state as u64).rotate_right((state >> 122) as u32)
}

#[test]
fn draws_by_definition() {
    let mut noise = Noise::new(1);
    for n in 0..20_000 {
        let bytes: [u8; 32] = std::array::from_fn(|_| noise.word() as u8);
        let number = |from: usize| u128::from_le_bytes(bytes[from..from + 16].try_into().expect("16 bytes"));
        let (mut state, mut increment) = (number(0), number(16) | 1);
        state = stepped(state.wrapping_add(increment), increment);
        let mut generator = Pcg::from_digest(&bytes);
        assert_eq!((generator.state(), generator.increment()), (state, increment));
        if n % 2 == 1 {
            // of any state and increment, as they are
            (state, increment) = (number(0), number(16));
            generator = Pcg::from_parts(state, increment);
        }
        for _ in 0..8 {
            state = stepped(state, increment);
            assert_eq!(generator.next_u64(), output(state));
            assert_eq!((generator.state(), generator.increment()), (state, increment));
        }
    }
}
