//! Traces of random lists of calls, and damaged ones: bytes changed, cut out, doubled, traces cut and joined, lengths, versions and kinds changed.

use committer::{Call, Committer, record};

use crate::library::with_lists;
use crate::lists::{chained, damaged, grown, removing};
use crate::play::PLACES;
use crate::random::Random;

/// Calls, and the records of them.
#[derive(Clone, Debug, Default)]
pub struct Trace {
    pub calls: Vec<Call>,
    pub bytes: Vec<u8>,
    /// where the records begin
    pub records: Vec<usize>,
    /// calls that have no record and were left out
    pub left_out: usize,
}

impl Trace {
    /// The records of the calls, their commits with place lists that hand out most on the tables of the programs.
    pub fn of(calls: &[Call]) -> Trace {
        let mut committer = Committer::new(PLACES);
        let mut trace = Trace::default();
        for call in calls {
            let call = with_lists(&committer, call);
            match record::encode(&call) {
                Ok(bytes) => {
                    committer.call(&call);
                    trace.records.push(trace.bytes.len());
                    trace.bytes.extend(bytes);
                    trace.calls.push(call);
                }
                Err(_) => trace.left_out += 1,
            }
        }
        trace
    }
}

/// The first calls of a random list, or some of them with damages of their own.
pub fn short(random: &mut Random) -> Trace {
    let other = Random::new(random.word());
    let mut list = match random.below(3) {
        0 => grown(other),
        1 => chained(other),
        _ => removing(other),
    };
    list.calls.truncate(random.within(3, 120) as usize);
    if random.chance(25) {
        list = damaged(list, Random::new(random.word()));
    }
    Trace::of(&list.calls)
}

/// Random lists one after the other, with a reset between any two, of so many bytes at least.
pub fn long(random: &mut Random, bytes: usize) -> Trace {
    let (mut calls, mut length) = (Vec::new(), 0);
    while length < bytes {
        let list =
            if random.chance(50) { chained(Random::new(random.word())) } else { removing(Random::new(random.word())) };
        length += Trace::of(&list.calls).bytes.len();
        calls.extend(list.calls);
        calls.push(Call::Reset);
    }
    Trace::of(&calls)
}

/// The bytes of a trace with one to four damages, or with some bytes of fields changed, so that its records stay whole.
pub fn damaged_bytes(trace: &Trace, random: &mut Random) -> Vec<u8> {
    let mut bytes = trace.bytes.clone();
    let fields = random.chance(40);
    for _ in 0..random.within(1, 4) {
        if fields && !trace.records.is_empty() {
            let at = random.pick(&trace.records) + HEAD + random.below(90) as usize;
            if !trace.records.iter().any(|record| (*record..record + HEAD).contains(&at)) {
                change(&mut bytes, at, random);
            }
        } else {
            damage(&mut bytes, &trace.records, random);
        }
    }
    bytes
}

/// Length, version and kind of a record.
const HEAD: usize = 6;

/// A place in the bytes or behind them.
fn at(bytes: &[u8], random: &mut Random) -> usize {
    random.below(bytes.len() as u32 + 1) as usize
}

fn damage(bytes: &mut Vec<u8>, records: &[usize], random: &mut Random) {
    let (from, to) = (at(bytes, random), at(bytes, random));
    let (from, to) = (from.min(to), from.max(to));
    let few = to.min(from + 1 + random.below(60) as usize);
    match random.below(9) {
        0 => bytes.truncate(to),
        1 => drop(bytes.drain(from..few)),
        2 => bytes.splice(to..to, bytes[from..few].to_vec()).for_each(drop),
        3 => bytes.extend((0..random.within(1, 12)).map(|_| random.word() as u8).collect::<Vec<_>>()),
        4 => {
            let joined = [&short(random).bytes, &bytes[from..]].concat();
            *bytes = joined;
        }
        5 | 6 => change(bytes, to, random),
        _ => head(bytes, records, random),
    }
}

/// A byte, or one bit of it.
fn change(bytes: &mut [u8], at: usize, random: &mut Random) {
    let (any, bit) = (random.word() as u8, 1 << random.below(8));
    if let Some(byte) = bytes.get_mut(at) {
        *byte = if random.chance(50) { any } else { *byte ^ bit };
    }
}

/// The length, version or kind of a record that stood there before other damages.
fn head(bytes: &mut [u8], records: &[usize], random: &mut Random) {
    if records.is_empty() {
        return;
    }
    let record = *random.pick(records);
    let (offset, value) = match random.below(6) {
        0 => (random.below(4) as usize, random.word() as u8),
        1 => (4, random.below(4) as u8),
        2 => (5, random.below(14) as u8),
        3 => (5, random.word() as u8),
        // the last byte of the length, a few more or less
        _ => (3, bytes.get(record + 3).map_or(0, |byte| byte.wrapping_add(random.below(5) as u8).wrapping_sub(2))),
    };
    if let Some(byte) = bytes.get_mut(record + offset) {
        *byte = value;
    }
}
