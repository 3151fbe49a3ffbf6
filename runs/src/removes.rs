//! Removes: buffers that are too small, on copies; which of several proofs is reported (entry 8); the inspector's memory beside the Rust's;
//! scores.

use std::collections::BTreeMap;

use committer::{Call, JournalDagEvent, PointId, Refusal, Refused, Removal, removal};

use crate::library::{Side, UNTOUCHED};
use crate::view::{Memory, View};

/// The remove on copies of a side that holds this, before it is made: into buffers of no byte, 4, half of those needed and one less, where
/// it must say 21 and write nothing, and into one of just the bytes needed. How many were too small, or what is wrong.
pub fn smaller_buffers<S: Side>(ours: &S, round: u32, since: Option<u32>, view: &View) -> Result<u64, String> {
    let before = ours.fingerprint();
    let mut large = vec![UNTOUCHED; most_bytes(view)];
    let (given, after) = ours.would_remove(round, since, &mut large);
    if let Err(why) = given {
        let empty = ours.would_remove(round, since, &mut []);
        if after != before || empty != (given, before) || large.iter().any(|byte| *byte != UNTOUCHED) {
            return Err(format!("{why}, and something was written, or another answer with an empty buffer"));
        }
        return Ok(0);
    }
    let length = removal(&large).ok_or("the answer can't be read")?.bytes();
    if large[length..].iter().any(|byte| *byte != UNTOUCHED) {
        return Err("bytes beyond the answer were written".into());
    }
    let mut exact = vec![UNTOUCHED; length];
    if ours.would_remove(round, since, &mut exact) != (Ok(()), after) || exact != large[..length] {
        return Err(format!("a buffer of just {length} bytes: refused, or other bytes or tables"));
    }
    let shorter = [0, 4, length / 2, length - 1];
    for length in shorter {
        let mut buffer = vec![UNTOUCHED; length];
        let given = ours.would_remove(round, since, &mut buffer);
        let due = (Err(Refused { refusal: Refusal::NoRoom, finished: 0 }), before);
        if given != due || buffer.iter().any(|byte| *byte != UNTOUCHED) {
            return Err(format!("a buffer of {length} bytes: {:?}, due 21, or something was written", given.0));
        }
    }
    Ok(shorter.len() as u64)
}

/// The bytes that suffice for any answer about so many points, rounds and entries (`COMMITTER_REMOVE_MAX`).
fn most_bytes(view: &View) -> usize {
    let points = view.points.len();
    let rounds = view.state.as_ref().map_or(0, |state| state.rounds.len());
    let entries: usize = view.memory.peers.values().map(|peer| peer.authored.len()).sum();
    997 + 75 * points + 320 * rounds + 37 * 34 * (points + entries)
}

/// Whether both report the same, but that the Rust may name a lesser proof of the same previous point and signer (entry 8). How many of its
/// events do; none if something else differs.
pub fn same(ours: &Removal, rust: &Removal, taken: &[&Call], before: &View) -> Option<u64> {
    if ours.peers != rust.peers || ours.events.len() != rust.events.len() {
        return None;
    }
    let signed = Signed { taken, before };
    let mut lesser = 0;
    for pair in ours.events.iter().zip(&rust.events).filter(|(ours, rust)| ours != rust) {
        match pair {
            (
                JournalDagEvent::EvidenceNoInclusion { signer, blamed, proofs },
                JournalDagEvent::EvidenceNoInclusion { signer: its_signer, blamed: its_blamed, proofs: its_proofs },
            ) if (signer, blamed) == (its_signer, its_blamed) => {
                let (ours, rust) = (signed.by_digest(*signer, proofs)?, signed.by_digest(*signer, its_proofs)?);
                let alike =
                    |((d, proof), (e, other)): ((_, &PointId), (_, &PointId))| d == e && other.digest <= proof.digest;
                if ours.len() != rust.len() || !ours.iter().zip(&rust).all(alike) {
                    return None;
                }
                lesser += 1;
            }
            _ => return None,
        }
    }
    Some(lesser)
}

/// What points give evidence of, by the resolutions taken and the memory before.
struct Signed<'a> {
    taken: &'a [&'a Call],
    before: &'a View,
}

impl Signed<'_> {
    /// The proofs by the digest that the signer signed. None if one of them is no proof of the signer's, or two are of one digest.
    fn by_digest(&self, signer: u32, proofs: &[PointId]) -> Option<BTreeMap<[u8; 32], PointId>> {
        let mut by_digest = BTreeMap::new();
        for proof in proofs {
            if by_digest.insert(self.of(signer, proof)?, *proof).is_some() {
                return None;
            }
        }
        Some(by_digest)
    }

    fn of(&self, signer: u32, proof: &PointId) -> Option<[u8; 32]> {
        if self.before.holds_round(proof.round) {
            let info = self.taken.iter().rev().find_map(|call| match call {
                Call::Resolve(id, info) if id == proof => Some(info),
                _ => None,
            })?;
            let previous = info.includes.iter().find(|link| link.peer == proof.author)?;
            return (info.evidence >> signer & 1 == 1).then_some(previous.digest);
        }
        let signed = &self.before.memory.peers.get(&signer)?.signed;
        signed.iter().find(|(_, proofs)| proofs.contains(proof)).map(|(digest, _)| *digest)
    }
}

/// Whether both remember the same, but that the Rust keeps one proof of a digest, ours or a lesser one. How many are lesser.
pub fn same_memory(ours: &Memory, rust: &Memory) -> Option<u64> {
    if ours.last != rust.last || !ours.peers.keys().eq(rust.peers.keys()) {
        return None;
    }
    let mut lesser = 0;
    for (peer, its) in ours.peers.values().zip(rust.peers.values()) {
        if peer.authored != its.authored || !peer.signed.keys().eq(its.signed.keys()) {
            return None;
        }
        for (proofs, its) in peer.signed.values().zip(its.signed.values()) {
            let [one] = its[..] else { return None };
            if !proofs.contains(&one) {
                return None;
            }
            lesser += u64::from(proofs.last() != Some(&one));
        }
    }
    Some(lesser)
}

/// Document 01's score: count times weight, by bands from 1, 10 and 100 on.
pub fn score(counters: &[u16; 9]) -> u32 {
    const WEIGHTS: [[u32; 3]; 9] =
        [[0, 0, 0], [2, 3, 4], [0, 0, 0], [0, 0, 0], [20, 40, 60], [5, 8, 12], [10, 15, 20], [10, 15, 20], [1, 2, 3]];
    let band = |count: u16| usize::from(count >= 10) + usize::from(count >= 100);
    counters.iter().zip(WEIGHTS).map(|(count, weights)| u32::from(*count) * weights[band(*count)]).sum()
}
