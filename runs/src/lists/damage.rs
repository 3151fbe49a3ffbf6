//! Damaged copies of good lists: a call dropped, doubled, exchanged, a field changed.

use committer::{Call, Link, PointId, PointInfo, Start};

use crate::compare::List;
use crate::random::Random;

/// The list with one to three damages.
pub fn damaged(mut list: List, mut random: Random) -> List {
    for _ in 0..random.within(1, 3) {
        damage(&mut list.calls, &mut random);
    }
    list
}

fn damage(calls: &mut Vec<Call>, random: &mut Random) {
    let count = calls.len() as u32;
    if count < 2 {
        return;
    }
    let at = random.below(count) as usize;
    let other = random.below(count) as usize;
    match random.below(6) {
        0 => drop(calls.remove(at)),
        1 => calls.insert(other, calls[at].clone()),
        2 => calls.swap(at, other),
        _ => {
            let digest = any_digest(&calls[other]);
            change(&mut calls[at], digest, random);
        }
    }
}

fn any_digest(call: &Call) -> [u8; 32] {
    match call {
        Call::Name(id) | Call::Certify(id) | Call::Resolve(id, _) => id.digest,
        _ => [0; 32],
    }
}

fn change(call: &mut Call, digest: [u8; 32], random: &mut Random) {
    match call {
        Call::Start(with) => change_start(with, random),
        Call::Round { round, peers } => {
            if random.chance(50) {
                near(round, random);
            } else {
                *peers ^= 1 << random.below(32);
            }
        }
        Call::Name(id) | Call::Certify(id) | Call::Commit(id, _) | Call::Outlook(id) => change_id(id, digest, random),
        Call::Resolve(id, info) => {
            if random.chance(25) {
                change_id(id, digest, random);
            } else {
                change_info(info, digest, random);
            }
            // the Rust has no other for a proof
            if info.proof {
                info.top_proof = *id;
            }
        }
        Call::Drop(round) => near(round, random),
        Call::Remove { round, since } => match random.below(3) {
            0 => *since = None,
            1 => *since = Some(*round - random.below(*round + 1)),
            _ => near(round, random),
        },
        Call::Gap | Call::Reset => {}
    }
}

fn near(round: &mut u32, random: &mut Random) {
    *round = if random.chance(50) { round.saturating_add(1) } else { round.saturating_sub(1) };
}

fn change_start(with: &mut Start, random: &mut Random) {
    match random.below(7) {
        0 => near(&mut with.genesis, random),
        1 => near(&mut with.bottom, random),
        2 => with.commit_history_rounds = random.below(4),
        3 => with.deduplicate_rounds ^= 1 << random.below(18),
        4 => with.peers ^= 1 << random.below(32),
        5 => with.after_gap = !with.after_gap,
        _ => with.used = random.chance(50).then(|| random.below(40)),
    }
}

fn change_id(id: &mut PointId, digest: [u8; 32], random: &mut Random) {
    match random.below(4) {
        0 => near(&mut id.round, random),
        1 => id.author = random.below(34),
        2 => id.digest = digest,
        _ => id.digest[random.below(32) as usize] ^= 1 << random.below(8),
    }
}

fn change_info(info: &mut PointInfo, digest: [u8; 32], random: &mut Random) {
    match random.below(8) {
        0 => info.status = random.below(7),
        1 => info.proof = !info.proof,
        2 => info.trigger = !info.trigger,
        3 => info.evidence ^= 1 << random.below(32),
        4 => change_id(&mut info.top_proof, digest, random),
        5 => info.cause = !info.cause,
        6 => change_links(&mut info.includes, digest, random),
        _ => change_links(&mut info.witness, digest, random),
    }
}

fn change_links(links: &mut Vec<Link>, digest: [u8; 32], random: &mut Random) {
    let count = links.len() as u32;
    let added = Link { peer: random.below(34), digest };
    if count == 0 {
        return links.push(added);
    }
    let at = random.below(count) as usize;
    match random.below(5) {
        0 => drop(links.remove(at)),
        1 => links.insert(at, added),
        2 => links[at].peer = random.below(34),
        3 => links[at].digest = digest,
        _ => links.swap(at, random.below(count) as usize),
    }
}
