//! The shortest list that still shows a difference: calls are taken away, then fields are made simpler.

use std::collections::BTreeMap;
use std::time::{Duration, Instant};

use committer::{Call, PointId, PointInfo, Start};

use crate::compare::{Difference, Kind, List, compare};
use crate::counts::Counts;
use crate::library::Side;

/// A list of thousands of calls isn't made shorter for longer than this.
const LONGEST: Duration = Duration::from_secs(30);

/// The list without what the difference doesn't need, and the difference that it shows.
pub fn shrink<S: Side>(list: &List, found: &Difference) -> (List, Difference) {
    let mut shown = Shown::<S>::new(list, found);
    loop {
        let before = shown.list.clone();
        shown.fewer_calls();
        shown.fewer_places();
        shown.plainer_order();
        shown.later_starts();
        shown.simpler_calls();
        shown.lower_rounds();
        shown.smaller_digests();
        if shown.list == before {
            return (shown.list, shown.found);
        }
    }
}

struct Shown<S> {
    list: List,
    found: Difference,
    kind: Kind,
    until: Instant,
    side: std::marker::PhantomData<S>,
}

impl<S: Side> Shown<S> {
    fn new(list: &List, found: &Difference) -> Self {
        let mut list = list.clone();
        list.calls.truncate(found.at + 1);
        Shown {
            list,
            found: found.clone(),
            kind: found.kind,
            until: Instant::now() + LONGEST,
            side: std::marker::PhantomData,
        }
    }

    /// Takes another list if it shows a difference of the same kind. Calls after that difference go.
    fn take(&mut self, mut list: List) -> bool {
        if Instant::now() > self.until {
            return false;
        }
        match compare::<S>(&list, &mut Counts::default()) {
            Err(found) if found.kind == self.kind => {
                list.calls.truncate(found.at + 1);
                self.list = list;
                self.found = found;
                true
            }
            _ => false,
        }
    }

    /// Takes away runs of calls, half of the list at first, single ones at last.
    fn fewer_calls(&mut self) {
        let mut run = self.list.calls.len().div_ceil(2);
        while run > 0 {
            let mut at = 0;
            while at < self.list.calls.len() {
                let mut list = self.list.clone();
                list.calls.drain(at..(at + run).min(list.calls.len()));
                if !self.take(list) {
                    at += run;
                }
            }
            run /= 2;
        }
    }

    fn fewer_places(&mut self) {
        for places in [1, 2, 4, 8, 16, 32] {
            if places < self.list.places && self.take(List { places, ..self.list.clone() }) {
                return;
            }
        }
    }

    /// Nothing shuffled, or the first order.
    fn plainer_order(&mut self) {
        for order in [0, 1] {
            if order < self.list.order && self.take(List { order, ..self.list.clone() }) {
                return;
            }
        }
    }

    /// Starts at the round that is added next, which then needs no call.
    fn later_starts(&mut self) {
        let mut at = 0;
        while at < self.list.calls.len() {
            if !later_start(&self.list, at).is_some_and(|list| self.take(list)) {
                at += 1;
            }
        }
    }

    /// Moves all rounds down, so that the lowest is 10.
    fn lower_rounds(&mut self) {
        let mut list = self.list.clone();
        let mut lowest = u32::MAX;
        list.calls.iter_mut().for_each(|call| each_round(call, &mut |round| lowest = lowest.min(*round)));
        if lowest > LOWEST {
            list.calls.iter_mut().for_each(|call| each_round(call, &mut |round| *round -= lowest - LOWEST));
            self.take(list);
        }
    }

    fn simpler_calls(&mut self) {
        let mut at = 0;
        while at < self.list.calls.len() {
            if !self.simpler_call(at) {
                at += 1;
            }
        }
    }

    fn simpler_call(&mut self, at: usize) -> bool {
        simpler(&self.list.calls[at]).into_iter().any(|call| {
            let mut list = self.list.clone();
            list.calls[at] = call;
            self.take(list)
        })
    }

    /// Digests of one byte, in the same order.
    fn smaller_digests(&mut self) {
        let mut digests = BTreeMap::new();
        let mut list = self.list.clone();
        list.calls.iter_mut().for_each(|call| {
            each_digest(call, &mut |digest| {
                digests.insert(*digest, [0; 32]);
            })
        });
        for (n, small) in (1u16..).zip(digests.values_mut()) {
            small[..2].copy_from_slice(&n.to_be_bytes());
        }
        list.calls.iter_mut().for_each(|call| each_digest(call, &mut |digest| *digest = digests[digest]));
        if list != self.list {
            self.take(list);
        }
    }
}

/// The round that lists in DIFFERENCES.md mostly begin at.
const LOWEST: u32 = 10;

/// The list whose start at this call takes the place of the round that is added next. None if there is no such start or round.
fn later_start(list: &List, at: usize) -> Option<List> {
    let next = at + (list.calls[at..].iter()).position(|call| matches!(call, Call::Round { .. }))?;
    let mut list = list.clone();
    let Call::Round { round, peers } = list.calls.remove(next) else {
        return None;
    };
    let Call::Start(with) = &mut list.calls[at] else {
        return None;
    };
    (with.genesis, with.bottom, with.peers) = (round, round, peers);
    Some(list)
}

/// The rounds of a call, but for those of top proofs, which may be any.
fn each_round(call: &mut Call, f: &mut impl FnMut(&mut u32)) {
    match call {
        Call::Start(with) => {
            f(&mut with.genesis);
            f(&mut with.bottom);
        }
        Call::Round { round, .. } | Call::Drop(round) | Call::Remove { round, .. } => f(round),
        Call::Name(id) | Call::Certify(id) | Call::Commit(id, _) | Call::Outlook(id) => f(&mut id.round),
        Call::Resolve(id, info) => {
            f(&mut id.round);
            if info.proof {
                f(&mut info.top_proof.round);
            }
        }
        Call::Gap | Call::Reset => {}
    }
}

fn each_digest(call: &mut Call, f: &mut impl FnMut(&mut [u8; 32])) {
    match call {
        Call::Name(id) | Call::Certify(id) | Call::Commit(id, _) | Call::Outlook(id) => f(&mut id.digest),
        Call::Resolve(id, info) => {
            f(&mut id.digest);
            f(&mut info.top_proof.digest);
            info.includes.iter_mut().chain(&mut info.witness).for_each(|link| f(&mut link.digest));
        }
        _ => {}
    }
}

/// Calls with one thing simpler, each.
fn simpler(call: &Call) -> Vec<Call> {
    match call {
        Call::Start(with) => simpler_starts(with).into_iter().map(Call::Start).collect(),
        Call::Round { round, peers } => {
            fewer_peers(*peers).into_iter().map(|peers| Call::Round { round: *round, peers }).collect()
        }
        Call::Resolve(id, info) => simpler_infos(id, info).into_iter().map(|info| Call::Resolve(*id, info)).collect(),
        Call::Remove { round, .. } => [None, Some(0)].map(|since| Call::Remove { round: *round, since }).into(),
        _ => Vec::new(),
    }
    .into_iter()
    .filter(|other| other != call)
    .collect()
}

/// Without one peer.
fn fewer_peers(peers: u32) -> Vec<u32> {
    (0..32).rev().map(|n| peers & !(1 << n)).filter(|fewer| *fewer != peers).collect()
}

fn simpler_starts(with: &Start) -> Vec<Start> {
    let mut starts = vec![
        Start { deduplicate_rounds: 0, ..*with },
        Start { after_gap: false, ..*with },
        Start { used: None, ..*with },
        Start { genesis: with.bottom, ..*with },
    ];
    starts.extend(
        [1, 2, 3]
            .into_iter()
            .filter(|h| *h < with.commit_history_rounds)
            .map(|h| Start { commit_history_rounds: h, ..*with }),
    );
    starts.extend(fewer_peers(with.peers).into_iter().map(|peers| Start { peers, ..*with }));
    starts
}

/// A proof keeps itself as its top proof: the Rust has no other.
fn simpler_infos(id: &PointId, info: &PointInfo) -> Vec<PointInfo> {
    let top_proof = if info.proof { *id } else { PointId::default() };
    let mut infos = vec![
        PointInfo { includes: Vec::new(), ..info.clone() },
        PointInfo { witness: Vec::new(), ..info.clone() },
        PointInfo { evidence: 0, ..info.clone() },
        PointInfo { payload_len: 0, ..info.clone() },
        PointInfo { payload_bytes: 0, ..info.clone() },
        PointInfo { trigger: false, ..info.clone() },
        PointInfo { cause: false, ..info.clone() },
        PointInfo { proof: false, top_proof: PointId::default(), ..info.clone() },
        PointInfo { top_proof, ..info.clone() },
    ];
    infos.extend((0..info.includes.len()).rev().map(|n| {
        let mut fewer = info.clone();
        fewer.includes.remove(n);
        fewer
    }));
    infos.extend((0..info.witness.len()).rev().map(|n| {
        let mut fewer = info.clone();
        fewer.witness.remove(n);
        fewer
    }));
    infos.push(PointInfo { status: 1, ..info.clone() });
    infos
}
