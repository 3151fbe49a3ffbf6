//! Lists that commit: a leader's anchor, proof and trigger follow each other, the points of the others are linked round by round, most
//! anchors are certified, some triggers are passed over, so that a commit yields several anchors. What is behind is removed, at every
//! distance from the last anchor; points give evidence, and second ones share their previous point. Faults come seldom: a status, a point
//! that isn't resolved, an anchor that isn't certified, a leader's point that is another than the chain asks for.

use std::collections::BTreeMap;

use committer::{Call, Link, PointId, PointInfo, Start};

use crate::compare::List;
use crate::lists::{Payloads, commit, digest};
use crate::random::Random;

/// What a list is like. Percentages, but for `peers`.
struct Taste {
    peers: u32,
    /// of the others that aren't peers of a round
    away: u32,
    /// of the other peers that have a point in a round
    present: u32,
    include: u32,
    witness: u32,
    second: u32,
    /// of the peers that signed a point's previous one
    signed: u32,
    /// of the links that would lead below the start
    blind: u32,
    /// in a thousand points, of the others
    bad_status: u32,
    /// of the points of another status than valid that no other links to; half as many of the trans-invalid ones
    shunned: u32,
    late: u32,
    certified: u32,
    commits: u32,
    /// after a commit
    removes: u32,
    drops: u32,
    asked: u32,
    /// in a thousand rounds
    resets: u32,
    /// in a thousand points, of the leader
    broken: u32,
    /// whether places that a remove frees are counted on
    tight: bool,
    /// of the start
    after_gap: u32,
    commit_history_rounds: u32,
    deduplicate_rounds: u32,
}

struct Held {
    id: PointId,
    resolved: bool,
    shunned: bool,
}

struct Chains {
    random: Random,
    payloads: Payloads,
    taste: Taste,
    calls: Vec<Call>,
    rounds: BTreeMap<u32, Vec<Held>>,
    /// points of the rounds that take places
    places: BTreeMap<u32, usize>,
    named: u32,
    /// most places taken at once
    most: usize,
    with: Start,
    /// the proof that the next anchor leads to
    last_committed_proof: PointId,
    leader: u32,
    anchor: Option<PointId>,
    /// rounds until the next anchor
    wait: u32,
    stage: u32,
    triggers: Vec<PointId>,
    /// the round of the last anchor that was to be handed out
    handed: Option<u32>,
}

/// One list.
pub fn chained(mut random: Random) -> List {
    let taste = Taste {
        peers: *random.pick(&[1, 2, 3, 4, 4, 6, 9]),
        away: *random.pick(&[0, 0, 15]),
        present: *random.pick(&[60, 90, 100]),
        include: *random.pick(&[40, 80, 100]),
        witness: *random.pick(&[0, 20, 60]),
        second: *random.pick(&[0, 10, 30]),
        signed: *random.pick(&[0, 30, 60]),
        blind: *random.pick(&[0, 50]),
        bad_status: *random.pick(&[0, 5, 20, 60, 150]),
        shunned: *random.pick(&[0, 100, 100]),
        late: *random.pick(&[0, 0, 5, 30]),
        certified: *random.pick(&[100, 100, 98, 80]),
        commits: *random.pick(&[20, 50, 80, 100]),
        removes: *random.pick(&[0, 40, 80, 80]),
        drops: *random.pick(&[0, 0, 3, 8]),
        asked: *random.pick(&[100, 90, 60]),
        resets: *random.pick(&[0, 0, 20, 60]),
        broken: *random.pick(&[0, 0, 0, 10, 40]),
        tight: random.chance(25),
        after_gap: 25,
        commit_history_rounds: *random.pick(&[1, 2, 2, 3, 4, 6, 12, 255]),
        deduplicate_rounds: *random.pick(&[0, 0, 2, 7, 65_535]),
    };
    let rounds = random.within(8, 34);
    list(Chains::new(random, taste), rounds)
}

/// One list whose triggers mostly wait, so that a commit yields several anchors, with long histories, which overlap. Next to nothing is wrong.
pub fn waiting(mut random: Random) -> List {
    let taste = Taste {
        peers: *random.pick(&[1, 2, 3, 3, 4]),
        away: *random.pick(&[0, 0, 15]),
        present: *random.pick(&[60, 100]),
        include: *random.pick(&[40, 80, 100]),
        witness: *random.pick(&[0, 20, 60]),
        second: *random.pick(&[0, 10]),
        signed: 0,
        blind: *random.pick(&[0, 50]),
        bad_status: *random.pick(&[0, 0, 20]),
        shunned: 100,
        late: 0,
        certified: *random.pick(&[100, 100, 100, 95]),
        commits: *random.pick(&[15, 25, 40]),
        removes: *random.pick(&[0, 40]),
        drops: 0,
        asked: 100,
        resets: 0,
        broken: 0,
        tight: random.chance(25),
        after_gap: 25,
        commit_history_rounds: *random.pick(&[2, 3, 4, 6, 9, 12, 255]),
        deduplicate_rounds: *random.pick(&[0, 0, 2, 7]),
    };
    let rounds = random.within(14, 34);
    list(Chains::new(random, taste), rounds)
}

/// One list with much to report: most anchors are handed out and followed by a remove, many points are of another status or second ones,
/// which no other links to, and give evidence.
pub fn removing(mut random: Random) -> List {
    let taste = Taste {
        peers: *random.pick(&[2, 3, 4, 5, 7]),
        away: *random.pick(&[0, 10, 25]),
        present: *random.pick(&[80, 100]),
        include: *random.pick(&[30, 60, 90]),
        witness: *random.pick(&[0, 20, 60]),
        second: *random.pick(&[10, 30, 60]),
        signed: *random.pick(&[30, 60, 90]),
        blind: *random.pick(&[0, 80, 100]),
        bad_status: *random.pick(&[100, 250, 500]),
        shunned: 100,
        late: *random.pick(&[0, 0, 40]),
        certified: 100,
        commits: *random.pick(&[60, 100, 100]),
        removes: *random.pick(&[50, 90, 100]),
        drops: *random.pick(&[0, 0, 2]),
        asked: 100,
        resets: *random.pick(&[0, 0, 20, 60]),
        broken: 0,
        tight: false,
        after_gap: *random.pick(&[0, 0, 50]),
        commit_history_rounds: *random.pick(&[1, 1, 2, 3, 5]),
        deduplicate_rounds: *random.pick(&[0, 0, 1, 4]),
    };
    let rounds = random.within(12, 30);
    list(Chains::new(random, taste), rounds)
}

fn list(mut chains: Chains, rounds: u32) -> List {
    chains.start();
    for _ in 0..rounds {
        if chains.in_thousand(chains.taste.resets) {
            chains.restart();
        }
        chains.round();
    }
    // the triggers once more, oldest and newest first
    let last = [chains.triggers.first().copied(), chains.triggers.last().copied()];
    chains.calls.extend(last.into_iter().flatten().map(commit));
    chains.remove();
    List { places: chains.most, calls: chains.calls, order: chains.random.word() }
}

impl Chains {
    fn new(random: Random, taste: Taste) -> Chains {
        let payloads = Payloads::of(&random);
        Chains {
            random,
            payloads,
            taste,
            calls: Vec::new(),
            rounds: BTreeMap::new(),
            places: BTreeMap::new(),
            named: 0,
            most: 1,
            with: Start::default(),
            last_committed_proof: PointId::default(),
            leader: 0,
            anchor: None,
            wait: 1,
            stage: 0,
            triggers: Vec::new(),
            handed: None,
        }
    }

    fn start(&mut self) {
        let random = &mut self.random;
        let genesis = *random.pick(&[1, 3, 10, 10, 1000]);
        let with = Start {
            genesis,
            commit_history_rounds: self.taste.commit_history_rounds,
            deduplicate_rounds: self.taste.deduplicate_rounds,
            bottom: genesis + *random.pick(&[0, 0, 0, 1, 2, 4, 9]),
            peers: self.peers(None),
            after_gap: self.random.chance(self.taste.after_gap),
            used: if self.random.chance(85) { Some(0) } else { None },
        };
        self.start_with(with);
    }

    fn start_with(&mut self, with: Start) {
        self.with = with;
        self.calls.push(Call::Start(with));
        if with.after_gap && self.random.chance(self.taste.asked) {
            self.calls.push(Call::Gap);
        }
        self.last_committed_proof = PointId { round: with.bottom, author: 0, digest: self.digest() };
        self.rounds.insert(with.bottom, Vec::new());
        if self.random.chance(50) {
            self.add_points(with.bottom, with.peers & !1);
        }
    }

    /// Points of these peers, at times several of one.
    fn add_points(&mut self, round: u32, peers: u32) {
        for author in (0..self.taste.peers).filter(|author| peers >> author & 1 == 1) {
            if self.random.chance(self.taste.present) {
                let id = self.name(round, author);
                self.settle(id);
                while self.random.chance(self.taste.second) && self.versions(round, author) < 4 {
                    let id = self.name(round, author);
                    self.settle(id);
                }
            }
        }
    }

    /// A reset, and a start at the bottom as removes left it, a little above it, or at the top.
    fn restart(&mut self) {
        let (bottom, top) = (self.bottom(), self.top());
        let bottom = *self.random.pick(&[bottom, bottom, bottom + 1, bottom + 3, top]);
        self.calls.push(Call::Reset);
        self.rounds.clear();
        self.places.clear();
        self.triggers.clear();
        (self.leader, self.anchor, self.wait, self.stage, self.handed) = (0, None, 1, 0, None);
        let after_gap = self.random.chance(self.taste.after_gap / 2);
        let peers = self.peers(None);
        self.start_with(Start { bottom, after_gap, peers, ..self.with });
    }

    fn bottom(&self) -> u32 {
        *self.rounds.keys().next().expect("started")
    }

    /// The leader and most others.
    fn peers(&mut self, leader: Option<u32>) -> u32 {
        let stays = |random: &mut Random, peer| leader == Some(peer) || !random.chance(self.taste.away);
        (0..self.taste.peers).filter(|peer| stays(&mut self.random, *peer)).map(|peer| 1 << peer).sum()
    }

    fn top(&self) -> u32 {
        *self.rounds.keys().next_back().expect("started")
    }

    /// Any digest of the list comes once; their order has nothing to do with that of the points.
    fn digest(&mut self) -> [u8; 32] {
        self.named += 1;
        digest(self.named.wrapping_mul(2_654_435_761))
    }

    fn in_thousand(&mut self, times: u32) -> bool {
        self.random.below(1000) < times
    }

    fn round(&mut self) {
        let round = self.top() + 1;
        let stage = self.next_stage();
        let leader = self.leader;
        let peers = self.peers(Some(leader));
        self.calls.push(Call::Round { round, peers });
        self.rounds.insert(round, Vec::new());
        let lead = self.name(round, leader);
        self.add_points(round, peers & !(1 << leader));
        self.lead(lead, stage);
        self.catch_up();
        self.disturb();
    }

    fn versions(&self, round: u32, author: u32) -> usize {
        self.rounds[&round].iter().filter(|point| point.id.author == author).count()
    }

    /// 0 for none, 1 for an anchor, 2 for a proof, 3 for a trigger, 4 for a trigger that is the next anchor too.
    fn next_stage(&mut self) -> u32 {
        self.stage = match self.stage {
            1 => 2,
            2 if self.random.chance(30) => 4,
            2 => 3,
            4 => 2,
            _ if self.wait > 0 => {
                self.wait -= 1;
                0
            }
            _ => {
                self.wait = self.random.below(3);
                1
            }
        };
        // the leader changes where the new one has the point below
        if self.stage == 0 && self.random.chance(40) {
            self.leader = self.random.below(self.taste.peers);
        }
        self.stage
    }

    fn name(&mut self, round: u32, author: u32) -> PointId {
        let id = PointId { round, author, digest: self.digest() };
        self.calls.push(Call::Name(id));
        self.rounds.get_mut(&round).expect("added").push(Held { id, resolved: false, shunned: false });
        *self.places.entry(round).or_default() += 1;
        self.most = self.most.max(self.places.values().sum());
        id
    }

    /// Resolved at once, mostly.
    fn settle(&mut self, id: PointId) {
        if self.in_thousand(self.taste.late) {
            return;
        }
        let status = if self.in_thousand(self.taste.bad_status) { self.random.within(2, 5) } else { 1 };
        let cause = self.random.chance(75);
        let info = PointInfo { status, cause, top_proof: self.last_committed_proof, ..PointInfo::default() };
        self.resolve(id, info);
        if self.in_thousand(8) {
            self.calls.push(Call::Certify(id));
        }
    }

    fn resolve(&mut self, id: PointId, info: PointInfo) {
        let (includes, witness, evidence) = match info.status {
            1..=3 => (self.links(&id, 1, self.taste.include), self.links(&id, 2, self.taste.witness), self.evidence()),
            _ => (Vec::new(), Vec::new(), 0),
        };
        // a trans-invalid point may stand in a history
        let shunned = match info.status {
            1 => false,
            2 => self.random.chance(self.taste.shunned / 2),
            _ => self.random.chance(self.taste.shunned),
        };
        let held = self.rounds.get_mut(&id.round).expect("retained").iter_mut().find(|point| point.id == id);
        let held = held.expect("named");
        (held.resolved, held.shunned) = (true, shunned);
        let info = self.payloads.put(PointInfo { includes, witness, evidence, ..info });
        self.calls.push(Call::Resolve(id, info));
    }

    fn evidence(&mut self) -> u32 {
        (0..self.taste.peers).filter(|_| self.random.chance(self.taste.signed)).map(|peer| 1 << peer).sum()
    }

    /// One version of each peer; of its own author the first one, always.
    fn links(&mut self, id: &PointId, down: u32, percent: u32) -> Vec<Link> {
        let Some(round) = id.round.checked_sub(down) else {
            return Vec::new();
        };
        if round < self.with.bottom {
            return self.blind_links(round, percent);
        }
        let Some(points) = self.rounds.get(&round) else {
            return Vec::new();
        };
        let mut links: BTreeMap<u32, [u8; 32]> = BTreeMap::new();
        for point in points.iter().filter(|point| !point.shunned) {
            let own = down == 1 && point.id.author == id.author;
            let again = links.contains_key(&point.id.author);
            if !again && (own || self.random.chance(percent)) || again && !own && self.random.chance(30) {
                links.insert(point.id.author, point.id.digest);
            }
        }
        links.into_iter().map(|(peer, digest)| Link { peer, digest }).collect()
    }

    /// Links below the start aren't tested: each peer has one digest there, and at times stands for another.
    fn blind_links(&mut self, round: u32, percent: u32) -> Vec<Link> {
        let mut links = Vec::new();
        for peer in 0..self.taste.peers {
            if self.random.chance(percent * self.taste.blind / 100) {
                let of = if self.random.chance(20) { self.random.below(self.taste.peers) } else { peer };
                links.push(Link { peer, digest: digest(round << 8 | of) });
            }
        }
        links
    }

    /// The leader's point of the round.
    fn lead(&mut self, id: PointId, stage: u32) {
        let mut info = PointInfo {
            status: 1,
            proof: stage == 2,
            trigger: stage >= 3,
            top_proof: self.last_committed_proof,
            ..PointInfo::default()
        };
        if self.in_thousand(self.taste.broken) {
            match self.random.below(5) {
                0 => info.status = self.random.within(2, 5),
                1 => info.proof = !info.proof,
                2 => info.top_proof.round = info.top_proof.round.saturating_sub(1),
                3 => info.top_proof.author = self.random.below(self.taste.peers),
                _ => info.top_proof.round += 1,
            }
        }
        if info.proof {
            // the Rust has no other
            info.top_proof = id;
            self.last_committed_proof = id;
        }
        if !self.in_thousand(self.taste.late / 4) {
            self.resolve(id, info);
        }
        match stage {
            1 => self.anchor = Some(id),
            2 => self.certify_anchor(),
            3 | 4 => self.trigger(id, stage == 4),
            _ => {}
        }
    }

    fn certify_anchor(&mut self) {
        if let Some(anchor) = self.anchor.take()
            && self.random.chance(self.taste.certified)
            && self.rounds.contains_key(&anchor.round)
        {
            self.calls.push(Call::Certify(anchor));
        }
    }

    fn trigger(&mut self, id: PointId, next: bool) {
        self.triggers.push(id);
        if next {
            self.anchor = Some(id);
        }
        if self.random.chance(self.taste.commits) {
            self.calls.push(commit(id));
            self.handed = Some(id.round - 2);
            if self.random.chance(self.taste.removes) {
                self.remove();
            }
        }
    }

    /// A point that is open is resolved later, or never.
    fn catch_up(&mut self) {
        let open: Vec<PointId> =
            (self.rounds.values().flatten()).filter(|point| !point.resolved).map(|point| point.id).collect();
        if !open.is_empty() && self.random.chance(50) {
            let id = *self.random.pick(&open);
            let info = PointInfo { status: 1, top_proof: self.last_committed_proof, ..PointInfo::default() };
            self.resolve(id, info);
        }
    }

    /// Mostly of the last anchor or a round or two below it.
    fn remove(&mut self) {
        let (bottom, top) = (self.bottom(), self.top());
        let last = self.handed.unwrap_or(top);
        let round = match self.random.below(12) {
            0 => last + self.random.within(1, 3),
            1 => last + self.random.within(1, self.with.commit_history_rounds + 4),
            2 => last.saturating_sub(self.random.below(self.with.commit_history_rounds + 4)),
            3 | 4 => last.saturating_sub(self.random.below(6)),
            5 | 6 => last.saturating_sub(1),
            _ => last,
        };
        let since = match self.random.below(8) {
            0 => None,
            1 | 2 => Some(self.random.within(bottom, top)),
            3 => Some(top + self.random.below(3)),
            _ => Some(0),
        };
        self.calls.push(Call::Remove { round, since });
        if self.handed.is_some_and(|last| round <= last) {
            let low = round.saturating_sub(self.with.commit_history_rounds).clamp(bottom, top);
            self.rounds = self.rounds.split_off(&low);
            if self.taste.tight {
                self.places = self.places.split_off(&low);
            }
        }
    }

    /// Removes, drops, gap questions, commits of any trigger or point.
    fn disturb(&mut self) {
        if self.random.chance(self.taste.removes / 8) {
            self.remove();
        }
        if self.random.chance(self.taste.drops) {
            self.drop();
        }
        if self.random.chance(4) && !self.triggers.is_empty() {
            let id = *self.random.pick(&self.triggers);
            self.calls.push(commit(id));
        }
        if self.random.chance(2) {
            let round = self.random.within(self.bottom(), self.top());
            if let Some(id) = self.rounds[&round].first().map(|point| point.id) {
                self.calls.push(commit(id));
            }
        }
    }

    fn drop(&mut self) {
        let (bottom, top) = (self.bottom(), self.top());
        let round = match self.random.below(5) {
            0 => bottom.saturating_sub(self.random.below(3)),
            1 => top.saturating_sub(self.random.below(6)),
            2 => bottom + 1,
            3 => self.last_committed_proof.round + self.random.below(3),
            _ => self.random.within(bottom, top),
        };
        self.calls.push(Call::Drop(round));
        let bottom = round.clamp(bottom, top);
        self.rounds = self.rounds.split_off(&bottom);
        self.places = self.places.split_off(&bottom);
        if self.random.chance(self.taste.asked) {
            self.calls.push(Call::Gap);
        }
    }
}
