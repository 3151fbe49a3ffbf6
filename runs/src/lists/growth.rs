//! Random growth: rounds are added, points named, resolved and certified in any order, rounds dropped, with calls between them that are
//! to be refused. A small model of what is held keeps most calls acceptable.

use std::collections::BTreeMap;

use committer::{Call, Link, PointId, PointInfo, ROUND_MAX, Start};

use crate::compare::List;
use crate::lists::{Payloads, commit};
use crate::random::Random;

/// What the lists are like.
#[derive(Clone, Debug)]
pub struct Taste {
    pub peers: u32,
    pub places: usize,
    pub calls: usize,
    /// in how many of a hundred calls something is wrong on purpose
    pub wild: u32,
    /// also round 0, rounds near the highest, and any sets of peers; else only what the Rust's assertions pass
    pub edges: bool,
    /// the leader's points come in order and are resolved at once, so that anchors can be committed
    pub steady: bool,
    pub commits: bool,
}

/// One list.
pub fn grown(random: Random) -> List {
    let mut random = random;
    let taste = Taste {
        peers: *random.pick(&[2, 2, 3, 4, 4, 5, 8, 13, 21, 32]),
        places: *random.pick(&[6, 20, 40, 40, 80, 160]),
        calls: random.within(40, 240) as usize,
        wild: *random.pick(&[0, 5, 10, 20]),
        edges: true,
        steady: random.chance(50),
        commits: true,
    };
    let mut growth = Growth::new(random, taste);
    growth.grow();
    growth.list()
}

struct Held {
    id: PointId,
    resolved: bool,
}

pub struct Growth {
    random: Random,
    taste: Taste,
    calls: Vec<Call>,
    /// what a digest is made of
    digests: Digests,
    payloads: Payloads,
    /// the peers of the retained rounds; none if not started
    rounds: BTreeMap<u32, u32>,
    genesis: u32,
    points: Vec<Held>,
    /// the leader's last proof, or what stands for it
    last_committed_proof: PointId,
    /// the round of the last anchor that may have been handed out
    handed: Option<u32>,
}

/// Peer 0 leads: its points are an anchor, a proof and a trigger in turn.
const LEADER: u32 = 0;

impl Growth {
    pub fn new(mut random: Random, taste: Taste) -> Growth {
        let payloads = Payloads::of(&random);
        let digests = Digests { style: random.below(4), count: 0 };
        Growth {
            random,
            taste,
            calls: Vec::new(),
            digests,
            payloads,
            rounds: BTreeMap::new(),
            genesis: 0,
            points: Vec::new(),
            last_committed_proof: PointId::default(),
            handed: None,
        }
    }

    pub fn grow(&mut self) {
        while self.calls.len() < self.taste.calls {
            self.step();
        }
    }

    pub fn list(mut self) -> List {
        List { places: self.taste.places, calls: self.calls, order: self.random.word() }
    }

    fn step(&mut self) {
        if self.random.chance(self.taste.wild) {
            return self.wild();
        }
        if self.rounds.is_empty() {
            return self.start();
        }
        match self.random.weighted(&[12, 30, 34, 16, 2, 3, 1, 1, 3, 2]) {
            0 => self.next_round(),
            1 => self.name(),
            2 => self.resolve(),
            3 => self.certify(),
            4 => self.drop(),
            5 => self.calls.push(Call::Gap),
            6 => self.old_round(),
            7 if self.random.chance(40) => self.reset(),
            9 => self.remove(),
            _ => self.commit(),
        }
    }

    fn bottom(&self) -> u32 {
        *self.rounds.keys().next().expect("started")
    }

    fn top(&self) -> u32 {
        *self.rounds.keys().next_back().expect("started")
    }

    fn any_round(&mut self) -> u32 {
        let (bottom, top) = (self.bottom(), self.top());
        // mostly the newest
        if self.random.chance(60) {
            top - self.random.below(3).min(top - bottom)
        } else {
            self.random.within(bottom, top)
        }
    }

    // ---- start, reset, rounds

    /// Peers of a round. Round 0 has one, and so has genesis unless edges are wanted: the Rust asks for it.
    fn peers(&mut self, round: u32, genesis: u32) -> u32 {
        let all = u32::MAX >> (32 - self.taste.peers);
        match self.random.below(20) {
            _ if round == 0 || !self.taste.edges && round == genesis => 1,
            _ if !self.taste.edges => all,
            0 => self.random.word() as u32 & all,
            1 => self.random.word() as u32 & self.random.word() as u32,
            2 if self.random.chance(10) => 0,
            _ => all,
        }
    }

    fn good_start(&mut self) -> Start {
        let genesis = match self.random.below(8) {
            0 if self.taste.edges => 0,
            1 if self.taste.edges => ROUND_MAX - self.random.within(3, 30),
            2 => 1,
            3 => 1000,
            _ => 10,
        };
        let bottom = genesis + self.random.below(2) * self.random.below(4);
        Start {
            genesis,
            commit_history_rounds: *self.random.pick(&[1, 2, 2, 3, 3, 5, 10, 255]),
            deduplicate_rounds: *self.random.pick(&[0, 0, 3, 65_535]),
            bottom,
            peers: self.peers(bottom, genesis),
            after_gap: self.random.chance(30),
            used: self.random.chance(60).then_some(LEADER),
        }
    }

    fn start(&mut self) {
        let with = self.good_start();
        self.genesis = with.genesis;
        self.rounds.insert(with.bottom, with.peers);
        self.last_committed_proof = PointId { round: with.bottom, author: LEADER, digest: self.digest() };
        self.calls.push(Call::Start(with));
    }

    fn reset(&mut self) {
        self.handed = None;
        self.rounds.clear();
        self.points.clear();
        self.calls.push(Call::Reset);
    }

    fn next_round(&mut self) {
        let round = self.top() + 1;
        if round > ROUND_MAX {
            return;
        }
        let peers = self.peers(round, self.genesis);
        self.calls.push(Call::Round { round, peers });
        self.rounds.insert(round, peers);
        if self.taste.steady {
            self.lead(round);
        } else if self.random.chance(80) {
            self.name_by(round, LEADER);
        }
    }

    /// The leader's point of a new round. Anchors are mostly certified, triggers mostly committed.
    fn lead(&mut self, round: u32) {
        let before = self.points.len();
        self.name_by(round, LEADER);
        if self.points.len() == before {
            return;
        }
        self.resolve_at(before);
        let id = self.points[before].id;
        match self.stage(round) {
            1 if self.random.chance(90) => self.calls.push(Call::Certify(id)),
            0 if self.random.chance(70) => self.commit(),
            _ => {}
        }
    }

    /// 1 for an anchor, 2 for a proof, 0 for a trigger.
    fn stage(&self, round: u32) -> u32 {
        (round - self.genesis) % 3
    }

    /// At or below the top: nothing happens.
    fn old_round(&mut self) {
        if !self.taste.edges && self.top() == self.genesis {
            return;
        }
        let lowest = if self.taste.edges { 0 } else { self.genesis + 1 };
        let round = self.top() - self.random.below(4).min(self.top().saturating_sub(lowest));
        let peers = if self.taste.edges { self.random.word() as u32 } else { self.rounds[&self.top()] };
        let peers = if round == 0 { 1 } else { peers };
        self.calls.push(Call::Round { round, peers });
    }

    /// At every distance from the bottom and the top.
    fn drop(&mut self) {
        let (bottom, top) = (self.bottom(), self.top());
        let round = match self.random.below(12) {
            0 => bottom.saturating_sub(self.random.below(4)),
            1 => bottom,
            2 => top,
            3 => top + self.random.within(1, 3),
            4 => *self.random.pick(&[0, u32::MAX]),
            5..=8 => bottom + self.random.below(3).min(top - bottom),
            _ => self.random.within(bottom, top),
        };
        self.calls.push(Call::Drop(round));
        let bottom = round.clamp(bottom, top);
        self.rounds = self.rounds.split_off(&bottom);
        self.points.retain(|point| point.id.round >= bottom);
    }

    // ---- points

    fn digest(&mut self) -> [u8; 32] {
        self.digests.next(&mut self.random)
    }

    fn versions(&self, round: u32, author: u32) -> usize {
        self.points.iter().filter(|point| point.id.round == round && point.id.author == author).count()
    }

    fn name(&mut self) {
        let round = self.any_round();
        let author = self.random.below(self.taste.peers);
        self.name_by(round, author);
        // equivocation: a second version, at times a third and a fourth
        while self.random.chance(12) {
            self.name_by(round, author);
        }
    }

    fn name_by(&mut self, round: u32, author: u32) {
        let is_peer = self.rounds[&round] >> author & 1 == 1;
        let full = self.points.len() >= self.taste.places;
        if !is_peer || full || self.versions(round, author) >= 4 {
            return;
        }
        let id = PointId { round, author, digest: self.digest() };
        self.calls.push(Call::Name(id));
        self.points.push(Held { id, resolved: false });
    }

    /// One of those that aren't resolved, whichever came first.
    fn resolve(&mut self) {
        let open: Vec<usize> = (0..self.points.len()).filter(|n| !self.points[*n].resolved).collect();
        if open.is_empty() {
            return;
        }
        let n = *self.random.pick(&open);
        self.resolve_at(n);
    }

    fn resolve_at(&mut self, n: usize) {
        let id = self.points[n].id;
        self.points[n].resolved = true;
        let info = self.info(&id);
        if info.proof && id.author == LEADER {
            self.last_committed_proof = id;
        }
        self.calls.push(Call::Resolve(id, info));
    }

    fn info(&mut self, id: &PointId) -> PointInfo {
        let leads = id.author == LEADER;
        let status = match self.random.below(if leads { 200 } else { 40 }) {
            0 => 5,
            1 => 4,
            2 | 3 => 3,
            4..=8 => 2,
            _ => 1,
        };
        let stage = self.stage(id.round);
        let odd = self.random.chance(3);
        let proof = (leads && stage == 2) != odd;
        let linked = status < 4;
        let info = PointInfo {
            status,
            proof,
            trigger: leads && stage == 0 || self.random.chance(3),
            cause: self.random.chance(50),
            // the Rust has no other for a proof
            top_proof: if proof { *id } else { self.last_committed_proof },
            evidence: if linked { self.random.word() as u32 & self.random.word() as u32 } else { 0 },
            includes: if linked { self.links(id, 1, 75) } else { Vec::new() },
            witness: if linked { self.links(id, 2, 35) } else { Vec::new() },
            ..PointInfo::default()
        };
        self.payloads.put(info)
    }

    /// At most one link for each peer, to one of its versions; the author's own with more certainty. Into rounds that aren't retained
    /// links may have any digest.
    fn links(&mut self, id: &PointId, down: u32, percent: u32) -> Vec<Link> {
        let Some(round) = id.round.checked_sub(down) else {
            return Vec::new();
        };
        if !self.rounds.contains_key(&round) {
            return self.blind_links(down);
        }
        let mut versions: BTreeMap<u32, Vec<[u8; 32]>> = BTreeMap::new();
        for point in self.points.iter().filter(|point| point.id.round == round) {
            versions.entry(point.id.author).or_default().push(point.id.digest);
        }
        let mut links = Vec::new();
        for (peer, digests) in versions {
            if self.random.chance(if peer == id.author { 95 } else { percent }) {
                links.push(Link { peer, digest: *self.random.pick(&digests) });
            }
        }
        links
    }

    fn blind_links(&mut self, down: u32) -> Vec<Link> {
        let mut links = Vec::new();
        for peer in 0..32 {
            if self.random.chance(6 / down) {
                links.push(Link { peer, digest: self.digest() });
            }
        }
        links
    }

    fn any_point(&mut self) -> Option<PointId> {
        let count = self.points.len() as u32;
        (count > 0).then(|| self.points[self.random.below(count) as usize].id)
    }

    /// Resolved or not, for the first time or again.
    fn certify(&mut self) {
        if let Some(id) = self.any_point() {
            self.calls.push(Call::Certify(id));
        }
    }

    fn commit(&mut self) {
        if !self.taste.commits {
            return;
        }
        let triggers: Vec<PointId> = (self.points.iter())
            .filter(|point| point.resolved && point.id.author == LEADER && self.stage(point.id.round) == 0)
            .map(|point| point.id)
            .collect();
        if let Some(id) = triggers.last() {
            self.calls.push(commit(*id));
            self.handed = id.round.checked_sub(2);
        }
    }

    /// Of the last anchor or near it. What is drained stays in the model: names there are refused, links there aren't tested.
    fn remove(&mut self) {
        if !self.taste.commits {
            return;
        }
        let last = self.handed.unwrap_or(self.top());
        let round = match self.random.below(6) {
            0 => last.saturating_add(self.random.within(1, 4)),
            1 => *self.random.pick(&[0, 1, self.bottom(), self.top() + 1, u32::MAX]),
            _ => last.saturating_sub(self.random.below(4)),
        };
        let since = *self.random.pick(&[None, Some(0), Some(0), Some(self.bottom()), Some(self.top())]);
        self.calls.push(Call::Remove { round, since });
    }

    // ---- calls that are to be refused

    fn wild(&mut self) {
        if self.rounds.is_empty() {
            return self.wild_before_start();
        }
        match self.random.below(13) {
            0 => self.wild_start(),
            1 => {
                let with = self.good_start();
                self.calls.push(Call::Start(with));
            }
            2 => self.wild_round(),
            3 => self.wild_author(),
            4 => self.wild_place_in_time(),
            5 => self.name_again(),
            6 => self.fifth_digest(),
            7 => self.not_named(),
            8 => self.resolve_again(),
            9 | 10 => self.wild_info(),
            11 => self.wild_link(),
            _ => self.too_many(),
        }
    }

    fn wild_before_start(&mut self) {
        let id = PointId { round: self.random.below(20), author: LEADER, digest: self.digest() };
        let call = match self.random.below(10) {
            0 => return self.wild_start(),
            1 => Call::Round { round: id.round, peers: 3 },
            2 => Call::Name(id),
            3 => Call::Resolve(id, PointInfo { status: 1, ..PointInfo::default() }),
            4 => Call::Certify(id),
            5 => Call::Drop(id.round),
            6 => Call::Gap,
            7 if self.taste.commits => commit(id),
            8 if self.taste.commits => Call::Remove { round: id.round, since: Some(0) },
            _ => Call::Reset,
        };
        self.calls.push(call);
    }

    /// With one number out of its range.
    fn wild_start(&mut self) {
        let mut with = self.good_start();
        match self.random.below(7) {
            0 => with.commit_history_rounds = *self.random.pick(&[0, 256, 512, u32::MAX]),
            1 => with.deduplicate_rounds = *self.random.pick(&[65_536, u32::MAX]),
            2 => with.bottom = *self.random.pick(&[ROUND_MAX + 1, u32::MAX]),
            3 => (with.genesis, with.bottom) = (ROUND_MAX + 1, ROUND_MAX + 2),
            4 => with.used = Some(*self.random.pick(&[32, 200, 254])),
            5 => with.genesis = with.bottom.max(10) + 1,
            _ => with.genesis = with.bottom.max(10) + self.random.within(2, 100),
        }
        // one peer where the Rust asks for it
        if with.bottom == 0 {
            with.peers = 1;
        }
        self.calls.push(Call::Start(with));
    }

    fn wild_round(&mut self) {
        let top = self.top();
        let round = *self.random.pick(&[top + 2, top + 3, top + 600, ROUND_MAX + 1, u32::MAX]);
        // at the highest round the next one is out of range
        let round = if top == ROUND_MAX && self.random.chance(60) { top + 1 } else { round };
        self.calls.push(Call::Round { round, peers: 3 });
    }

    fn id_call(&mut self, id: PointId) {
        let call = match self.random.below(4) {
            0 => Call::Resolve(id, PointInfo { status: 1, ..PointInfo::default() }),
            1 => Call::Certify(id),
            2 if self.taste.commits => commit(id),
            _ => Call::Name(id),
        };
        self.calls.push(call);
    }

    fn wild_author(&mut self) {
        let round = if self.random.chance(85) { self.any_round() } else { self.top() + 1 };
        let peers = self.rounds.get(&round).copied().unwrap_or(0);
        let others: Vec<u32> = (0..32).filter(|n| peers >> n & 1 == 0).chain([32, 33, 255]).collect();
        let id = PointId { round, author: *self.random.pick(&others), digest: self.digest() };
        self.id_call(id);
    }

    fn wild_place_in_time(&mut self) {
        let (bottom, top) = (self.bottom(), self.top());
        let below = bottom.saturating_sub(1);
        let round = *self.random.pick(&[top + 1, top + 2, u32::MAX, below, below.saturating_sub(511), 0]);
        let id = PointId { round, author: self.random.below(self.taste.peers), digest: self.digest() };
        self.id_call(id);
    }

    /// The same id, or another author's digest of the same round.
    fn name_again(&mut self) {
        if let Some(mut id) = self.any_point() {
            if self.random.chance(60) {
                id.author = self.random.below(self.taste.peers);
            }
            self.calls.push(Call::Name(id));
            let is_new = self.points.iter().all(|point| point.id.round != id.round || point.id.digest != id.digest);
            debug_assert!(!is_new, "the digest is named in its round");
        }
    }

    fn fifth_digest(&mut self) {
        let round = self.any_round();
        let author = self.random.below(self.taste.peers);
        for _ in 0..4 {
            self.name_by(round, author);
        }
        let id = PointId { round, author, digest: self.digest() };
        if self.versions(round, author) == 4 {
            self.calls.push(Call::Name(id));
        }
    }

    fn not_named(&mut self) {
        let round = self.any_round();
        let id = PointId { round, author: self.random.below(self.taste.peers), digest: self.digest() };
        let call = match self.random.below(3) {
            0 => Call::Resolve(id, PointInfo { status: 1, ..PointInfo::default() }),
            1 if self.taste.commits => commit(id),
            _ => Call::Certify(id),
        };
        self.calls.push(call);
    }

    fn resolve_again(&mut self) {
        let closed: Vec<PointId> = (self.points.iter()).filter(|point| point.resolved).map(|point| point.id).collect();
        if closed.is_empty() {
            return;
        }
        let id = *self.random.pick(&closed);
        let info = self.info(&id);
        self.calls.push(Call::Resolve(id, info));
    }

    fn open_point(&mut self) -> Option<PointId> {
        let open: Vec<PointId> = (self.points.iter()).filter(|point| !point.resolved).map(|point| point.id).collect();
        (!open.is_empty()).then(|| *self.random.pick(&open))
    }

    /// A resolution of a wrong form.
    fn wild_info(&mut self) {
        let Some(id) = self.open_point() else {
            return;
        };
        let mut info = self.info(&id);
        info.proof = false;
        let digest = self.digest();
        match self.random.below(9) {
            0 => info.status = *self.random.pick(&[0, 6, 255]),
            1 => (info.status, info.evidence) = (4 + self.random.below(2), 1),
            2 => (info.status, info.includes) = (4 + self.random.below(2), vec![Link { peer: 0, digest }]),
            3 => (info.status, info.witness) = (4 + self.random.below(2), vec![Link { peer: 0, digest }]),
            4 => info.top_proof.author = *self.random.pick(&[32, 255]),
            5 => (info.status, info.includes) = (1, wild_peers(&mut self.random, digest)),
            6 => (info.status, info.witness) = (1, wild_peers(&mut self.random, digest)),
            7 => (info.status, info.includes) = (2, (0..33).map(|peer| Link { peer, digest }).collect()),
            _ => (info.status, info.witness) = (3, (0..33).map(|peer| Link { peer, digest }).collect()),
        }
        self.calls.push(Call::Resolve(id, info));
    }

    /// A link to a point that isn't named: another digest, another author, or another round's digest.
    fn wild_link(&mut self) {
        let Some(id) = self.open_point() else {
            return;
        };
        let mut info = self.info(&id);
        if info.status > 3 {
            return;
        }
        let digest = match self.any_point() {
            Some(other) if self.random.chance(50) => other.digest,
            _ => self.digest(),
        };
        let down = self.random.within(1, 2);
        let links = if down == 1 { &mut info.includes } else { &mut info.witness };
        if links.is_empty() {
            links.push(Link { peer: id.author, digest });
        } else {
            let n = self.random.below(links.len() as u32) as usize;
            links[n].digest = digest;
        }
        let round = id.round.checked_sub(down);
        let links = if down == 1 { &info.includes } else { &info.witness };
        if round.is_none_or(|round| self.rounds.contains_key(&round) && self.lacks(round, links)) {
            self.calls.push(Call::Resolve(id, info));
        }
    }

    /// Whether a link leads to no point of the round.
    fn lacks(&self, round: u32, links: &[Link]) -> bool {
        links.iter().any(|link| {
            let id = PointId { round, author: link.peer, digest: link.digest };
            self.points.iter().all(|point| point.id != id)
        })
    }

    /// One more point than there are places, if the table is small.
    fn too_many(&mut self) {
        if self.taste.places > 40 {
            return;
        }
        let round = self.top();
        let peers = self.rounds[&round];
        for author in 0..32 {
            while peers >> author & 1 == 1 && self.points.len() < self.taste.places && self.versions(round, author) < 4
            {
                self.name_by(round, author);
            }
        }
        let id = PointId { round, author: self.random.below(self.taste.peers), digest: self.digest() };
        if self.points.len() == self.taste.places {
            self.calls.push(Call::Name(id));
        }
    }
}

/// Peers that don't rise strictly, or one above 31.
fn wild_peers(random: &mut Random, digest: [u8; 32]) -> Vec<Link> {
    const WRONG: [&[u32]; 5] = [&[1, 0], &[3, 3], &[32], &[0, 255], &[5, 9, 8]];
    random.pick(&WRONG).iter().map(|peer| Link { peer: *peer, digest }).collect()
}

/// Digests of one list, all different. The styles differ in which bytes decide their order.
struct Digests {
    style: u32,
    count: u16,
}

impl Digests {
    fn next(&mut self, random: &mut Random) -> [u8; 32] {
        self.count += 1;
        // an odd factor, so that no two are equal
        let distinct = self.count.wrapping_mul(40_503).to_be_bytes();
        let mut digest = [0; 32];
        match self.style {
            0 => digest[30..].copy_from_slice(&distinct),
            1 => {
                digest.fill(255);
                digest[14..16].copy_from_slice(&distinct);
            }
            _ => {
                for chunk in digest.chunks_mut(8) {
                    chunk.copy_from_slice(&random.word().to_be_bytes());
                }
                digest[6..8].copy_from_slice(&distinct);
            }
        }
        digest
    }
}
