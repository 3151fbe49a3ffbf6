//! Documents 01 and 02 once more, as plainly as they can be said: maps, and heights by following every path.

use std::cmp::Reverse;
use std::collections::{BTreeMap, BTreeSet};

use committer::{
    Anchor, Answer, Call, Committer, Entry, JournalDagEvent, LINK_WORDS, Link, LinkBehind, Look, Memory,
    MempoolPeerCounters, MempoolPeerStats, Point, PointId, PointInfo, ROUND_MAX, Refusal, Refused, Removal,
    RetainedRound, Start, Status, Summary, Word, digest_bytes,
};

pub struct Model {
    places: usize,
    store: Option<Store>,
    /// a reset keeps it
    memory: Memory,
}

#[derive(Clone)]
struct Store {
    with: Start,
    bottom: u32,
    top: u32,
    last_committed_proof: Option<u32>,
    last_anchor: Option<u32>,
    full_history_bottom: u32,
    first_executable: u32,
    gap: Option<bool>,
    rounds: BTreeMap<u32, RetainedRound>,
    /// by round and digest
    points: BTreeMap<Key, Held>,
}

type Key = (u32, [u8; 32]);

#[derive(Clone)]
struct Held {
    author: u32,
    info: Option<PointInfo>,
    top: bool,
    committed: bool,
}

type Number = u32;

/// What stops a walk or an anchor: the number, and the round of a conflict, else 0.
type Stop = (Number, u32);

/// An anchor of a chain, its proof, and the round of its top proof.
struct EnqueuedAnchor {
    anchor: PointId,
    proof: PointId,
    prev_proof_round: u32,
}

/// The points linked in each round of a history, from the anchor's down; inside a round by rising digest.
type Linked = Vec<Vec<Key>>;

/// By key; 0 for none.
struct Heights(BTreeMap<Key, u32>);

impl Model {
    pub fn new(places: usize) -> Model {
        Model { places, store: None, memory: Memory { last: 0, entries: Vec::new() } }
    }

    /// What the tables hold.
    pub fn of(committer: &Committer) -> Model {
        let places = committer.parts().0.order.len();
        let store = committer.summary().map(|summary| Store::of(committer, summary));
        Model { places, store, memory: committer.memory() }
    }

    pub fn call(&mut self, call: &Call) -> Answer {
        self.answer(call).unwrap_or_else(|number| refused((number, 0), Vec::new()))
    }

    fn answer(&mut self, call: &Call) -> Result<Answer, Number> {
        if let Call::Start(with) = call {
            return self.start(with);
        }
        let places = self.places;
        let store = self.store.as_mut().ok_or(2u32)?;
        match call {
            Call::Round { round, peers } => store.round(*round, *peers),
            Call::Name(id) => store.name(id, places),
            Call::Resolve(id, info) => store.resolve(id, info),
            Call::Certify(id) => store.certify(id),
            Call::Drop(round) => Ok(store.drop(*round)),
            Call::Gap => Ok(store.ask()),
            Call::Commit(id, lists) => Ok(store.commit(id, lists)),
            Call::Outlook(id) => Ok(store.outlook(id)),
            Call::Reset => {
                self.store = None;
                Ok(Answer::Done)
            }
            Call::Remove { round, since } => store.remove(*round, *since, &mut self.memory),
            Call::Start(_) => unreachable!("made above"),
        }
    }

    fn start(&mut self, with: &Start) -> Result<Answer, Number> {
        let right = (1..=255).contains(&with.commit_history_rounds)
            && with.deduplicate_rounds <= 65_535
            && with.genesis <= with.bottom
            && with.bottom <= ROUND_MAX
            && with.used.is_none_or(|author| author < 32)
            && (1..=4096).contains(&self.places);
        if !right {
            return Err(1);
        }
        if self.store.is_some() {
            return Err(2);
        }
        self.store = Some(Store::new(with));
        Ok(Answer::Done)
    }

    pub fn memory(&self) -> &Memory {
        &self.memory
    }

    pub fn summary(&self) -> Option<Summary> {
        self.store.as_ref().map(|store| Summary {
            genesis: store.with.genesis,
            commit_history_rounds: store.with.commit_history_rounds,
            deduplicate_rounds: store.with.deduplicate_rounds,
            bottom: store.bottom,
            top: store.top,
            last_committed_proof: store.last_committed_proof,
            last_anchor: store.last_anchor,
            full_history_bottom: store.full_history_bottom,
            first_executable: store.first_executable,
            emit_first_after_gap: store.gap,
            rounds: store.rounds.values().copied().collect(),
        })
    }

    /// What an outlook tells of each anchor, also where it is refused: up to the anchor that it is refused for. The lengths
    /// of the place lists that a commit of this trigger reads.
    pub fn looks(&self, trigger: &PointId) -> Vec<Look> {
        self.store.as_ref().map_or(Vec::new(), |store| store.looks(trigger).0)
    }

    /// The link behind each point of a record.
    pub fn links_behind(&self, record: &Anchor) -> Vec<LinkBehind> {
        let store = self.store.as_ref().expect("a record is of a started committer");
        store.links_behind(&record.anchor, &record.points)
    }

    /// The ids of the points, each with whether it is resolved.
    pub fn ids(&self) -> Vec<(PointId, bool)> {
        let points = self.store.iter().flat_map(|store| &store.points);
        points
            .map(|(key, held)| (PointId { round: key.0, author: held.author, digest: key.1 }, held.info.is_some()))
            .collect()
    }

    pub fn points(&self) -> Vec<Point> {
        let Some(store) = &self.store else { return Vec::new() };
        let heights = store.heights();
        store.points.iter().map(|(key, held)| held.shown(key, heights.get(key).copied().unwrap_or(0))).collect()
    }
}

impl Held {
    fn shown(&self, key: &Key, height: u32) -> Point {
        let info = self.info.as_ref();
        let status = info.and_then(|info| Status::of(info.status));
        let linked = info.is_some_and(|info| info.status <= 3);
        let committed = if self.committed { 0x1000 } else { 0 };
        let flags = if self.top { 0x8000 } else { 0 } | if linked { 0x6000 } else { 0 } | committed;
        Point {
            id: PointId { round: key.0, author: self.author, digest: key.1 },
            status,
            proof: info.is_some_and(|info| info.proof),
            trigger: info.is_some_and(|info| info.trigger),
            cause: info.is_some_and(|info| info.cause),
            payload_len: info.map_or(0, |info| info.payload_len),
            payload_bytes: info.map_or(0, |info| info.payload_bytes),
            cert: flags | height as u16,
        }
    }
}

impl Store {
    fn new(with: &Start) -> Store {
        let near_genesis = with.bottom <= with.genesis + with.commit_history_rounds;
        let full_history_bottom = with.bottom + if near_genesis { 0 } else { with.commit_history_rounds };
        let bottom = RetainedRound { round: with.bottom, peers: with.peers, used: with.used };
        Store {
            with: *with,
            bottom: with.bottom,
            top: with.bottom,
            last_committed_proof: None,
            last_anchor: None,
            full_history_bottom,
            first_executable: if with.after_gap { full_history_bottom + with.deduplicate_rounds } else { with.bottom },
            gap: with.after_gap.then_some(false),
            rounds: BTreeMap::from([(with.bottom, bottom)]),
            points: BTreeMap::new(),
        }
    }

    fn of(committer: &Committer, summary: Summary) -> Store {
        let (tables, state) = committer.parts();
        let places = tables.order[..state.count].iter().map(|place| *place as usize);
        let points = places.zip(committer.points()).map(|(place, point)| {
            let info = point.status.map(|status| info_of(&tables.links[place * LINK_WORDS..], &point, status));
            let held = Held { author: point.id.author, info, top: point.is_top(), committed: point.is_committed() };
            ((point.id.round, point.id.digest), held)
        });
        let with = Start {
            genesis: summary.genesis,
            commit_history_rounds: summary.commit_history_rounds,
            deduplicate_rounds: summary.deduplicate_rounds,
            bottom: summary.bottom,
            ..Start::default()
        };
        Store {
            with,
            bottom: summary.bottom,
            top: summary.top,
            last_committed_proof: summary.last_committed_proof,
            last_anchor: summary.last_anchor,
            full_history_bottom: summary.full_history_bottom,
            first_executable: summary.first_executable,
            gap: summary.emit_first_after_gap,
            rounds: summary.rounds.iter().map(|round| (round.round, *round)).collect(),
            points: points.collect(),
        }
    }

    fn round(&mut self, round: u32, peers: u32) -> Result<Answer, Number> {
        if round > self.top + 1 || round > ROUND_MAX {
            return Err(3);
        }
        if round > self.top {
            if self.rounds.len() == 512 {
                return Err(4);
            }
            self.rounds.insert(round, RetainedRound { round, peers, used: None });
            self.top = round;
        }
        Ok(Answer::Done)
    }

    /// 5, 6, 5.
    fn test_id(&self, id: &PointId) -> Result<(), Number> {
        if id.author > 31 {
            return Err(5);
        }
        let round = self.rounds.get(&id.round).ok_or(6u32)?;
        if round.peers >> id.author & 1 == 0 {
            return Err(5);
        }
        Ok(())
    }

    fn name(&mut self, id: &PointId, places: usize) -> Result<Answer, Number> {
        self.test_id(id)?;
        if self.points.contains_key(&(id.round, id.digest)) {
            return Err(7);
        }
        let versions = self.points.iter().filter(|(key, held)| key.0 == id.round && held.author == id.author).count();
        if versions == 4 {
            return Err(8);
        }
        if self.points.len() == places {
            return Err(4);
        }
        self.points.insert((id.round, id.digest), Held { author: id.author, info: None, top: false, committed: false });
        Ok(Answer::Done)
    }

    fn named(&self, id: &PointId) -> bool {
        self.points.get(&(id.round, id.digest)).is_some_and(|held| held.author == id.author)
    }

    /// 5, 6, 5, 9.
    fn held(&mut self, id: &PointId) -> Result<&mut Held, Number> {
        self.test_id(id)?;
        if !self.named(id) {
            return Err(9);
        }
        Ok(self.points.get_mut(&(id.round, id.digest)).expect("named"))
    }

    fn resolve(&mut self, id: &PointId, info: &PointInfo) -> Result<Answer, Number> {
        if self.held(id)?.info.is_some() {
            return Err(10);
        }
        if !well_formed(id.round, info) {
            return Err(11);
        }
        let wild =
            targets(id.round, info).any(|target| self.rounds.contains_key(&target.round) && !self.named(&target));
        if wild {
            return Err(12);
        }
        self.held(id)?.info = Some(info.clone());
        Ok(Answer::Done)
    }

    fn certify(&mut self, id: &PointId) -> Result<Answer, Number> {
        self.held(id)?.top = true;
        Ok(Answer::Done)
    }

    fn drop(&mut self, round: u32) -> Answer {
        let actual = round.min(self.top);
        self.bottom = self.bottom.max(actual);
        let bottom = self.bottom;
        self.rounds.retain(|round, _| *round >= bottom);
        self.points.retain(|key, _| key.0 >= bottom);
        self.full_history_bottom = actual + self.with.commit_history_rounds;
        self.first_executable = self.full_history_bottom + self.with.deduplicate_rounds;
        self.gap = Some(false);
        Answer::Said(actual == round)
    }

    fn ask(&mut self) -> Answer {
        let waits = self.gap == Some(false);
        if waits {
            self.gap = Some(true);
        }
        Answer::Said(waits)
    }

    /// The largest H + 1 − (top's round − its round) above 0, over all tops from which a path of links of resolved
    /// points leads there.
    fn heights(&self) -> BTreeMap<Key, u32> {
        let mut heights = BTreeMap::new();
        for (top, _) in self.points.iter().filter(|(_, held)| held.top) {
            for key in self.reached(top) {
                let height = (self.with.commit_history_rounds + 1).saturating_sub(top.0 - key.0);
                let largest = heights.entry(key).or_insert(0);
                *largest = height.max(*largest);
            }
        }
        heights
    }

    fn reached(&self, top: &Key) -> BTreeSet<Key> {
        let mut reached = BTreeSet::new();
        let mut next = vec![*top];
        while let Some(key) = next.pop() {
            let Some(held) = self.points.get(&key) else { continue };
            if reached.insert(key) {
                next.extend(held.info.iter().flat_map(|info| targets(key.0, info)).map(|id| (id.round, id.digest)));
            }
        }
        reached
    }
}

/// Commits and outlooks. Buffers are large.
impl Store {
    /// Of a named point: resolved, or 14; usable, or 13 if it is certified, else 15.
    fn checked(&self, key: &Key, heights: &Heights, usable: impl Fn(&Held, u32) -> bool) -> Result<&PointInfo, Stop> {
        let held = &self.points[key];
        let info = held.info.as_ref().ok_or((14, 0))?;
        let height = heights.of(key);
        match (usable(held, info.status), height > 0) {
            (true, _) => Ok(info),
            (false, true) => Err((13, key.0)),
            (false, false) => Err((15, 0)),
        }
    }

    /// A point that the walk needs: named, or 25.
    fn ready(&self, id: &PointId, heights: &Heights) -> Result<&PointInfo, Stop> {
        if !self.named(id) {
            return Err((25, 0));
        }
        self.checked(&(id.round, id.digest), heights, |_, status| status == 1)
    }

    /// The anchors that a trigger yields, oldest first.
    fn anchors(&self, id: &PointId, heights: &Heights) -> Result<Vec<EnqueuedAnchor>, Stop> {
        if id.author < 32 && id.round < self.bottom {
            return Ok(Vec::new());
        }
        self.test_id(id).map_err(|number| (number, 0))?;
        let key = (id.round, id.digest);
        let held = self.points.get(&key).filter(|held| held.author == id.author).ok_or((9, 0))?;
        let trigger = held.info.as_ref().ok_or((9, 0))?;
        let certified = heights.of(&key) > 0;
        match trigger.status {
            1 => self.chain(id, trigger, heights),
            2 if certified && held.top => Err((13, id.round)),
            // turned away by `filter`
            2 if certified => Ok(Vec::new()),
            _ if certified => Err((13, id.round)),
            _ => Err((15, 0)),
        }
    }

    /// From the round below the trigger down to the last committed proof's, or the bottom.
    fn chain(&self, id: &PointId, trigger: &PointInfo, heights: &Heights) -> Result<Vec<EnqueuedAnchor>, Stop> {
        let lowest = self.last_committed_proof.unwrap_or(0).max(self.bottom);
        let mut chain: Vec<EnqueuedAnchor> = Vec::new();
        if !trigger.trigger || id.round == self.with.genesis || id.round <= lowest {
            return Ok(chain);
        }
        let mut sought = previous(id, trigger).ok_or((16, 0))?;
        for round in (lowest..id.round).rev() {
            if sought.round < round {
                continue;
            }
            if sought.round > round {
                return Err((16, 0));
            }
            match self.rounds[&round].used {
                Some(author) if author == sought.author => break,
                Some(_) => return Err((16, 0)),
                None => {}
            }
            let proof = self.ready(&sought, heights)?;
            let below = previous(&sought, proof).filter(|_| proof.proof).ok_or((16, 0))?;
            if round == lowest {
                break;
            }
            let top_proof = self.ready(&below, heights)?.top_proof;
            chain.push(EnqueuedAnchor { anchor: below, proof: sought, prev_proof_round: top_proof.round });
            sought = top_proof;
        }
        chain.reverse();
        match chain.first() {
            Some(oldest) if oldest.prev_proof_round > lowest => Err((19, 0)),
            _ => Ok(chain),
        }
    }

    /// The tests of an anchor that commit and outlook share: 22, 13 to 15, 17, 18.
    fn linked(&self, anchor: &PointId, heights: &Heights) -> Result<Linked, Stop> {
        if anchor.round <= self.with.genesis {
            return Err((22, 0));
        }
        let limit = (self.with.genesis + 1).max(anchor.round.saturating_sub(self.with.commit_history_rounds));
        let lowest = limit.max(self.bottom);
        let needed = self.needed(anchor, lowest);
        let mut downwards: Vec<&Key> = needed.iter().collect();
        downwards.sort_by_key(|key| (Reverse(key.0), key.1));
        for key in downwards {
            self.checked(key, heights, |held, status| {
                status == 1 || status == 2 && !(held.top && heights.of(key) > 0)
            })?;
        }
        if self.full_history_bottom <= limit && limit < self.bottom {
            return Err((17, 0));
        }
        if needed.iter().any(|key| !self.points[key].committed && heights.of(key) == 0) {
            return Err((18, 0));
        }
        let of_round = |round: u32| needed.range((round, [0; 32])..=(round, [255; 32])).copied().collect();
        Ok((lowest..=anchor.round).rev().map(of_round).collect())
    }

    /// The history, rounds rising: of each round the points in the order that its list says, from the last to the first,
    /// without those that are committed. 24 for a list that isn't each place from 0 once. The lists read are taken off.
    fn ordered(&self, linked: &Linked, lists: &mut &[u8]) -> Result<Vec<PointId>, Stop> {
        let mut rounds = Vec::new();
        for keys in linked {
            let (list, rest) = lists.split_at_checked(keys.len()).ok_or((24, 0))?;
            let places: BTreeSet<usize> = list.iter().map(|place| usize::from(*place)).collect();
            if !places.into_iter().eq(0..keys.len()) {
                return Err((24, 0));
            }
            rounds.push(list.iter().rev().map(|place| &keys[usize::from(*place)]).collect::<Vec<_>>());
            *lists = rest;
        }
        let out = rounds.into_iter().rev().flatten().filter(|key| !self.points[key].committed);
        Ok(out.map(|key| PointId { round: key.0, author: self.points[key].author, digest: key.1 }).collect())
    }

    /// The anchor and what uncommitted points from it downwards link to.
    fn needed(&self, anchor: &PointId, lowest: u32) -> BTreeSet<Key> {
        let mut needed = BTreeSet::new();
        let mut next = vec![(anchor.round, anchor.digest)];
        while let Some(key) = next.pop() {
            if key.0 < lowest || !needed.insert(key) || self.points[&key].committed {
                continue;
            }
            let info = self.points[&key].info.iter();
            next.extend(info.flat_map(|info| targets(key.0, info)).map(|id| (id.round, id.digest)));
        }
        needed
    }

    fn outlook(&self, id: &PointId) -> Answer {
        match self.looks(id) {
            (looks, None) => Answer::Looked(looks),
            (_, Some(stop)) => refused(stop, Vec::new()),
        }
    }

    /// Each anchor of an outlook with those before it committed, on a copy where the gap question is put; and what stops
    /// it.
    fn looks(&self, id: &PointId) -> (Vec<Look>, Option<Stop>) {
        let mut supposed = self.clone();
        supposed.ask();
        let heights = Heights(self.heights());
        let mut looks = Vec::new();
        let anchors = match self.anchors(id, &heights) {
            Ok(anchors) => anchors,
            Err(stop) => return (looks, Some(stop)),
        };
        for e in anchors {
            let look = match supposed.look(&e, &heights) {
                Ok(look) => look,
                Err(stop) => return (looks, Some(stop)),
            };
            let handed = supposed.dequeue(&e, &heights, &mut &look.lists_in_order()[..]);
            assert_eq!(handed.expect("the question is put, lists are right").points.len(), look.points as usize);
            looks.push(look);
        }
        (looks, None)
    }

    fn look(&self, e: &EnqueuedAnchor, heights: &Heights) -> Result<Look, Stop> {
        let linked = self.linked(&e.anchor, heights)?;
        let points = linked.iter().flatten().filter(|key| !self.points[key].committed).count() as u32;
        Ok(Look { anchor: e.anchor, points, linked: linked.iter().map(|keys| keys.len() as u32).collect() })
    }

    fn commit(&mut self, id: &PointId, mut lists: &[u8]) -> Answer {
        let heights = Heights(self.heights());
        let mut finished = Vec::new();
        let anchors = match self.anchors(id, &heights) {
            Ok(anchors) => anchors,
            Err(stop) => return refused(stop, finished),
        };
        for e in anchors {
            match self.dequeue(&e, &heights, &mut lists) {
                Ok(anchor) => finished.push(anchor),
                Err(stop) => return refused(stop, finished),
            }
        }
        Answer::Handed(finished)
    }

    /// One anchor handed out; its lists are taken off.
    fn dequeue(&mut self, e: &EnqueuedAnchor, heights: &Heights, lists: &mut &[u8]) -> Result<Anchor, Stop> {
        let linked = self.linked(&e.anchor, heights)?;
        if self.gap == Some(false) {
            return Err((20, 0));
        }
        let points = self.ordered(&linked, lists)?;
        let executable = self.first_executable <= e.anchor.round;
        let first = executable && self.gap == Some(true);
        let previous = e.prev_proof_round.saturating_sub(1);
        let previous = if first || previous <= self.with.genesis { 0 } else { previous };
        for id in &points {
            self.points.get_mut(&(id.round, id.digest)).expect("named").committed = true;
        }
        self.rounds.get_mut(&e.proof.round).expect("retained").used = Some(e.anchor.author);
        self.last_committed_proof = Some(e.proof.round);
        self.last_anchor = Some(e.anchor.round);
        if first {
            self.gap = None;
        }
        let (payload_len, payload_bytes) = self.sums(&points);
        let links = self.links_behind(&e.anchor, &points);
        Ok(Anchor { anchor: e.anchor, proof: e.proof, executable, previous, points, links, payload_len, payload_bytes })
    }

    /// The link behind each point of an anchor's record, sought among these points alone.
    fn links_behind(&self, anchor: &PointId, points: &[PointId]) -> Vec<LinkBehind> {
        points.iter().map(|id| self.link_behind(id, anchor, points)).collect()
    }

    fn link_behind(&self, id: &PointId, anchor: &PointId, points: &[PointId]) -> LinkBehind {
        if id == anchor {
            return LinkBehind { by: *anchor, word: Word::Anchor };
        }
        (points.iter())
            .filter_map(|by| Some(LinkBehind { by: *by, word: self.kind_of_link(by, id)? }))
            .max_by_key(|behind| (behind.by.round, Reverse(behind.by.digest)))
            .expect("a point of a history is the anchor, or one of its points links to it")
    }

    /// How a point links to another, if it does. A kind of links leads to one round, so there is one kind at most.
    fn kind_of_link(&self, by: &PointId, to: &PointId) -> Option<Word> {
        let info = self.points[&(by.round, by.digest)].info.as_ref()?;
        let (links, kind) = match by.round.checked_sub(to.round)? {
            1 => (&info.includes, Word::Includes),
            2 => (&info.witness, Word::Witness),
            _ => return None,
        };
        links.contains(&Link { peer: to.author, digest: to.digest }).then_some(kind)
    }

    /// Of both payload numbers over these points.
    fn sums(&self, points: &[PointId]) -> (u64, u64) {
        let infos = || points.iter().filter_map(|id| self.points[&(id.round, id.digest)].info.as_ref());
        let len = infos().map(|info| u64::from(info.payload_len)).sum();
        (len, infos().map(|info| u64::from(info.payload_bytes)).sum())
    }
}

/// A point of a drained round.
struct Drained<'a> {
    id: PointId,
    held: &'a Held,
    certified: bool,
}

impl<'a> Drained<'a> {
    /// 0 if it isn't resolved.
    fn status(&self) -> u32 {
        self.held.info.as_ref().map_or(0, |info| info.status)
    }

    fn proved(&self) -> bool {
        self.certified && self.held.top
    }

    /// `DagPoint::trusted`
    fn trusted(&self) -> Option<&'a PointInfo> {
        let status = self.status();
        self.held.info.as_ref().filter(|_| status == 1 || (status == 2 || status == 3) && self.certified)
    }

    fn found(&self) -> bool {
        (1..5).contains(&self.status())
    }

    /// The event of kind 1 to 3, if there is one.
    fn fault(&self) -> Option<JournalDagEvent> {
        let caused = self.held.info.as_ref().is_some_and(|info| info.cause);
        match self.status() {
            2 if !self.proved() && caused => Some(JournalDagEvent::TransInvalid(self.id)),
            3 if !self.certified && caused => Some(JournalDagEvent::Invalid(self.id)),
            4 if !self.certified => Some(JournalDagEvent::IllFormed(self.id)),
            _ => None,
        }
    }
}

/// Whether a trusted point of the author has a link to the digest.
fn referenced(points: &[Drained], author: u32, digest: &[u8; 32], links: fn(&PointInfo) -> &Vec<Link>) -> bool {
    (points.iter().filter(|point| point.id.author == author))
        .filter_map(Drained::trusted)
        .any(|info| links(info).iter().any(|link| link.digest == *digest))
}

/// Removes. Buffers are large.
impl Store {
    fn remove(&mut self, round: u32, since: Option<u32>, memory: &mut Memory) -> Result<Answer, Number> {
        if self.last_anchor.is_none_or(|last| last < round) {
            return Err(23);
        }
        let bottom = round.saturating_sub(self.with.commit_history_rounds).min(self.top).max(self.bottom);
        let last_non_executable = self.first_executable.saturating_sub(1).max(self.with.genesis);
        let heights = Heights(self.heights());
        let mut stats: BTreeMap<u32, MempoolPeerStats> = BTreeMap::new();
        let mut events = Vec::new();
        for round in self.bottom.max(last_non_executable)..bottom {
            let points = self.drained_points(round, &heights);
            if round > last_non_executable {
                let counted = self.inspected(round, &points, memory, &mut events);
                for (peer, counters) in counted.into_iter().filter(|_| since.is_some_and(|since| since <= round)) {
                    let new = MempoolPeerStats { peer, first_round: round, last_round: round, counters, score: 0 };
                    let of = stats.entry(peer).or_insert(MempoolPeerStats { counters: Default::default(), ..new });
                    of.last_round = round;
                    of.counters = sum(of.counters, counters);
                }
            }
            *memory = remembered(round, &points);
        }
        self.bottom = bottom;
        self.rounds.retain(|round, _| *round >= bottom);
        self.points.retain(|key, _| key.0 >= bottom);
        // by kind; of a kind they stand by round, author and digest
        events.sort_by_key(JournalDagEvent::kind);
        let peers = stats.into_values().map(|of| MempoolPeerStats { score: score(&of.counters), ..of }).collect();
        Ok(Answer::Removed(Removal { peers, events }))
    }

    fn drained_points(&self, round: u32, heights: &Heights) -> Vec<Drained<'_>> {
        let of_round = self.points.range((round, [0; 32])..=(round, [255; 32]));
        of_round
            .map(|(key, held)| Drained {
                id: PointId { round, author: held.author, digest: key.1 },
                held,
                certified: heights.of(key) > 0,
            })
            .collect()
    }

    /// The counters of the round's peers; events are added.
    fn inspected(
        &self,
        round: u32,
        points: &[Drained],
        memory: &Memory,
        events: &mut Vec<JournalDagEvent>,
    ) -> BTreeMap<u32, MempoolPeerCounters> {
        let mut counted = BTreeMap::new();
        for author in 0..32 {
            let own: Vec<&Drained> = points.iter().filter(|point| point.id.author == author).collect();
            let faults: Vec<JournalDagEvent> = own.iter().filter_map(|point| point.fault()).collect();
            let digests: Vec<[u8; 32]> =
                own.iter().filter(|point| point.found()).map(|point| point.id.digest).collect();
            let kinds = |kind| faults.iter().filter(|event| event.kind() == kind).count() as u16;
            let mut counters = MempoolPeerCounters {
                was_leader: (self.rounds[&round].used == Some(author)).into(),
                skipped_rounds: digests.is_empty().into(),
                valid_points: own.iter().any(|point| point.status() == 1).into(),
                points_proved: own.iter().filter(|point| point.status() > 0 && point.proved()).count() as u16,
                equivocated: digests.len().saturating_sub(1) as u16,
                trans_invalid_points: kinds(1),
                invalid_points: kinds(2),
                ill_formed_points: kinds(3),
                references_skipped: 0,
            };
            events.extend(faults);
            if digests.len() > 1 {
                events.push(JournalDagEvent::Equivocated { author, round, digests });
            }
            if let Some(event) = not_referenced(round, author, points, memory) {
                let JournalDagEvent::EvidenceNoInclusion { proofs, .. } = &event else { unreachable!() };
                counters.references_skipped = proofs.len() as u16;
                events.push(event);
            }
            if self.rounds[&round].peers >> author & 1 == 1 {
                counted.insert(author, counters);
            }
        }
        counted
    }
}

/// What a signer signed and references neither in the memory's round nor in this one, if it has points in both.
fn not_referenced(round: u32, signer: u32, points: &[Drained], memory: &Memory) -> Option<JournalDagEvent> {
    let mut proofs: BTreeMap<[u8; 32], &Entry> = BTreeMap::new();
    for entry in memory.entries.iter().filter(|entry| entry.unreferenced_by >> signer & 1 == 1) {
        if let Some(signed) = entry.previous
            && !referenced(points, signer, &signed, |info| &info.witness)
        {
            // entries rise by digest: the greatest stays
            proofs.insert(signed, entry);
        }
    }
    let then: Vec<PointId> = (memory.entries.iter().filter(|entry| entry.author == signer))
        .map(|entry| PointId { round: memory.last, author: signer, digest: entry.digest })
        .collect();
    let now: Vec<PointId> = (points.iter().filter(|point| point.id.author == signer && point.trusted().is_some()))
        .map(|point| point.id)
        .collect();
    let due = memory.last + 1 == round && !proofs.is_empty() && !then.is_empty() && !now.is_empty();
    let mut proofs: Vec<PointId> =
        proofs.values().map(|e| PointId { round: memory.last, author: e.author, digest: e.digest }).collect();
    proofs.sort_by_key(|id| id.digest);
    due.then(|| JournalDagEvent::EvidenceNoInclusion { signer, blamed: [then, now].concat(), proofs })
}

/// What is kept of a round.
fn remembered(round: u32, points: &[Drained]) -> Memory {
    let entry = |point: &Drained| {
        let info = point.trusted()?;
        let previous = previous(&point.id, info).map(|id| id.digest);
        let owes =
            |signer: &u32| previous.is_some_and(|signed| !referenced(points, *signer, &signed, |info| &info.includes));
        let signers = (0..32).filter(|signer| info.evidence >> signer & 1 == 1).filter(owes);
        let unreferenced_by = signers.map(|signer| 1 << signer).sum();
        Some(Entry { author: point.id.author, digest: point.id.digest, previous, unreferenced_by })
    };
    Memory { last: round, entries: points.iter().filter_map(entry).collect() }
}

fn sum(a: MempoolPeerCounters, b: MempoolPeerCounters) -> MempoolPeerCounters {
    let (a, b) = (a.list(), b.list());
    MempoolPeerCounters::of(std::array::from_fn(|n| a[n] + b[n]))
}

/// Count times weight, by bands from 1, 10 and 100 on.
fn score(counters: &MempoolPeerCounters) -> u32 {
    let weight = |counter: usize, band: usize| match counter {
        1 => [2, 3, 4][band],
        4 => [20, 40, 60][band],
        5 => [5, 8, 12][band],
        6 | 7 => [10, 15, 20][band],
        8 => [1, 2, 3][band],
        _ => 0,
    };
    let band = |count: u16| usize::from(count >= 10) + usize::from(count >= 100);
    (counters.list().iter().enumerate()).map(|(n, count)| u32::from(*count) * weight(n, band(*count))).sum()
}

impl Heights {
    fn of(&self, key: &Key) -> u32 {
        self.0.get(key).copied().unwrap_or(0)
    }
}

fn refused((number, round): Stop, finished: Vec<Anchor>) -> Answer {
    let refusal = Refusal::of(number, round).expect("a number of the table");
    Answer::Refused(Refused { refusal, finished: finished.len() as u32 }, finished)
}

/// What a resolved point was resolved with: the words of its place, and what the point shows.
fn info_of(words: &[u64], point: &Point, status: Status) -> PointInfo {
    let digest = |at: usize| digest_bytes(&std::array::from_fn(|i| words[at + i]));
    let links = |first: usize| {
        let there = (0..32).filter(move |peer| words[8 + first + peer] != 0);
        there.map(|peer| Link { peer: peer as u32, digest: digest(72 + 4 * (first + peer)) }).collect()
    };
    PointInfo {
        status: status.number(),
        proof: point.proof,
        trigger: point.trigger,
        cause: point.cause,
        top_proof: PointId { round: words[1] as u32, author: words[2] as u32, digest: digest(3) },
        evidence: words[0] as u32,
        includes: links(0),
        witness: links(32),
        payload_len: (words[7] / 4_294_967_296) as u32,
        payload_bytes: (words[7] % 4_294_967_296) as u32,
    }
}

/// The include under the point's own author.
fn previous(id: &PointId, info: &PointInfo) -> Option<PointId> {
    let link = info.includes.iter().find(|link| link.peer == id.author)?;
    Some(PointId { round: id.round - 1, author: id.author, digest: link.digest })
}

/// Where the links of a point lead.
fn targets(round: u32, info: &PointInfo) -> impl Iterator<Item = PointId> {
    let to = |down: u32| move |link: &Link| PointId { round: round - down, author: link.peer, digest: link.digest };
    info.includes.iter().map(to(1)).chain(info.witness.iter().map(to(2)))
}

fn well_formed(round: u32, info: &PointInfo) -> bool {
    let kind = |links: &[Link], down| {
        links.len() <= 32
            && links.iter().all(|link| link.peer < 32)
            && links.is_sorted_by(|a, b| a.peer < b.peer)
            && (links.is_empty() || round >= down)
    };
    let bare = info.includes.is_empty() && info.witness.is_empty() && info.evidence == 0;
    (1..=5).contains(&info.status)
        && (info.status <= 3 || bare)
        && kind(&info.includes, 1)
        && kind(&info.witness, 2)
        && info.top_proof.author < 32
}
