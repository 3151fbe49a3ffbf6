//! Lists of calls made up by chance, through the library and through the model: same answers, same points, same
//! summary.

use std::collections::BTreeMap;

use committer::{Anchor, Answer, Call, Committer, Link, PLACES_MAX, PointId, PointInfo, Start};

use crate::common::{Noise, assert_outlook, assert_unchanged, paid, version};
use crate::model::Model;
use crate::records::assert_recorded;

struct Run {
    noise: Noise,
    /// of place lists alone
    lists: Noise,
    /// of payload numbers alone
    payloads: Noise,
    /// of top proofs that aren't named alone
    top_proofs: Noise,
    committer: Committer,
    model: Model,
    /// how many calls of a name were answered with a number, 0 if not refused
    answers: BTreeMap<(&'static str, u32), u32>,
    /// how many anchors commits handed out, and outlooks told
    anchors: [u32; 2],
    /// how many records have three points or more of a round, not by falling digest
    mixed: u32,
    /// how many sums of records are beyond 32 bits, and how many are 0
    sums: [u32; 2],
    /// how many links of records have each of the words
    words: [u32; 3],
    /// how many commits were refused with 24 after an anchor
    stopped: u32,
    /// how many events of a kind, and stats of peers, removes reported
    events: [u32; 6],
    peers: u32,
    /// authors that have points, at most 32
    authors: u32,
    /// of so many points of a row one has something wrong
    fault_in: u32,
}

impl Run {
    fn new(seed: u64, places: usize, authors: u32) -> Run {
        Run {
            noise: Noise::new(seed),
            lists: Noise::new(seed + 2_000_000),
            payloads: Noise::new(seed + 3_000_000),
            top_proofs: Noise::new(seed + 4_000_000),
            committer: Committer::new(places),
            model: Model::new(places),
            answers: BTreeMap::new(),
            anchors: [0; 2],
            mixed: 0,
            sums: [0; 2],
            words: [0; 3],
            stopped: 0,
            events: [0; 6],
            peers: 0,
            authors,
            fault_in: 60,
        }
    }

    fn make(&mut self, call: &Call) {
        assert_recorded(call);
        let expected = self.model.call(call);
        let before = self.committer.clone();
        let answer = self.committer.call(call);
        assert_eq!(answer, expected, "{call:?}");
        match &answer {
            Answer::Refused(why, _) if why.finished == 0 => assert_unchanged(&self.committer, &before),
            Answer::Refused(why, finished) => {
                self.count(finished);
                self.stopped += u32::from(why.number() == 24);
            }
            Answer::Handed(anchors) => {
                self.anchors[0] += anchors.len() as u32;
                self.count(anchors);
            }
            Answer::Looked(looks) => self.anchors[1] += looks.len() as u32,
            Answer::Removed(told) => {
                told.events.iter().for_each(|event| self.events[event.kind() as usize] += 1);
                self.peers += told.peers.len() as u32;
            }
            _ => {}
        }
        if let Call::Outlook(trigger) | Call::Commit(trigger, _) = call {
            assert_outlook(&before, trigger);
        }
        *self.answers.entry((name(call), number(&answer))).or_insert(0) += 1;
    }

    /// What the records of a commit are like.
    fn count(&mut self, anchors: &[Anchor]) {
        self.mixed += mixed(anchors);
        for sum in anchors.iter().flat_map(|anchor| [anchor.payload_len, anchor.payload_bytes]) {
            self.sums[0] += u32::from(sum > u32::MAX.into());
            self.sums[1] += u32::from(sum == 0);
        }
        for link in anchors.iter().flat_map(|anchor| &anchor.links) {
            self.words[link.word as usize] += 1;
        }
    }

    fn compare(&self) {
        assert_eq!(self.committer.summary(), self.model.summary());
        assert_eq!(self.committer.memory(), *self.model.memory());
        assert_eq!(self.committer.points(), self.model.points());
    }

    /// A call that often is accepted.
    fn any_call(&mut self) -> Call {
        let due = if self.model.summary().is_none() { 2 } else { 150 };
        if self.noise.one_in(due) {
            return self.any_start();
        }
        match self.noise.below(100) {
            0..10 => self.any_round(),
            10..41 => Call::Name(self.any_id()),
            41..43 => self.any_commit(),
            43..45 => Call::Outlook(self.any_trigger()),
            45..75 => self.any_resolve(),
            75..90 => Call::Certify(self.any_known()),
            90..95 => Call::Drop(self.any_drop()),
            95..98 => Call::Gap,
            98 => self.any_remove(),
            _ if self.noise.one_in(6) => Call::Reset,
            _ => Call::Gap,
        }
    }

    fn any_start(&mut self) -> Call {
        let noise = &mut self.noise;
        let genesis = noise.below(6);
        Call::Start(Start {
            genesis,
            commit_history_rounds: if noise.one_in(8) { noise.below(300) } else { 1 + noise.below(6) },
            deduplicate_rounds: if noise.one_in(8) { noise.below(140_000) } else { noise.below(9) },
            bottom: (genesis + noise.below(9)).saturating_sub(1),
            peers: !0 >> noise.below(3),
            after_gap: noise.one_in(2),
            used: if noise.one_in(2) { Some(noise.below(34)) } else { None },
        })
    }

    fn rounds(&self) -> (u32, u32) {
        self.model.summary().map_or((0, 0), |summary| (summary.bottom, summary.top))
    }

    fn any_round(&mut self) -> Call {
        let (_, top) = self.rounds();
        let round = if self.noise.one_in(5) { top + 2 - self.noise.below(4).min(top) } else { top + 1 };
        let peers = if self.noise.one_in(4) { self.noise.word() as u32 } else { u32::MAX };
        Call::Round { round, peers }
    }

    /// A round that mostly is retained.
    fn near(&mut self) -> u32 {
        let (bottom, top) = self.rounds();
        match self.noise.below(20) {
            0 => top + 1 + self.noise.below(3),
            1 => bottom.saturating_sub(1 + self.noise.below(3)),
            _ => bottom + self.noise.below(top - bottom + 1),
        }
    }

    fn any_id(&mut self) -> PointId {
        let round = self.near();
        let author = if self.noise.one_in(20) { self.noise.below(40) } else { self.noise.below(self.authors) };
        let id = version(round, author, self.noise.below(6));
        // the digest of another author of the round
        if self.noise.one_in(20) { PointId { author: self.noise.below(self.authors), ..id } } else { id }
    }

    /// The id of a point that is named, mostly.
    fn any_known(&mut self) -> PointId {
        let ids = self.model.ids();
        if ids.is_empty() || self.noise.one_in(10) {
            return self.any_id();
        }
        ids[self.noise.below(ids.len() as u32) as usize].0
    }

    /// A point that is a trigger, mostly.
    fn any_trigger(&mut self) -> PointId {
        let points = self.model.points();
        let triggers: Vec<PointId> = points.iter().filter(|point| point.trigger).map(|point| point.id).collect();
        if triggers.is_empty() || self.noise.one_in(10) {
            return self.any_known();
        }
        triggers[self.noise.below(triggers.len() as u32) as usize]
    }

    /// A commit whose lists mostly are right.
    fn any_commit(&mut self) -> Call {
        let trigger = self.any_trigger();
        let mut lists = self.any_lists(&trigger);
        match (self.lists.below(6), lists.len() as u32) {
            (0, n) if n > 0 => lists[self.lists.below(n) as usize] = self.lists.below(5) as u8,
            (1, n) if n > 0 => lists.truncate(self.lists.below(n) as usize),
            (2, _) => lists.extend([self.lists.word() as u8; 3]),
            _ => {}
        }
        Call::Commit(trigger, lists)
    }

    /// Right lists for all anchors of a commit, each shuffled.
    fn any_lists(&mut self, trigger: &PointId) -> Vec<u8> {
        let looks = self.model.looks(trigger);
        looks.iter().flat_map(|look| &look.linked).flat_map(|length| self.lists.shuffled(*length)).collect()
    }

    /// The resolution with payload numbers that are 0, small, the largest, or any.
    fn any_paid(&mut self, info: PointInfo) -> PointInfo {
        let mut number = || match self.payloads.below(4) {
            0 => 0,
            1 => self.payloads.below(100),
            2 => u32::MAX,
            _ => self.payloads.word() as u32,
        };
        paid(info, (number(), number()))
    }

    /// A round that mostly isn't above the last anchor.
    fn any_remove(&mut self) -> Call {
        let (bottom, top) = self.rounds();
        let last = self.model.summary().and_then(|summary| summary.last_anchor).unwrap_or(top);
        let round = match self.noise.below(8) {
            0 => last + self.noise.below(3),
            1 => self.noise.below(top + 2),
            _ => last - self.noise.below(3).min(last),
        };
        let since = match self.noise.below(4) {
            0 => None,
            1 => Some(bottom + self.noise.below(top - bottom + 1)),
            _ => Some(0),
        };
        Call::Remove { round, since }
    }

    /// A row more: a point of each author that includes most of the row below, anchors and proofs in turn. Now and then
    /// something is wrong with it, or other calls come between.
    fn add_row(&mut self) {
        let round = self.rounds().1 + 1;
        self.make(&Call::Round { round, peers: u32::MAX });
        let first = |id: &PointId| id.round + 1 == round && *id == version(id.round, id.author, 0);
        let below: Vec<PointId> = self.model.ids().iter().map(|(id, _)| *id).filter(first).collect();
        let links: BTreeMap<u32, Link> =
            below.iter().map(|id| (id.author, Link { peer: id.author, digest: id.digest })).collect();
        for author in 0..self.authors {
            let id = version(round, author, 0);
            self.make(&Call::Name(id));
            let status = if self.noise.one_in(self.fault_in) { 1 + self.noise.below(5) } else { 1 };
            let linked = status <= 3 && !self.noise.one_in(self.fault_in);
            let sought = !self.top_proofs.one_in(2 * self.fault_in);
            let evidence = if linked && self.noise.one_in(2) { self.noise.below(8) } else { 0 };
            let info = PointInfo {
                status,
                proof: round % 2 == 0,
                trigger: round % 2 == 1 && (author == 0 || self.noise.one_in(10)),
                top_proof: version(round.saturating_sub(1), author, if sought { 0 } else { 9 }),
                cause: self.noise.one_in(2),
                evidence,
                includes: if linked { self.most(author, &links) } else { Vec::new() },
                witness: if linked && self.noise.one_in(4) { self.any_links(round, 2) } else { Vec::new() },
                ..PointInfo::default()
            };
            let info = self.any_paid(info);
            if !self.noise.one_in(self.fault_in) {
                self.make(&Call::Resolve(id, info));
            }
            if self.noise.one_in(2) {
                self.make(&Call::Certify(id));
            }
            if self.noise.one_in(6) {
                self.add_fork(author, round, &links);
            }
        }
    }

    /// Its own, and most of the others.
    fn most(&mut self, author: u32, links: &BTreeMap<u32, Link>) -> Vec<Link> {
        let all = self.noise.one_in(2);
        links.values().copied().filter(|link| all || link.peer == author || !self.noise.one_in(3)).collect()
    }

    /// A second version that no point links to, of any status.
    fn add_fork(&mut self, author: u32, round: u32, links: &BTreeMap<u32, Link>) {
        let id = version(round, author, 1 + self.noise.below(3));
        self.make(&Call::Name(id));
        let status = 1 + self.noise.below(5);
        let linked = status <= 3;
        let info = PointInfo {
            status,
            cause: self.noise.one_in(2),
            evidence: if linked { self.noise.below(8) } else { 0 },
            includes: if linked { self.most(author, links) } else { Vec::new() },
            ..PointInfo::default()
        };
        let info = self.any_paid(info);
        self.make(&Call::Resolve(id, info));
    }

    /// What follows a row: an outlook, a commit, the gap question, a remove, a drop, or any call.
    fn after_row(&mut self) {
        let call = match self.noise.below(28) {
            0..9 => Call::Outlook(self.any_trigger()),
            9..15 => self.any_commit(),
            15..17 => Call::Gap,
            17..19 => Call::Drop(self.any_drop()),
            19 => self.any_call(),
            20..25 => self.any_remove(),
            _ => return,
        };
        self.make(&call);
    }

    fn any_resolve(&mut self) -> Call {
        let open: Vec<PointId> = self.model.ids().iter().filter(|(_, resolved)| !resolved).map(|(id, _)| *id).collect();
        let id = match open.len() {
            0 => self.any_known(),
            _ if self.noise.one_in(6) => self.any_known(),
            n => open[self.noise.below(n as u32) as usize],
        };
        let statuses = if self.noise.one_in(4) { 6 } else { 3 };
        let mut info = PointInfo {
            status: 1 + self.noise.below(statuses),
            proof: self.noise.one_in(2),
            trigger: self.noise.one_in(2),
            cause: self.noise.one_in(2),
            top_proof: PointId { author: if self.noise.one_in(40) { 32 } else { 31 }, ..id },
            evidence: if self.noise.one_in(2) { self.noise.word() as u32 } else { 0 },
            includes: self.any_links(id.round, 1),
            witness: self.any_links(id.round, 2),
            ..PointInfo::default()
        };
        if info.status > 3 && !self.noise.one_in(4) {
            info = PointInfo { evidence: 0, includes: Vec::new(), witness: Vec::new(), ..info };
        }
        Call::Resolve(id, self.any_paid(info))
    }

    /// Links to points that are named, mostly one for each author, with a fault now and then.
    fn any_links(&mut self, round: u32, down: u32) -> Vec<Link> {
        let Some(to) = round.checked_sub(down) else {
            return if self.noise.one_in(10) { vec![Link::default()] } else { Vec::new() };
        };
        let mut links: BTreeMap<u32, Link> = BTreeMap::new();
        for (id, _) in self.model.ids() {
            if id.round == to && !self.noise.one_in(3) {
                links.insert(id.author, Link { peer: id.author, digest: id.digest });
            }
        }
        let mut links: Vec<Link> = links.into_values().collect();
        if self.noise.one_in(30) {
            let stray = version(to, self.noise.below(34), 5);
            links.push(Link { peer: stray.author, digest: stray.digest });
        }
        if self.noise.one_in(30) {
            links.reverse();
        }
        links
    }

    fn any_drop(&mut self) -> u32 {
        let (bottom, top) = self.rounds();
        match self.noise.below(12) {
            0 => top + self.noise.below(4),
            1 => self.noise.below(bottom + 1),
            _ => bottom + self.noise.below((top - bottom) / 2 + 1),
        }
    }
}

/// How many of these have three points or more of a round, not by falling digest.
fn mixed(anchors: &[Anchor]) -> u32 {
    let of_round = |a: &PointId, b: &PointId| a.round == b.round;
    let is_mixed = |points: &[PointId]| points.len() > 2 && !points.is_sorted_by(|a, b| a.digest > b.digest);
    anchors.iter().filter(|anchor| anchor.points.chunk_by(of_round).any(is_mixed)).count() as u32
}

fn name(call: &Call) -> &'static str {
    match call {
        Call::Start(_) => "start",
        Call::Round { .. } => "round",
        Call::Name(_) => "name",
        Call::Resolve(..) => "resolve",
        Call::Certify(_) => "certify",
        Call::Drop(_) => "drop",
        Call::Gap => "gap",
        Call::Reset => "reset",
        Call::Commit(..) => "commit",
        Call::Outlook(_) => "outlook",
        Call::Remove { .. } => "remove",
    }
}

fn number(answer: &Answer) -> u32 {
    match answer {
        Answer::Refused(why, _) => why.number(),
        _ => 0,
    }
}

type Answers = BTreeMap<(&'static str, u32), u32>;

/// Runs of a seed each; what was answered how often.
fn runs(seeds: std::ops::Range<u64>, calls: u32) -> Answers {
    let mut all = BTreeMap::new();
    for seed in seeds {
        let mut shape = Noise::new(seed + 1_000_000);
        let places = 1 + shape.below(60) as usize;
        let mut run = Run::new(seed, places, 1 + shape.below(8));
        for _ in 0..calls {
            let call = run.any_call();
            run.make(&call);
            run.compare();
        }
        add(&mut all, &run.answers);
    }
    all
}

fn add(all: &mut Answers, answers: &Answers) {
    for (answer, count) in answers {
        *all.entry(*answer).or_insert(0) += count;
    }
}

/// Each call was accepted, or refused with a number, at least so often.
fn assert_met(answers: &Answers, least: u32, expected: &[(&'static str, &[u32])]) {
    for (name, numbers) in expected {
        for number in *numbers {
            let count = answers.get(&(name, *number)).copied().unwrap_or(0);
            assert!(count >= least, "{name} with {number}: {count} times, of {answers:?}");
        }
    }
}

#[test]
fn small_boards() {
    let expected: [(&str, &[u32]); 11] = [
        ("start", &[0, 1, 2]),
        ("round", &[0, 2, 3]),
        ("name", &[0, 2, 4, 5, 6, 7, 8]),
        ("resolve", &[0, 2, 5, 6, 9, 10, 11, 12]),
        ("certify", &[0, 2, 5, 6, 9]),
        ("drop", &[0, 2]),
        ("gap", &[0, 2]),
        ("reset", &[0]),
        ("commit", &[0, 9, 13, 15, 16]),
        ("outlook", &[0, 9, 13, 15, 16]),
        ("remove", &[23]),
    ];
    assert_met(&runs(0..150, 400), 10, &expected);
}

/// Boards whose triggers yield anchors: outlooks between commits, removes, drops and gap questions.
#[test]
fn boards_that_commit() {
    let mut answers = Answers::new();
    let mut anchors = [0; 2];
    let (mut mixed, mut stopped, mut sums, mut words) = (0, 0, [0; 2], [0; 3]);
    for seed in 0..250 {
        let mut run = Run::new(seed, 130, 1 + seed as u32 % 3);
        let noise = &mut run.noise;
        let genesis = noise.below(6);
        let with = Start {
            genesis,
            commit_history_rounds: 1 + noise.below(6),
            deduplicate_rounds: noise.below(9),
            bottom: genesis + noise.below(3),
            peers: u32::MAX,
            after_gap: noise.one_in(3),
            used: Some(0),
        };
        run.make(&Call::Start(with));
        for _ in 0..40 {
            if run.model.summary().is_none() {
                break;
            }
            run.add_row();
            run.after_row();
            run.compare();
        }
        add(&mut answers, &run.answers);
        anchors = [anchors[0] + run.anchors[0], anchors[1] + run.anchors[1]];
        mixed += run.mixed;
        stopped += run.stopped;
        sums = [sums[0] + run.sums[0], sums[1] + run.sums[1]];
        (0..3).for_each(|word| words[word] += run.words[word]);
    }
    assert_met(&answers, 10, &[("commit", &[0, 13, 14, 16, 18, 20, 24, 25])]);
    assert_met(&answers, 10, &[("outlook", &[0, 13, 14, 15, 16, 17, 18, 25])]);
    assert_met(&answers, 10, &[("remove", &[0, 23])]);
    assert!(!answers.contains_key(&("outlook", 20)) && !answers.contains_key(&("outlook", 24)));
    assert!(mixed >= 20 && stopped >= 10, "records of three in a round, 24 after an anchor: {mixed}, {stopped}");
    assert!(sums[0] >= 50 && sums[1] >= 5, "sums beyond 32 bits, sums of 0: {sums:?}");
    assert!(words.iter().all(|count| *count >= 30), "links by word: {words:?}");
    assert!(anchors[0] >= 100 && anchors[1] >= 500, "handed out and told: {anchors:?}");
}

/// Boards that commit row by row and remove what is behind, with a reset now and then: what removes report.
#[test]
fn boards_that_remove() {
    let mut answers = Answers::new();
    let mut events = [0; 6];
    let mut peers = 0;
    for seed in 0..200 {
        let mut run = Run::new(seed, 130, 2 + seed as u32 % 3);
        run.fault_in = 400;
        let with = Start {
            genesis: 1,
            commit_history_rounds: 1 + run.noise.below(3),
            deduplicate_rounds: run.noise.below(3),
            bottom: 2,
            peers: u32::MAX,
            after_gap: run.noise.one_in(8),
            used: Some(0),
        };
        run.make(&Call::Start(with));
        for _ in 0..30 {
            run.add_row();
            let top = run.rounds().1;
            if top % 2 == 1 {
                run.make(&Call::Gap);
                run.make(&Call::Certify(version(top - 2, 0, 0)));
                let trigger = version(top, 0, 0);
                let lists = run.any_lists(&trigger);
                run.make(&Call::Commit(trigger, lists));
            }
            if !run.noise.one_in(3) {
                let call = run.any_remove();
                run.make(&call);
            }
            run.compare();
            if run.noise.one_in(20) {
                let (bottom, top) = run.rounds();
                let again = bottom + run.noise.below(3).min(top - bottom);
                run.make(&Call::Reset);
                run.make(&Call::Start(Start { bottom: again, ..with }));
                run.compare();
            }
        }
        add(&mut answers, &run.answers);
        (0..6).for_each(|kind| events[kind] += run.events[kind]);
        peers += run.peers;
    }
    assert_met(&answers, 100, &[("remove", &[0, 23])]);
    assert!(peers >= 1000 && events[1..].iter().all(|count| *count >= 50), "of removes: {peers}, {events:?}");
}

/// Full tables, many links: compared now and then, since following every path takes its time.
#[test]
fn a_large_board() {
    let mut run = Run::new(7, PLACES_MAX, 32);
    run.make(&Call::Start(Start {
        genesis: 1,
        commit_history_rounds: 40,
        bottom: 1,
        peers: u32::MAX,
        ..Start::default()
    }));
    for round in 2..=60 {
        run.make(&Call::Round { round, peers: u32::MAX });
    }
    for k in 0..2500 {
        let call = match run.noise.below(100) {
            0..55 => Call::Name(run.any_id()),
            55..97 => run.any_resolve(),
            97..99 => Call::Certify(run.any_known()),
            _ => Call::Drop(run.rounds().0 + run.noise.below(2)),
        };
        run.make(&call);
        if k % 50 == 0 {
            run.compare();
        }
    }
    run.compare();
    assert!(run.model.points().len() > 500);
    assert!(run.model.points().iter().filter(|point| point.is_certified()).count() > 100);
}
