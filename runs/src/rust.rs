//! The Rust's side: the oracle, driven by the same calls.

use committer::{
    Anchor, Call, JournalDagEvent, Link, MempoolPeerCounters, MempoolPeerStats, PointId, PointInfo, Removal, Start,
};
use oracle::{CommitAnswer, Event, Id, Info, Oracle, Outcome, PeerStats, PlaceLists, RemoveAnswer};

use crate::removes::score;
use crate::view::{Answer, Memory, PeerMemory, Point, Refused, Round, State, Told, View};

pub struct Rust(Oracle);

/// Why a number of ours has no counterpart.
const NO_KEY: &str = "a peer is a key, numbered by a byte";

impl Default for Rust {
    fn default() -> Rust {
        Rust(Oracle::new())
    }
}

impl Rust {
    /// Rounds are made with the Rust's own assertions.
    pub fn strict() -> Rust {
        Rust(Oracle::new_strict())
    }

    /// One that took these calls, each of which it took before.
    pub fn after<'a>(calls: impl IntoIterator<Item = &'a Call>) -> Rust {
        let mut rust = Rust::default();
        for call in calls {
            rust.call(call);
        }
        rust
    }

    pub fn call(&mut self, call: &Call) -> Told {
        self.told(call).unwrap_or_else(Told::NoCall)
    }

    fn told(&mut self, call: &Call) -> Result<Told, &'static str> {
        let oracle = &mut self.0;
        Ok(match call {
            Call::Start(with) => done(oracle.start(&start(with)?)),
            Call::Round { round, peers } => done(oracle.round(*round, *peers)),
            Call::Name(id) => done(oracle.name(&plain(id)?)),
            Call::Resolve(id, told) => done(oracle.resolve(&plain(id)?, &info(told)?)),
            Call::Certify(id) => done(oracle.certify(&plain(id)?)),
            Call::Drop(round) => said(oracle.drop_upto(*round)),
            Call::Gap => said(oracle.gap_question()),
            Call::Reset => done(oracle.reset()),
            Call::Commit(id, _) => committed(oracle.commit(&plain(id)?)),
            Call::Remove { round, since } => removed(oracle.remove(*round, *since)),
            Call::Outlook(_) => return Err("the Rust has no outlook"),
        })
    }

    /// Of the last commit.
    pub fn place_lists(&self) -> &PlaceLists {
        self.0.place_lists()
    }

    /// A remove as it is timed: its answer is counted and not read.
    pub fn remove_counts(&mut self, round: u32, since: Option<u32>) -> Outcome<(usize, usize)> {
        self.0.remove_counts(round, since)
    }

    pub fn view(&self) -> View {
        let read = self.0.state();
        let state = read.bottom.zip(read.top).map(|(bottom, top)| State {
            bottom,
            top,
            last_committed_proof: read.last_committed_proof,
            full_history_bottom: read.full_history_bottom,
            first_executable: read.first_executable,
            emit_first_after_gap: read.emit_first_after_gap,
            rounds: (read.rounds.iter())
                .map(|round| Round { round: round.round, peers: round.authors, used: round.used.map(u32::from) })
                .collect(),
        });
        let mut view =
            View { state, points: self.0.points().iter().map(point).collect(), memory: memory(&self.0.memory()) };
        view.sort();
        view
    }
}

/// Peers whose proofs were all included have nothing left here.
fn memory(memory: &oracle::Memory) -> Memory {
    let peers = memory.peers.iter().map(|peer| {
        let signed = peer.signed_proofs.iter().map(|(digest, proof)| (*digest, vec![id(proof)])).collect();
        (peer.peer.into(), PeerMemory { authored: peer.authored.iter().map(id).collect(), signed })
    });
    let holds = |peer: &PeerMemory| !peer.authored.is_empty() || !peer.signed.is_empty();
    Memory { last: memory.last_round, peers: peers.filter(|(_, peer)| holds(peer)).collect() }
}

fn point(point: &oracle::PointState) -> Point {
    Point { id: id(&point.id), status: point.status.into(), word: point.word, payload: point.payload }
}

// ---- what goes in

fn byte(number: u32) -> Result<u8, &'static str> {
    number.try_into().map_err(|_| NO_KEY)
}

fn plain(id: &PointId) -> Result<Id, &'static str> {
    Ok(Id { round: id.round, author: byte(id.author)?, digest: id.digest })
}

fn start(with: &Start) -> Result<oracle::Start, &'static str> {
    Ok(oracle::Start {
        genesis: with.genesis,
        commit_history_rounds: with.commit_history_rounds,
        deduplicate_rounds: with.deduplicate_rounds,
        bottom: with.bottom,
        peers: with.peers,
        after_gap: with.after_gap,
        used: with.used.map(byte).transpose()?,
    })
}

fn info(info: &PointInfo) -> Result<Info, &'static str> {
    Ok(Info {
        // out of range one way or the other
        status: info.status.min(255) as u8,
        proof: info.proof,
        trigger: info.trigger,
        cause: info.cause,
        top_proof: plain(&info.top_proof)?,
        evidence: info.evidence,
        includes: links(&info.includes)?,
        witness: links(&info.witness)?,
        payload_len: info.payload_len,
        payload_bytes: info.payload_bytes,
    })
}

fn links(links: &[Link]) -> Result<Vec<oracle::Link>, &'static str> {
    links.iter().map(|link| Ok(oracle::Link { peer: byte(link.peer)?, digest: link.digest })).collect()
}

// ---- what comes out

fn id(id: &Id) -> PointId {
    PointId { round: id.round, author: id.author.into(), digest: id.digest }
}

fn told<T>(outcome: Outcome<T>, answer: impl FnOnce(T) -> Answer) -> Told {
    match outcome {
        Outcome::Done(value) => Told::Answer(answer(value)),
        Outcome::Panicked(message) => Told::Panicked(message),
        Outcome::NoCall(why) => Told::NoCall(why),
    }
}

fn done(outcome: Outcome<()>) -> Told {
    told(outcome, |()| Answer::Done)
}

fn said(outcome: Outcome<bool>) -> Told {
    told(outcome, Answer::Said)
}

fn committed(outcome: Outcome<CommitAnswer>) -> Told {
    told(outcome, |answer| match answer {
        CommitAnswer::Anchors(anchors) => Answer::Anchors(anchors.iter().map(anchor).collect()),
        CommitAnswer::HistoryConflict(round) => Answer::Refused(Refused { number: 13, round, finished: Vec::new() }),
    })
}

fn anchor(anchor: &oracle::Anchor) -> Anchor {
    Anchor {
        anchor: id(&anchor.anchor),
        proof: id(&anchor.proof),
        executable: anchor.executable,
        previous: anchor.prev_anchor.unwrap_or(0),
        points: anchor.points.iter().map(id).collect(),
        // the Rust has none
        links: Vec::new(),
        payload_len: anchor.payload_len,
        payload_bytes: anchor.payload_bytes,
    }
}

/// The score isn't in the Rust: it is document 01's of the Rust's counters.
fn removed(outcome: Outcome<RemoveAnswer>) -> Told {
    told(outcome, |answer| {
        let peers = answer.peers.iter().map(peer_stats).collect();
        Answer::Removed(Removal { peers, events: answer.events.iter().map(event).collect() })
    })
}

fn peer_stats(stats: &PeerStats) -> MempoolPeerStats {
    MempoolPeerStats {
        peer: stats.peer.into(),
        first_round: stats.first_round,
        last_round: stats.last_round,
        counters: MempoolPeerCounters::of(stats.counters),
        score: score(&stats.counters),
    }
}

fn event(event: &Event) -> JournalDagEvent {
    let ids = |ids: &[Id]| ids.iter().map(id).collect();
    match event {
        Event::TransInvalid(point) => JournalDagEvent::TransInvalid(id(point)),
        Event::Invalid(point) => JournalDagEvent::Invalid(id(point)),
        Event::IllFormed(point) => JournalDagEvent::IllFormed(id(point)),
        Event::Equivocated { author, round, digests } => {
            JournalDagEvent::Equivocated { author: (*author).into(), round: *round, digests: digests.clone() }
        }
        Event::EvidenceNoInclusion { signer, blamed, proofs } => {
            JournalDagEvent::EvidenceNoInclusion { signer: (*signer).into(), blamed: ids(blamed), proofs: ids(proofs) }
        }
    }
}
