//! The calls.

use std::num::{NonZeroU8, NonZeroU16};

use tokio::sync::mpsc::{UnboundedSender, unbounded_channel};
use tycho_network::PeerId;
use tycho_util::FastHashMap;

use crate::convert;
use crate::dag::dag_point_future::{DagPointFuture, WeakDagPointFuture};
use crate::dag::{Committer, DagRound};
use crate::effects::RoundCtx;
use crate::engine::{ConsensusConfig, EngineError, MempoolConfig};
use crate::intercom::peer_schedule::stats_ranges;
use crate::intercom::{Downloader, PeerSchedule};
use crate::models::{Cert, DagPoint, MempoolPeerStats, Round};
use crate::moderator::JournalDagEvent;
use crate::outcome::{Outcome, caught};
use crate::storage::MempoolStore;
use crate::types::{CommitAnswer, Id, Info, RemoveAnswer, Start};

/// A committer and the rounds that it holds. It is for one thread, and takes no further calls once one has panicked.
pub struct Oracle {
    pub(crate) board: Board,
    panicked: Option<String>,
    place_lists: PlaceLists,
}

/// For each anchor, oldest first, and each round from the anchor's down: which of the points linked there, counted
/// from 0 by rising digest, stands at each position after the shuffle.
pub type PlaceLists = Vec<Vec<Vec<u8>>>;

pub(crate) struct Board {
    pub committer: Committer,
    triggers_tx: UnboundedSender<WeakDagPointFuture>,
    conf: MempoolConfig,
    /// rounds are made with the start's genesis, see `new_strict`
    strict: bool,
}

/// Why the Rust has no such call.
type NoCall = &'static str;

/// What `remove_committed` returns.
type Removed = (FastHashMap<PeerId, MempoolPeerStats>, Vec<JournalDagEvent>);

impl Default for Oracle {
    fn default() -> Self {
        Self::new()
    }
}

impl Oracle {
    /// Rounds take any set of peers, but round 0, which must have one peer.
    pub fn new() -> Oracle {
        Self::with(false)
    }

    /// Rounds are made as the Rust makes them: genesis and the round before must have one peer, and no round is
    /// further down.
    pub fn new_strict() -> Oracle {
        Self::with(true)
    }

    fn with(strict: bool) -> Oracle {
        let (triggers_tx, triggers_rx) = unbounded_channel();
        let board = Board {
            committer: Committer::new(triggers_rx),
            triggers_tx,
            // not read before a start
            conf: conf(0, NonZeroU8::MIN, 0),
            strict,
        };
        Oracle { board, panicked: None, place_lists: Vec::new() }
    }

    /// `Committer::init` with a new bottom round, its used mark set as in `DagFront::new`.
    pub fn start(&mut self, start: &Start) -> Outcome<()> {
        self.call(|board| board.start(start))
    }

    pub fn reset(&mut self) -> Outcome<()> {
        self.call(|board| {
            board.committer.reset();
            Ok(())
        })
    }

    /// `DagRound::new_next` above the top, else `new_bottom`; then `Committer::extend_from_ahead`.
    pub fn round(&mut self, round: u32, peers: u32) -> Outcome<()> {
        self.call(|board| {
            board.round(round, peers);
            Ok(())
        })
    }

    /// `DagRound::add_pruned_broadcast`: a point that is pending. One that is there stays as it is.
    pub fn name(&mut self, id: &Id) -> Outcome<()> {
        self.call(|board| {
            let point_id = convert::point_id(id);
            board.held(id.round)?.add_pruned_broadcast(
                &point_id.author,
                &point_id.digest,
                &Downloader,
                &MempoolStore,
                &RoundCtx,
            );
            Ok(())
        })
    }

    /// The pending point becomes ready. Statuses 1 to 3 give its certificate the dependencies, and, as in the Rust, a
    /// link to a point that isn't named in a round that is held names it.
    pub fn resolve(&mut self, id: &Id, info: &Info) -> Outcome<()> {
        self.call(|board| {
            let resolution = convert::resolution(id, info)?;
            let future = board.point(id)?;
            if future.resolved().is_some() {
                return Err("a point resolves once");
            }
            future.resolve(board.held(id.round)?, resolution);
            Ok(())
        })
    }

    /// `Cert::certify`, before or after the point is resolved.
    pub fn certify(&mut self, id: &Id) -> Outcome<()> {
        self.call(|board| {
            board.point(id)?.cert().certify(&board.conf);
            Ok(())
        })
    }

    /// `Committer::is_once_after_gap`
    pub fn gap_question(&mut self) -> Outcome<bool> {
        self.call(|board| Ok(board.committer.is_once_after_gap()))
    }

    pub fn drop_upto(&mut self, round: u32) -> Outcome<bool> {
        self.call(|board| Ok(board.committer.drop_upto(Round(round), &board.conf)))
    }

    /// `Committer::commit` with the resolved point; below the bottom, with a valid trigger made for the call.
    pub fn commit(&mut self, trigger: &Id) -> Outcome<CommitAnswer> {
        let outcome = self.call(|board| board.commit(trigger));
        self.place_lists = rand::take_kept();
        outcome
    }

    /// What the shuffles of the last commit did. A conflict and a panic leave them short.
    pub fn place_lists(&self) -> &PlaceLists {
        &self.place_lists
    }

    /// `Committer::remove_committed`
    pub fn remove(&mut self, anchor: u32, stats_since: Option<u32>) -> Outcome<RemoveAnswer> {
        self.call(|board| Ok(board.remove(anchor, stats_since)))
    }

    /// Likewise, and only the numbers of peers and of events: what is timed has no sorting in it.
    pub fn remove_counts(&mut self, anchor: u32, stats_since: Option<u32>) -> Outcome<(usize, usize)> {
        self.call(|board| {
            let (stats, events) = board.removed(anchor, stats_since);
            Ok((stats.len(), events.len()))
        })
    }

    fn call<T>(&mut self, call: impl FnOnce(&mut Board) -> Result<T, NoCall>) -> Outcome<T> {
        if let Some(message) = &self.panicked {
            return Outcome::Panicked(message.clone());
        }
        match caught(|| call(&mut self.board)) {
            Ok(Ok(answer)) => Outcome::Done(answer),
            Ok(Err(why)) => Outcome::NoCall(why),
            Err(message) => {
                self.panicked = Some(message.clone());
                Outcome::Panicked(message)
            }
        }
    }
}

impl Board {
    fn start(&mut self, start: &Start) -> Result<(), NoCall> {
        let commit_history_rounds = (u8::try_from(start.commit_history_rounds).ok())
            .and_then(NonZeroU8::new)
            .ok_or("`commit_history_rounds` is 1 to 255")?;
        let deduplicate_rounds =
            (start.deduplicate_rounds.try_into()).map_err(|_| "`deduplicate_rounds` is at most 65,535")?;
        self.conf = conf(start.genesis, commit_history_rounds, deduplicate_rounds);
        let bottom = self.new_bottom(start.bottom, start.peers);
        if let Some(used) = start.used {
            let new_mark = bottom.used_anchor_proof().set(convert::peer_id(used));
            new_mark.expect("the round is new");
        }
        self.committer.init(&bottom, start.after_gap, &self.conf);
        Ok(())
    }

    fn round(&mut self, round: u32, peers: u32) {
        let top = self.committer.read_dag().top();
        let new = if top.round().0.checked_add(1) == Some(round) {
            top.new_next(&self.triggers_tx, &schedule(peers), &self.round_conf(round))
        } else {
            self.new_bottom(round, peers)
        };
        self.committer.extend_from_ahead(&[new]);
    }

    fn new_bottom(&self, round: u32, peers: u32) -> DagRound {
        DagRound::new_bottom(Round(round), &self.triggers_tx, &schedule(peers), &self.round_conf(round))
    }

    /// The configuration that a round is made with. Unless strict, genesis is taken as lying below the round, so that
    /// the number of peers isn't tested; below round 0 there is none, and round 0 passes as the one before genesis.
    fn round_conf(&self, round: u32) -> MempoolConfig {
        let mut conf = self.conf.clone();
        if !self.strict {
            conf.genesis_round = Round(if round == 0 { 1 } else { 0 });
        }
        conf
    }

    fn held(&self, round: u32) -> Result<&DagRound, NoCall> {
        self.committer.read_dag().get(Round(round)).ok_or("points are in rounds that are held")
    }

    fn point(&self, id: &Id) -> Result<DagPointFuture, NoCall> {
        let point_id = convert::point_id(id);
        (self.held(id.round)?)
            .view(&point_id.author, |location| location.versions.get(&point_id.digest).cloned())
            .flatten()
            .ok_or("the point isn't named")
    }

    fn commit(&mut self, trigger: &Id) -> Result<CommitAnswer, NoCall> {
        let trigger = self.trigger(trigger)?;
        match self.committer.commit(&trigger, &self.conf) {
            Ok(anchors) => Ok(CommitAnswer::Anchors(anchors.iter().map(convert::anchor).collect())),
            Err(EngineError::HistoryConflict(conflict)) => Ok(CommitAnswer::HistoryConflict(conflict.0.0)),
            Err(EngineError::Cancelled) => unreachable!("no stand-in cancels"),
        }
    }

    fn trigger(&self, id: &Id) -> Result<DagPoint, NoCall> {
        let bottom = self.committer.read_dag().read_rounds().keys().next();
        if bottom.is_none_or(|bottom| id.round < bottom.0) {
            return Ok(trigger_not_held(id));
        }
        self.point(id)?.resolved().cloned().ok_or("the trigger isn't resolved")
    }

    fn removed(&mut self, anchor: u32, stats_since: Option<u32>) -> Removed {
        let ranges = stats_ranges(stats_since.map(Round));
        (self.committer).remove_committed(Round(anchor), &ranges, &self.conf).expect("no stand-in cancels")
    }

    fn remove(&mut self, anchor: u32, stats_since: Option<u32>) -> RemoveAnswer {
        let (stats, events) = self.removed(anchor, stats_since);
        let mut peers: Vec<_> = stats.iter().filter_map(|(peer, stats)| convert::peer_stats(peer, stats)).collect();
        peers.sort_unstable_by_key(|stats| stats.peer);
        let mut events: Vec<_> = events.iter().map(convert::event).collect();
        events.sort_by_key(convert::event_key);
        RemoveAnswer { peers, events }
    }
}

fn conf(genesis: u32, commit_history_rounds: NonZeroU8, deduplicate_rounds: u16) -> MempoolConfig {
    MempoolConfig {
        consensus: ConsensusConfig {
            commit_history_rounds,
            deduplicate_rounds,
            // read by `stats_since` only, whose epoch doesn't depend on it
            max_consensus_lag_rounds: NonZeroU16::MIN,
        },
        genesis_round: Round(genesis),
    }
}

fn schedule(peers: u32) -> PeerSchedule {
    PeerSchedule::new(convert::peers(peers).collect())
}

/// A trigger whose round is gone: the engine may still have it in hand.
fn trigger_not_held(id: &Id) -> DagPoint {
    let info = Info {
        status: 1,
        proof: false,
        trigger: true,
        cause: false,
        top_proof: *id,
        evidence: 0,
        includes: Vec::new(),
        witness: Vec::new(),
        payload_len: 0,
        payload_bytes: 0,
    };
    let info = convert::info_of(id, &info).expect("it has no links");
    DagPoint::new_valid(info, Cert::default(), &Default::default())
}
