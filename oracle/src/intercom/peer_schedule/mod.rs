//! Stand-in: one set of peers for whatever round is asked, given anew for each round that is made.

pub mod epoch_starts;
pub mod stats_ranges;

use std::sync::Arc;

use tycho_network::PeerId;

use self::epoch_starts::EpochStarts;
pub use self::stats_ranges::StatsRanges;
use crate::dag::dag_round::RequireRegularPoints;
use crate::models::Round;

pub struct PeerSchedule(PeerScheduleStateless);

#[derive(Clone)]
pub struct PeerScheduleStateless(Arc<Vec<PeerId>>);

impl PeerSchedule {
    pub fn new(peers: Vec<PeerId>) -> Self {
        Self(PeerScheduleStateless(Arc::new(peers)))
    }
    pub fn atomic(&self) -> PeerScheduleStateless {
        self.0.clone()
    }
}

impl PeerScheduleStateless {
    pub fn peers_for(&self, _: Round) -> &Arc<Vec<PeerId>> {
        &self.0
    }
    pub fn require_regular_points(&self, _: Round) -> RequireRegularPoints {
        RequireRegularPoints(false)
    }
}

/// Ranges whose `stats_since` answers what is given.
pub fn stats_ranges(stats_since: Option<Round>) -> StatsRanges {
    StatsRanges { stats_slot_maps: Default::default(), epoch_starts: EpochStarts(stats_since) }
}
