//! Stand-in: the values of the configuration that the sources read, and the errors of a commit.

use std::num::{NonZeroU8, NonZeroU16};

use crate::dag::HistoryConflict;
use crate::effects::Cancelled;
use crate::models::Round;

#[derive(Clone)]
pub struct MempoolConfig {
    pub consensus: ConsensusConfig,
    pub genesis_round: Round,
}

#[derive(Clone)]
pub struct ConsensusConfig {
    pub commit_history_rounds: NonZeroU8,
    pub deduplicate_rounds: u16,
    pub max_consensus_lag_rounds: NonZeroU16,
}

pub struct NodeConfig {
    pub weak_dag_round_links: NonZeroU8,
}

impl NodeConfig {
    pub fn get() -> Self {
        Self { weak_dag_round_links: NonZeroU8::new(7).expect("the Rust's default") }
    }
}

#[derive(Debug)]
pub enum EngineError {
    Cancelled,
    HistoryConflict(HistoryConflict),
}
pub type EngineResult<T> = Result<T, EngineError>;

impl From<Cancelled> for EngineError {
    fn from(_: Cancelled) -> Self {
        Self::Cancelled
    }
}

impl From<HistoryConflict> for EngineError {
    fn from(conflict: HistoryConflict) -> Self {
        Self::HistoryConflict(conflict)
    }
}
