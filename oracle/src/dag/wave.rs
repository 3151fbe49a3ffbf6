//! Stand-in: a wave without a leader. The committer doesn't read the leader.

use tycho_network::PeerId;

use crate::engine::MempoolConfig;
use crate::intercom::PeerScheduleStateless;
use crate::models::Round;

pub struct Wave;

impl Wave {
    pub fn new(_: Round, _: &PeerScheduleStateless, _: &MempoolConfig) -> Self {
        Self
    }
    pub fn leader(&self) -> Option<PeerId> {
        None
    }
}
