//! Stand-in: the committer doesn't read it.

use crate::engine::MempoolConfig;
use crate::models::{PeerCount, Round};

pub struct Threshold;

impl Threshold {
    pub fn new(_: Round, _: PeerCount, _: &MempoolConfig) -> Self {
        Self
    }
}
