//! Stand-in: the versions of an author's points. The inclusion state (first valid, signatures) is left out. Which map
//! holds the versions in the Rust can't be seen in the sources at hand; a hash map lets runs tell whether it matters.

use std::fmt;

use tycho_util::FastHashMap;

use crate::dag::dag_point_future::DagPointFuture;
use crate::dag::dag_round::WeakDagRound;
use crate::effects::{AltFmt, AltFormat};
use crate::models::Digest;

#[derive(Clone)]
pub struct InclusionState;

pub struct DagLocation {
    pub versions: FastHashMap<Digest, DagPointFuture>,
    pub state: InclusionState,
}

impl DagLocation {
    pub fn new(_: WeakDagRound) -> Self {
        Self { versions: FastHashMap::default(), state: InclusionState }
    }
}

impl AltFormat for DagLocation {}
impl fmt::Debug for AltFmt<'_, DagLocation> {
    fn fmt(&self, f: &mut fmt::Formatter<'_>) -> fmt::Result {
        write!(f, "({})", AltFormat::unpack(self).versions.len())
    }
}
