//! Stand-in: one epoch, whose start is given.

use crate::models::Round;

pub struct EpochStarts(pub Option<Round>);

impl EpochStarts {
    pub fn epoch_start(&self, _: Round) -> Option<Round> {
        self.0
    }
    pub fn arr_idx(&self, _: Round) -> Option<usize> {
        None
    }
}
