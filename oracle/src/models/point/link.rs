//! Stand-in: how a point refers to an anchor's proof or trigger.

use tycho_network::PeerId;

use crate::models::{PointId, Round};

#[derive(Clone, Debug, PartialEq)]
pub enum AnchorLink {
    Direct(Through),
    Indirect(IndirectLink),
}

#[derive(Clone, Debug, PartialEq)]
pub struct IndirectLink {
    pub to: PointId,
    pub through: Through,
}

#[derive(Clone, Debug, PartialEq)]
pub enum Through {
    Includes(PeerId),
    Witness(PeerId),
}

impl AnchorLink {
    pub const MAX_TL_BYTES: usize = 0;

    pub fn is_wave_far_enough(&self, _: Round) -> bool {
        unimplemented!("points aren't validated")
    }
}
