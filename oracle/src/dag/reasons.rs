//! Stand-in: why a point isn't valid. The variants are those that the sources name; only `AfterLoadFromDb` is made.

use std::fmt;

use crate::models::{AnchorStageRole, IndirectLink, PointId, Round};

#[derive(Clone, Debug)]
pub enum IllFormedReason {
    AfterLoadFromDb { is_final: bool },
}

#[derive(Clone, Debug)]
pub struct InvalidDependency {
    pub link: IndirectLink,
    pub reason: InvalidReason,
}

#[derive(Clone, Debug)]
pub enum InvalidReason {
    AfterLoadFromDb { has_dag_round: bool },
    NoRoundInDag(Round),
    DependencyRoundDropped,
    DepNotFound(PointId),
    NotTrigger(PointId),
    TerminalTriggerBeforeLastProof(PointId),
    TimeNotGreaterThanInPrevPoint(PointId),
    AnchorProofDoesntInheritAnchorTime(PointId),
    AnchorTimeNotInheritedFromProof(PointId),
    MustHaveReferencedPrevPoint(PointId),
    MustHaveSkippedRound(PointId),
    DependencyTimeTooFarInFuture(PointId),
    NewerAnchorInDependency((AnchorStageRole, PointId)),
    AnchorLink((AnchorStageRole, PointId)),
    AnchorLinkRole((AnchorStageRole, PointId)),
    AnchorLinkBadPath((AnchorStageRole, PointId)),
    BadStickySequence((PointId, u8, u8)),
    TriggerProofMismatch((PointId, PointId)),
    DepIllFormed((PointId, IllFormedReason)),
}

impl InvalidReason {
    pub fn has_dag_round(&self) -> bool {
        match self {
            Self::AfterLoadFromDb { has_dag_round } => *has_dag_round,
            other => unreachable!("never made: {other:?}"),
        }
    }
}

impl fmt::Display for IllFormedReason {
    fn fmt(&self, f: &mut fmt::Formatter<'_>) -> fmt::Result {
        fmt::Debug::fmt(self, f)
    }
}

impl fmt::Display for InvalidReason {
    fn fmt(&self, f: &mut fmt::Formatter<'_>) -> fmt::Result {
        fmt::Debug::fmt(self, f)
    }
}
