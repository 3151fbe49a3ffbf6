//! Stand-in: types that the sources name in functions that nothing calls.

use std::fmt;

use crate::models::{Digest, PointId, PointInfo, Round};

#[derive(Clone)]
pub struct Point(PointInfo);

impl Point {
    pub fn info(&self) -> &PointInfo {
        &self.0
    }
}

pub struct PointRestore(PointId);

impl PointRestore {
    pub fn id(&self) -> PointId {
        self.0
    }
    pub fn round(&self) -> Round {
        self.0.round
    }
    pub fn digest(&self) -> &Digest {
        &self.0.digest
    }
}

pub struct EvidenceSigError;

#[derive(Debug)]
pub struct PointIntegrityError;

impl fmt::Display for PointIntegrityError {
    fn fmt(&self, f: &mut fmt::Formatter<'_>) -> fmt::Result {
        fmt::Debug::fmt(self, f)
    }
}
