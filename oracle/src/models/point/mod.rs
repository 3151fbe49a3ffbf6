mod data;
mod info;
mod link;
mod parts;
pub mod proto_utils;
mod unused;

pub use data::*;
pub use info::*;
pub use link::*;
pub use parts::*;
pub use unused::*;

/// Stand-in: round and digest.
pub struct PointKey {
    pub round: Round,
    pub digest: Digest,
}

impl PointKey {
    pub fn new(round: Round, digest: Digest) -> Self {
        Self { round, digest }
    }
}

/// A point's info with an empty signature.
pub fn point_info(id: PointId, payload_len: u32, payload_bytes: u32, data: PointData) -> PointInfo {
    PointInfo::new(id, Signature::ZERO, payload_len, payload_bytes, data)
}

pub fn empty_signature() -> Signature {
    Signature::ZERO
}
