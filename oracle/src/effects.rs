//! Stand-in: contexts without tasks or spans, cancellation that never happens, and the short forms for messages.

use std::fmt;

use tracing::Span;
use tycho_network::PeerId;

use crate::models::{Digest, PointId};

#[derive(Debug, Clone, Copy)]
pub struct Cancelled();
pub type TaskResult<R> = Result<R, Cancelled>;

pub trait Ctx {
    fn span(&self) -> &Span {
        &Span
    }
}

pub struct RoundCtx;
impl Ctx for RoundCtx {}

pub struct ValidateCtx;
impl Ctx for ValidateCtx {}

pub struct AltFmt<'a, T: ?Sized>(&'a T);

pub trait AltFormat {
    fn alt(&self) -> AltFmt<'_, Self> {
        AltFmt(self)
    }
    fn unpack<'a>(wrapped: &AltFmt<'a, Self>) -> &'a Self {
        wrapped.0
    }
}

impl AltFormat for PeerId {}
impl fmt::Display for AltFmt<'_, PeerId> {
    fn fmt(&self, f: &mut fmt::Formatter<'_>) -> fmt::Result {
        write!(f, "{}", AltFormat::unpack(self).0[31])
    }
}

impl AltFormat for Digest {}

impl AltFormat for PointId {}
impl fmt::Debug for AltFmt<'_, PointId> {
    fn fmt(&self, f: &mut fmt::Formatter<'_>) -> fmt::Result {
        let id = AltFormat::unpack(self);
        write!(f, "{}.{}.{:.4}", id.round.0, id.author.alt(), id.digest)
    }
}
