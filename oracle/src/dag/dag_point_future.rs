//! Stand-in: a point that is named and later resolved once, with its certificate. Tasks, downloads, validation and
//! storage are left out. The certificate exists from the beginning, as in the Rust.

use std::future::Future;
use std::pin::Pin;
use std::sync::{Arc, OnceLock};
use std::task::{Context, Poll};

use tokio::sync::mpsc::UnboundedSender;
use tycho_crypto::ed25519::KeyPair;
use tycho_network::PeerId;
use tycho_util::FastHashMap;

use crate::dag::dag_location::InclusionState;
use crate::dag::{DagRound, IllFormedReason, InvalidDependency, InvalidReason};
use crate::effects::{RoundCtx, TaskResult, ValidateCtx};
use crate::intercom::Downloader;
use crate::models::point_status::{
    PointStatusIllFormed, PointStatusInvalid, PointStatusNotFound, PointStatusTransInvalid, PointStatusValid,
};
use crate::models::{
    Cert, CertDirectDeps, DagPoint, Digest, IndirectLink, Point, PointId, PointInfo, PointRestore, Through, WeakCert,
};
use crate::storage::MempoolStore;

#[derive(Clone)]
pub struct DagPointFuture(Arc<Inner>);

#[derive(Default)]
struct Inner {
    cert: Cert,
    resolved: OnceLock<DagPoint>,
}

pub struct WeakDagPointFuture;

/// What a point resolves to; `has_dag_round` is the mark of the cause.
pub enum Resolution {
    Valid(PointInfo),
    TransInvalid { info: PointInfo, has_dag_round: bool },
    Invalid { info: PointInfo, has_dag_round: bool },
    IllFormed(PointId),
    NotFound(PointId),
}

impl Resolution {
    fn info(&self) -> Option<&PointInfo> {
        match self {
            Self::Valid(info) | Self::TransInvalid { info, .. } | Self::Invalid { info, .. } => Some(info),
            Self::IllFormed(_) | Self::NotFound(_) => None,
        }
    }
}

impl Future for DagPointFuture {
    type Output = TaskResult<DagPoint>;

    fn poll(self: Pin<&mut Self>, _: &mut Context<'_>) -> Poll<Self::Output> {
        match self.resolved() {
            Some(dag_point) => Poll::Ready(Ok(dag_point.clone())),
            None => Poll::Pending,
        }
    }
}

impl DagPointFuture {
    /// Follows `new_restore`: the certificate gets its dependencies, unless the point has none, and then the point is
    /// made. The future must be pending.
    pub fn resolve(&self, point_dag_round: &DagRound, resolution: Resolution) {
        let cert = self.0.cert.clone();
        if let Some(info) = resolution.info() {
            cert.set_deps(cert_deps(point_dag_round, info));
        }
        if self.0.resolved.set(dag_point(cert, resolution)).is_err() {
            panic!("a future resolves once");
        }
    }

    pub fn resolved(&self) -> Option<&DagPoint> {
        self.0.resolved.get()
    }

    pub fn cert(&self) -> &Cert {
        &self.0.cert
    }

    pub fn weak_cert(&self) -> WeakCert {
        self.0.cert.downgrade()
    }

    pub fn downgrade(&self) -> WeakDagPointFuture {
        WeakDagPointFuture
    }

    pub fn add_depender(&self, _: &PeerId) {}

    #[allow(clippy::too_many_arguments)]
    pub fn new_download<T>(
        _: &DagRound,
        _: &PeerId,
        _: &Digest,
        _: Option<&PeerId>,
        _: &InclusionState,
        _: &UnboundedSender<WeakDagPointFuture>,
        _: &Downloader,
        _: &MempoolStore,
        _: &T,
    ) -> Self {
        Self(Default::default())
    }
}

fn dag_point(cert: Cert, resolution: Resolution) -> DagPoint {
    match resolution {
        Resolution::Valid(info) => DagPoint::new_valid(info, cert, &PointStatusValid::default()),
        Resolution::TransInvalid { info, has_dag_round } => {
            let root_cause = InvalidDependency {
                link: IndirectLink { to: *info.id(), through: Through::Includes(*info.author()) },
                reason: InvalidReason::AfterLoadFromDb { has_dag_round },
            };
            DagPoint::new_trans_invalid(info, cert, &PointStatusTransInvalid::default(), root_cause)
        }
        Resolution::Invalid { info, has_dag_round } => {
            let reason = InvalidReason::AfterLoadFromDb { has_dag_round };
            DagPoint::new_invalid(info, cert, &PointStatusInvalid::default(), reason)
        }
        Resolution::IllFormed(id) => {
            let reason = IllFormedReason::AfterLoadFromDb { is_final: true };
            DagPoint::new_ill_formed(id, cert, &PointStatusIllFormed::default(), reason)
        }
        Resolution::NotFound(id) => DagPoint::new_not_found(id, cert, &PointStatusNotFound::default()),
    }
}

/// The certificates of includes and witness in the rounds that are still there. As in validation, a point that isn't
/// there yet is added.
fn cert_deps(point_dag_round: &DagRound, info: &PointInfo) -> CertDirectDeps {
    let r_1 = point_dag_round.prev().upgrade();
    let r_2 = r_1.as_ref().and_then(|r_1| r_1.prev().upgrade());
    CertDirectDeps {
        includes: weak_certs(r_1.as_ref(), info.includes(), info.author()),
        witness: weak_certs(r_2.as_ref(), info.witness(), info.author()),
    }
}

fn weak_certs(
    dag_round: Option<&DagRound>,
    links: &FastHashMap<PeerId, Digest>,
    depender: &PeerId,
) -> Vec<(Digest, WeakCert)> {
    let Some(dag_round) = dag_round else {
        return Vec::new();
    };
    let weak_cert =
        |peer, digest| dag_round.add_dependency(peer, digest, depender, &Downloader, &MempoolStore, &ValidateCtx).1;
    links.iter().map(|(peer, digest)| (*digest, weak_cert(peer, digest))).collect()
}

/// Named by `DagRound`, called by nothing: points come in by `new_download` only.
impl DagPointFuture {
    #[allow(clippy::too_many_arguments)]
    pub fn new_local_valid(
        _: &DagRound,
        _: &Point,
        _: Option<Arc<KeyPair>>,
        _: &InclusionState,
        _: &UnboundedSender<WeakDagPointFuture>,
        _: Downloader,
        _: MempoolStore,
        _: &RoundCtx,
    ) -> Self {
        unimplemented!()
    }

    pub fn new_ill_formed_broadcast(
        _: &Point,
        _: &IllFormedReason,
        _: &InclusionState,
        _: &UnboundedSender<WeakDagPointFuture>,
        _: &MempoolStore,
        _: &RoundCtx,
    ) -> Self {
        unimplemented!()
    }

    pub fn new_broadcast(
        _: &DagRound,
        _: &Point,
        _: &InclusionState,
        _: &UnboundedSender<WeakDagPointFuture>,
        _: &Downloader,
        _: &MempoolStore,
        _: &RoundCtx,
    ) -> Self {
        unimplemented!()
    }

    pub fn new_restore(
        _: &DagRound,
        _: PointRestore,
        _: &InclusionState,
        _: &UnboundedSender<WeakDagPointFuture>,
        _: &Downloader,
        _: &MempoolStore,
        _: &RoundCtx,
    ) -> Self {
        unimplemented!()
    }

    pub fn resolve_download(&self, _: &Point, _: Option<&IllFormedReason>) {
        unimplemented!()
    }
}
