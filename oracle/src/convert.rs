//! Between plain numbers and the types of the Rust.

use tycho_network::PeerId;

use crate::dag::dag_point_future::Resolution;
use crate::models::{
    AnchorData, AnchorLink, Digest, IndirectLink, MempoolPeerStats, PointData, PointId, PointInfo, PointRole, Round,
    Through, UnixTime, empty_signature, point_info,
};
use crate::moderator::JournalDagEvent;
use crate::types::{Anchor, Event, Id, Info, Link, PeerStats};

/// Peers are ordered like their numbers.
pub fn peer_id(number: u8) -> PeerId {
    let mut bytes = [0; 32];
    bytes[31] = number;
    PeerId(bytes)
}

pub fn peer_number(peer: &PeerId) -> u8 {
    peer.0[31]
}

pub fn peers(set: u32) -> impl Iterator<Item = PeerId> {
    (0..32).filter(move |number| set >> number & 1 == 1).map(peer_id)
}

pub fn digest(bytes: &[u8; 32]) -> Digest {
    *Digest::wrap(bytes)
}

pub fn point_id(id: &Id) -> PointId {
    PointId { round: Round(id.round), author: peer_id(id.author), digest: digest(&id.digest) }
}

pub fn plain_id(id: &PointId) -> Id {
    Id { round: id.round.0, author: peer_number(&id.author), digest: *id.digest.inner() }
}

/// Sorted by round, inside a round by digest.
pub fn sorted(ids: impl Iterator<Item = Id>) -> Vec<Id> {
    let mut ids: Vec<Id> = ids.collect();
    ids.sort_unstable_by_key(|id| (id.round, id.digest, id.author));
    ids
}

/// What a point resolves to, or why the types of the Rust can't hold it.
pub fn resolution(id: &Id, info: &Info) -> Result<Resolution, &'static str> {
    let has_dag_round = info.cause;
    match info.status {
        1 => Ok(Resolution::Valid(info_of(id, info)?)),
        2 => Ok(Resolution::TransInvalid { info: info_of(id, info)?, has_dag_round }),
        3 => Ok(Resolution::Invalid { info: info_of(id, info)?, has_dag_round }),
        4 => no_data(info).map(|()| Resolution::IllFormed(point_id(id))),
        5 => no_data(info).map(|()| Resolution::NotFound(point_id(id))),
        _ => Err("a status is 1 to 5"),
    }
}

fn no_data(info: &Info) -> Result<(), &'static str> {
    let empty = info.includes.is_empty() && info.witness.is_empty() && info.evidence == 0;
    if empty { Ok(()) } else { Err("an ill-formed or not found point has no data") }
}

pub fn info_of(id: &Id, info: &Info) -> Result<PointInfo, &'static str> {
    if info.proof && info.top_proof != *id {
        return Err("the top proof of a proof is the point itself");
    }
    if repeats(&info.includes) || repeats(&info.witness) {
        return Err("links are a map by peer");
    }
    let author = peer_id(id.author);
    let link = AnchorLink::Indirect(IndirectLink { to: point_id(&info.top_proof), through: Through::Includes(author) });
    let data = PointData {
        includes: info.includes.iter().map(link_pair).collect(),
        witness: info.witness.iter().map(link_pair).collect(),
        evidence: peers(info.evidence).map(|signer| (signer, empty_signature())).collect(),
        anchor_proof: link.clone(),
        anchor_trigger: link,
        role: role(info.proof, info.trigger),
        time: UnixTime::from_millis(0),
        anchor_time: UnixTime::from_millis(0),
    };
    Ok(point_info(point_id(id), info.payload_len, info.payload_bytes, data))
}

fn link_pair(link: &Link) -> (PeerId, Digest) {
    (peer_id(link.peer), digest(&link.digest))
}

fn repeats(links: &[Link]) -> bool {
    links.iter().enumerate().any(|(n, link)| links[..n].iter().any(|earlier| earlier.peer == link.peer))
}

/// A proof that isn't the first of its leader is a trigger too.
fn role(proof: bool, trigger: bool) -> PointRole {
    match (proof, trigger) {
        (true, _) => PointRole::AnchorProof { seq_no: trigger.into(), is_last: false },
        (false, true) => PointRole::AnchorTrigger,
        (false, false) => PointRole::Regular,
    }
}

pub fn anchor(data: &AnchorData) -> Anchor {
    let anchor = plain_id(data.anchor.id());
    Anchor {
        anchor,
        proof: Id { round: data.proof_key.round.0, author: anchor.author, digest: *data.proof_key.digest.inner() },
        executable: data.is_executable,
        prev_anchor: data.prev_anchor.map(|round| round.0),
        points: data.history.iter().map(|info| plain_id(info.id())).collect(),
        payload_len: data.history.iter().map(|info| u64::from(info.payload_len())).sum(),
        payload_bytes: data.history.iter().map(|info| u64::from(info.payload_bytes())).sum(),
    }
}

/// None if the range of rounds is empty.
pub fn peer_stats(peer: &PeerId, stats: &MempoolPeerStats) -> Option<PeerStats> {
    let counters = stats.counters()?;
    Some(PeerStats {
        peer: peer_number(peer),
        first_round: stats.read_first_round(),
        last_round: counters.last_round,
        filled_rounds: stats.filled_rounds(),
        counters: [
            counters.was_leader,
            counters.skipped_rounds,
            counters.valid_points,
            counters.points_proved,
            counters.equivocated,
            counters.trans_invalid_points,
            counters.invalid_points,
            counters.ill_formed_points,
            counters.references_skipped,
        ]
        .map(|counter| counter.inner()),
    })
}

pub fn event(event: &JournalDagEvent) -> Event {
    match event {
        JournalDagEvent::TransInvalid(point) => Event::TransInvalid(plain_id(point.info().id())),
        JournalDagEvent::Invalid(point) => Event::Invalid(plain_id(point.info().id())),
        JournalDagEvent::IllFormed(point) => Event::IllFormed(plain_id(point.id())),
        JournalDagEvent::Equivocated(author, round, digests) => {
            let mut digests: Vec<_> = digests.iter().map(|digest| *digest.inner()).collect();
            digests.sort_unstable();
            Event::Equivocated { author: peer_number(author), round: round.0, digests }
        }
        JournalDagEvent::EvidenceNoInclusion { signer, blamed, proofs } => Event::EvidenceNoInclusion {
            signer: peer_number(signer),
            blamed: sorted(blamed.iter().map(plain_id)),
            proofs: sorted(proofs.iter().map(plain_id)),
        },
    }
}

/// Kind, round, author or signer, digest.
pub fn event_key(event: &Event) -> (u8, u32, u8, [u8; 32]) {
    let by_id = |kind, id: &Id| (kind, id.round, id.author, id.digest);
    match event {
        Event::TransInvalid(id) => by_id(1, id),
        Event::Invalid(id) => by_id(2, id),
        Event::IllFormed(id) => by_id(3, id),
        Event::Equivocated { author, round, .. } => (4, *round, *author, [0; 32]),
        Event::EvidenceNoInclusion { signer, blamed, .. } => {
            (5, blamed.first().map_or(0, |id| id.round), *signer, [0; 32])
        }
    }
}
