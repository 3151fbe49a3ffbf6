//! Reads of what the committer holds. They change nothing.

use crate::calls::Oracle;
use crate::convert::{peer_number, plain_id, sorted};
use crate::dag::DagRound;
use crate::models::DagPoint;
use crate::types::{Id, Memory, PeerMemory, PointState, RoundState, State};

impl Oracle {
    /// Every point held, sorted by round, author and digest.
    pub fn points(&self) -> Vec<PointState> {
        let rounds = self.board.committer.read_dag().read_rounds();
        let mut points: Vec<PointState> = rounds.values().flat_map(points_of).collect();
        points.sort_unstable_by_key(|point| point.id);
        points
    }

    pub fn state(&self) -> State {
        let committer = &self.board.committer;
        let dag = committer.read_dag();
        let rounds = dag.read_rounds();
        State {
            bottom: rounds.keys().next().map(|round| round.0),
            top: rounds.keys().next_back().map(|round| round.0),
            last_committed_proof: dag.last_committed_proof.map(|round| round.0),
            full_history_bottom: committer.read_full_history_bottom().0,
            first_executable: committer.first_executable.0,
            emit_first_after_gap: committer.read_emit_first_after_gap(),
            rounds: rounds.values().map(round_state).collect(),
        }
    }

    pub fn memory(&self) -> Memory {
        let inspector = self.board.committer.read_inspector();
        let mut peers: Vec<PeerMemory> = (inspector.read_memory())
            .map(|(peer, authored, signed_proofs)| PeerMemory {
                peer: peer_number(peer),
                authored: sorted(authored.iter().map(|info| plain_id(info.id()))),
                signed_proofs: {
                    let mut proofs: Vec<_> =
                        (signed_proofs.iter()).map(|(digest, proof)| (*digest.inner(), plain_id(proof.id()))).collect();
                    proofs.sort_unstable();
                    proofs
                },
            })
            .collect();
        peers.sort_unstable_by_key(|entry| entry.peer);
        Memory { last_round: inspector.read_last_round().0, peers }
    }
}

fn points_of(dag_round: &DagRound) -> Vec<PointState> {
    let round = dag_round.round().0;
    dag_round
        .select(|(author, location)| {
            let author = peer_number(author);
            let states = location.versions.iter().map(move |(digest, future)| PointState {
                id: Id { round, author, digest: *digest.inner() },
                status: status(future.resolved()),
                word: future.cert().read_word(),
                payload: payload(future.resolved()),
            });
            Some(states.collect::<Vec<_>>())
        })
        .flatten()
        .collect()
}

fn round_state(dag_round: &DagRound) -> RoundState {
    RoundState {
        round: dag_round.round().0,
        authors: dag_round.select(|(author, _)| 1u32.checked_shl(peer_number(author).into())).sum(),
        used: dag_round.used_anchor_proof().get().map(peer_number),
    }
}

fn status(dag_point: Option<&DagPoint>) -> u8 {
    match dag_point {
        None => 0,
        Some(DagPoint::Valid(_)) => 1,
        Some(DagPoint::TransInvalid(_)) => 2,
        Some(DagPoint::Invalid(_)) => 3,
        Some(DagPoint::IllFormed(_)) => 4,
        Some(DagPoint::NotFound(_)) => 5,
    }
}

fn payload(dag_point: Option<&DagPoint>) -> Option<(u32, u32)> {
    let info = match dag_point? {
        DagPoint::Valid(valid) => valid.info(),
        DagPoint::TransInvalid(invalid) => invalid.info(),
        DagPoint::Invalid(invalid) => invalid.info(),
        DagPoint::IllFormed(_) | DagPoint::NotFound(_) => return None,
    };
    Some((info.payload_len(), info.payload_bytes()))
}
