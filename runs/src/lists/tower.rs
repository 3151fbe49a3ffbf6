//! The points of the cases of skipped triggers (02, N9).

use committer::{Call, PointId, PointInfo, Start};

use crate::lists::{link, point, valid};

/// The point of peer 0 in a round of the tower.
pub fn tower_point(round: u32) -> PointId {
    point(round, 0, round)
}

/// A start at 10 with H 1, used by 0, and a point of peer 0 in each round from 11 to 17, each including the one before; even rounds are proofs, odd
/// ones from 13 on triggers. Odd rounds but the last are certified; their top proof is the point below, that of 15 the one in this round.
pub fn tower(sought_by_15: u32) -> Vec<Call> {
    let peers = 0b11;
    let with = Start { genesis: 10, commit_history_rounds: 1, bottom: 10, peers, used: Some(0), ..Start::default() };
    let mut calls = vec![Call::Start(with)];
    calls.extend((11..=17).map(|round| Call::Round { round, peers }));
    for round in 11..=17 {
        let proof = round % 2 == 0;
        let top_proof = tower_point(match round {
            15 => sought_by_15,
            _ if proof => round,
            _ => round - 1,
        });
        let includes = if round > 11 { vec![link(0, round - 1)] } else { Vec::new() };
        let marks = PointInfo { proof, trigger: !proof && round > 11, top_proof, ..valid(includes, Vec::new()) };
        let info = PointInfo { payload_len: 1, payload_bytes: round, ..marks };
        calls.extend([Call::Name(tower_point(round)), Call::Resolve(tower_point(round), info)]);
    }
    calls.extend([11, 13, 15].map(|round| Call::Certify(tower_point(round))));
    calls
}
