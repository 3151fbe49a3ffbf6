//! A board's use of the committer: a start, rounds with their points, certificates, the anchors of a trigger and why a
//! point is among theirs, a drop.
//!
//! Four peers send one point a round. Each point includes all points of the round below and has a witness two rounds
//! down. Peer 0's are anchors in 12 and 14 with their proofs in 13 and 15, and the trigger in 16.

use committer::{
    Anchor, CommitSizes, Committer, Link, LinkBehind, Look, OUTLOOK_BYTES_MAX, Point, PointId, PointInfo, Refused,
    Start, Status, anchors, lists_in_order, looks,
};

const GENESIS: u32 = 10;
const ANCHORS: [u32; 2] = [12, 14];
const TOP: u32 = 16;
const PEERS: u32 = 4;

fn main() -> Result<(), Refused> {
    let mut board = Committer::new(64);
    let peers = (1 << PEERS) - 1;
    board.start(&Start {
        genesis: GENESIS,
        commit_history_rounds: 3,
        bottom: GENESIS,
        peers,
        used: Some(0),
        ..Start::default()
    })?;
    for round in GENESIS + 1..=TOP {
        board.round(round, peers)?;
    }
    for round in GENESIS..=TOP {
        for author in 0..PEERS {
            let id = point_id(round, author);
            board.name(&id)?;
            board.resolve(&id, &info(&id))?;
        }
    }

    println!("after the certificates of the anchors:");
    for round in ANCHORS {
        board.certify(&point_id(round, 0))?;
    }
    print(&board);

    println!("the outlook of the trigger in {TOP}:");
    let told = outlook(&board, &point_id(TOP, 0))?;
    for Look { anchor, points, linked } in &told {
        println!("  {}.{}: {points} points, {linked:?} linked in its rounds", anchor.round, anchor.author);
    }
    let CommitSizes { points, lists, records } = CommitSizes::of(&told);
    println!("  in all {points} points, {lists} bytes of lists, {records} bytes of records");

    println!("its anchors:");
    for anchor in hand_out(&mut board, &point_id(TOP, 0), &told)? {
        let points: Vec<String> = anchor.points.iter().map(|id| format!("{}.{}", id.round, id.author)).collect();
        println!("  {}.{}: {}", anchor.anchor.round, anchor.anchor.author, points.join(" "));
        println!("  payload {} of {} bytes", anchor.payload_len, anchor.payload_bytes);
        let lowest = anchor.points[0];
        let links = why(&anchor, &lowest).expect("a point of the record");
        println!("  why {}.{} is there: {links}", lowest.round, lowest.author);
    }

    println!("the trigger named again: {}", board.name(&point_id(TOP, 0)).expect_err("its digest is named"));

    println!("after a drop of the rounds below {}:", TOP - 2);
    board.drop_upto(TOP - 2)?;
    print(&board);
    Ok(())
}

/// What an outlook tells of the anchors that a trigger yields.
fn outlook(board: &Committer, trigger: &PointId) -> Result<Vec<Look>, Refused> {
    let mut buffer = vec![0; OUTLOOK_BYTES_MAX];
    let told = board.outlook(trigger, &mut buffer)?;
    let (_, state) = board.parts();
    Ok(looks(&buffer, told, state))
}

/// These anchors, handed out at once, with lists and a buffer of just the sizes that were told. A real host shuffles each
/// list.
fn hand_out(board: &mut Committer, trigger: &PointId, told: &[Look]) -> Result<Vec<Anchor>, Refused> {
    let mut buffer = vec![0; CommitSizes::of(told).records];
    let handed = board.commit(trigger, &lists_in_order(told), &mut buffer)?;
    Ok(anchors(&buffer, handed).expect("a commit writes whole records"))
}

/// The links behind a point of an anchor's record, followed up to the anchor; none if the point isn't in it.
fn why(anchor: &Anchor, id: &PointId) -> Option<String> {
    let (mut text, mut at) = (String::new(), *id);
    while at != anchor.anchor {
        let LinkBehind { by, word } = anchor.link_behind(&at)?;
        text += &format!("{word} of {}.{}, ", by.round, by.author);
        at = *by;
    }
    Some(text + "the anchor")
}

/// A stand-in for the digest that a real point has.
fn point_id(round: u32, author: u32) -> PointId {
    let mut digest = [0; 32];
    digest[..4].copy_from_slice(&round.to_be_bytes());
    digest[4] = author as u8;
    PointId { round, author, digest }
}

/// A valid point's resolution.
fn info(id: &PointId) -> PointInfo {
    let links = |down: u32, peers: std::ops::Range<u32>| match id.round.checked_sub(down) {
        Some(below) if below >= GENESIS => {
            peers.map(|peer| Link { peer, digest: point_id(below, peer).digest }).collect()
        }
        _ => Vec::new(),
    };
    let proof = id.author == 0 && ANCHORS.contains(&(id.round - 1));
    // an anchor's is the proof of the one before; the first one's is the bottom's used mark
    let top_proof = match id.round {
        _ if proof => *id,
        round if round == ANCHORS[0] => point_id(GENESIS, 0),
        round => point_id(round - 1, 0),
    };
    PointInfo {
        status: Status::Valid.number(),
        proof,
        trigger: *id == point_id(TOP, 0),
        top_proof,
        includes: links(1, 0..PEERS),
        witness: links(2, 0..1),
        payload_len: 1 + id.author,
        payload_bytes: 1000 * (1 + id.author),
        ..PointInfo::default()
    }
}

fn print(board: &Committer) {
    let summary = board.summary().expect("started");
    println!("  rounds {} to {}, full history from {}", summary.bottom, summary.top, summary.full_history_bottom);
    for round in summary.rounds {
        let points = board.points();
        let heights: Vec<String> = points.iter().filter(|p| p.id.round == round.round).map(shown).collect();
        println!("  round {}: heights {}", round.round, heights.join(" "));
    }
}

fn shown(point: &Point) -> String {
    format!("{}{}", point.height(), if point.is_top() { " (top)" } else { "" })
}
