//! Document 01's conditions of the refusals 1 to 12 and 23, in its order of test, over what a side holds. The Rust has no numbers, so that a call
//! is rightly refused, or rightly not, is tested by these.

use committer::{Call, LINKS_MAX, Link, PLACES_MAX, PointId, PointInfo, ROUND_MAX, ROUNDS_MAX, Start, VERSIONS_MAX};

use crate::view::{State, View};

/// What a call is refused with.
#[derive(Clone, Copy, Debug, PartialEq, Eq)]
pub enum Due {
    Number(u32),
    /// by none of these; a commit, an outlook or a remove may be refused by another number
    None,
}

/// Which of the numbers 1 to 12 and 23 a call on tables of so many places is to be refused with. The last anchor is that handed out since
/// the start.
pub fn due(call: &Call, before: &View, places: usize, last_anchor: Option<u32>) -> Due {
    let number = match (call, &before.state) {
        (Call::Start(with), state) => start(with, state.is_some(), places),
        (_, None) => Some(2),
        (Call::Round { round, .. }, Some(state)) => round_refused(*round, state),
        (Call::Name(id), Some(state)) => {
            place(id, state).or_else(|| name(id, before)).or((before.points.len() >= places).then_some(4))
        }
        (Call::Resolve(id, info), Some(state)) => place(id, state).or_else(|| resolve(id, info, before)),
        (Call::Certify(id), Some(state)) => place(id, state).or((!before.holds_point(id)).then_some(9)),
        (Call::Commit(id, _) | Call::Outlook(id), Some(state)) => trigger(id, state, before),
        (Call::Remove { round, .. }, Some(_)) => last_anchor.is_none_or(|last| last < *round).then_some(23),
        (Call::Drop(_) | Call::Gap | Call::Reset, Some(_)) => None,
    };
    number.map_or(Due::None, Due::Number)
}

fn start(with: &Start, started: bool, places: usize) -> Option<u32> {
    let good = (1..=255).contains(&with.commit_history_rounds)
        && with.deduplicate_rounds <= 65_535
        && with.genesis <= ROUND_MAX
        && with.bottom <= ROUND_MAX
        && with.genesis <= with.bottom
        && with.used.is_none_or(|used| used <= 31)
        && (1..=PLACES_MAX).contains(&places);
    if good { started.then_some(2) } else { Some(1) }
}

fn round_refused(round: u32, state: &State) -> Option<u32> {
    if round > ROUND_MAX || round > state.top + 1 {
        return Some(3);
    }
    (round > state.top && state.rounds.len() >= ROUNDS_MAX).then_some(4)
}

/// 5, 6, 5: the tests that every id gets.
fn place(id: &PointId, state: &State) -> Option<u32> {
    if id.author > 31 {
        return Some(5);
    }
    match state.rounds.iter().find(|round| round.round == id.round) {
        None => Some(6),
        Some(round) => (round.peers >> id.author & 1 == 0).then_some(5),
    }
}

fn name(id: &PointId, before: &View) -> Option<u32> {
    let named = || before.points.iter().map(|point| &point.id).filter(|other| other.round == id.round);
    if named().any(|other| other.digest == id.digest) {
        return Some(7);
    }
    (named().filter(|other| other.author == id.author).count() >= VERSIONS_MAX).then_some(8)
}

fn resolve(id: &PointId, info: &PointInfo, before: &View) -> Option<u32> {
    match before.points.iter().find(|point| point.id == *id) {
        None => Some(9),
        Some(point) if point.status != 0 => Some(10),
        Some(_) if !well_formed(id, info) => Some(11),
        Some(_) => {
            let absent = lacks(id.round, 1, &info.includes, before) || lacks(id.round, 2, &info.witness, before);
            absent.then_some(12)
        }
    }
}

fn well_formed(id: &PointId, info: &PointInfo) -> bool {
    let bare = info.includes.is_empty() && info.witness.is_empty() && info.evidence == 0;
    (1..=5).contains(&info.status)
        && (info.status < 4 || bare)
        && info.top_proof.author <= 31
        && links_formed(&info.includes)
        && links_formed(&info.witness)
        && (id.round >= 1 || info.includes.is_empty())
        && (id.round >= 2 || info.witness.is_empty())
}

fn links_formed(links: &[Link]) -> bool {
    let rising = links.windows(2).all(|pair| pair[0].peer < pair[1].peer);
    links.len() <= LINKS_MAX && rising && links.iter().all(|link| link.peer <= 31)
}

/// Whether a link leads into a retained round and to no point that is named.
fn lacks(from: u32, down: u32, links: &[Link], before: &View) -> bool {
    links.iter().any(|link| {
        let round = from - down;
        let target = PointId { round, author: link.peer, digest: link.digest };
        before.holds_round(round) && !before.holds_point(&target)
    })
}

/// Below the bottom a trigger yields no anchors instead of 6.
fn trigger(id: &PointId, state: &State, before: &View) -> Option<u32> {
    if id.author <= 31 && id.round < state.bottom {
        return None;
    }
    let unresolved = || !before.points.iter().any(|point| point.id == *id && point.status != 0);
    place(id, state).or_else(|| unresolved().then_some(9))
}
