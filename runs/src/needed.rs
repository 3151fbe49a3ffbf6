//! Which of 14 and 25 a commit is refused with (02, N3). The Rust panics over a needed point that isn't resolved with one message, whether it is
//! named or not; so the walk is made again over the names and resolutions that both sides took.

use std::collections::{HashMap, HashSet};

use committer::{Call, PointId, PointInfo};

use crate::view::View;

/// The number that the Rust's "point to commit must be resolved" stands for, if it stands for one: 25 if the walk seeks a point that was never
/// named. Other needed points are linked ones, and those are named (12).
pub fn number(trigger: &PointId, taken: &[&Call], before: &View) -> Option<u32> {
    let log = Log::of(taken);
    match log.unresolved_in_walk(trigger, before) {
        Some(id) if !log.named.contains(&id) => Some(25),
        Some(_) => Some(14),
        None => before.points.iter().any(|point| point.status == 0).then_some(14),
    }
}

/// What was taken since the last start. What a drain took away stays here: no walk seeks it, and it can't be named again.
pub struct Log<'a> {
    named: HashSet<PointId>,
    resolved: HashMap<PointId, &'a PointInfo>,
}

impl<'a> Log<'a> {
    pub fn of(taken: &[&'a Call]) -> Log<'a> {
        let mut log = Log { named: HashSet::new(), resolved: HashMap::new() };
        for call in taken {
            match call {
                Call::Start(_) => log = Log { named: HashSet::new(), resolved: HashMap::new() },
                Call::Name(id) => drop(log.named.insert(*id)),
                Call::Resolve(id, info) => drop(log.resolved.insert(*id, info)),
                _ => {}
            }
        }
        log
    }

    /// The first point that the walk needs and that isn't resolved.
    fn unresolved_in_walk(&self, trigger: &PointId, before: &View) -> Option<PointId> {
        let state = before.state.as_ref()?;
        let lowest = state.last_committed_proof.unwrap_or(0).max(state.bottom);
        let mut sought = self.previous(trigger)?;
        for at in state.rounds.iter().rev().filter(|at| (lowest..trigger.round).contains(&at.round)) {
            if sought.round < at.round {
                continue;
            }
            if sought.round > at.round || at.used.is_some() {
                return None;
            }
            let Some(proof) = self.resolved.get(&sought) else {
                return Some(sought);
            };
            let anchor = self.previous(&sought).filter(|_| proof.status == 1 && proof.proof && at.round > lowest)?;
            let Some(info) = self.resolved.get(&anchor) else {
                return Some(anchor);
            };
            sought = Some(info.top_proof).filter(|_| info.status == 1)?;
        }
        None
    }

    /// What a point was resolved as.
    pub fn info(&self, id: &PointId) -> Option<&'a PointInfo> {
        self.resolved.get(id).copied()
    }

    /// The author's own point of the round below.
    pub fn previous(&self, id: &PointId) -> Option<PointId> {
        let link = self.resolved.get(id)?.includes.iter().find(|link| link.peer == id.author)?;
        Some(PointId { round: id.round - 1, author: id.author, digest: link.digest })
    }
}
