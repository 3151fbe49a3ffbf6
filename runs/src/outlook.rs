//! Outlooks. The Rust has none: each is compared with the commit of the same trigger, made on a copy, and the linked counts of its anchors with
//! the lengths of the Rust's shuffles. What it told is then compared with the commit that follows.

use std::collections::{HashMap, HashSet};

use committer::{Anchor, Call, Look, OUTLOOK_BYTES_MAX, PointId, Refusal, Refused, Start};
use oracle::PlaceLists;

use crate::behind::links;
use crate::compare::in_a_row;
use crate::library::{Side, UNTOUCHED};
use crate::view::{self, View};

/// What was found the same.
pub enum Compared {
    /// what was told, how many smaller buffers were refused, and how many anchors the Rust came to
    Anchors {
        looks: Vec<Look>,
        buffers: u64,
        shuffled: usize,
    },
    Refused(Refused),
}

/// The outlook of a trigger on a side that took these calls and holds this; the lists are those of the Rust's commit.
pub fn compared<S: Side>(
    ours: &S,
    trigger: &PointId,
    lists: &PlaceLists,
    taken: &[&Call],
    view: &View,
) -> Result<Compared, String> {
    let before = ours.fingerprint();
    let mut buffer = vec![UNTOUCHED; OUTLOOK_BYTES_MAX];
    let told = ours.outlook(trigger, &mut buffer);
    let compared = match ours.would_commit(trigger, &in_a_row(lists)) {
        Ok(anchors) => {
            let count = anchors.len() as u32;
            if told != Ok(count) {
                return Err(format!("{told:?}, and the commit hands out {count} anchors"));
            }
            let looks = ours.looks(&buffer, count);
            same_anchors(&anchors, &looks, Histories::of(taken, view))?;
            let shuffled = as_shuffled(&looks, lists)?;
            let buffers = other_buffers(ours, trigger, &buffer, &looks)?;
            Compared::Anchors { looks, buffers, shuffled }
        }
        Err(why) => {
            let due = Err(Refused { finished: 0, ..why });
            if told != due {
                return Err(format!("{told:?}, due {due:?}"));
            }
            if buffer.iter().any(|byte| *byte != UNTOUCHED) {
                return Err(format!("refused with {} and the buffer was written", why.number()));
            }
            Compared::Refused(why)
        }
    };
    if ours.fingerprint() != before {
        return Err("something changed".into());
    }
    Ok(compared)
}

/// The anchors of the commit, each with the number of points of its history, and those linked in each round. The points of an anchor are
/// marked before the next one is counted.
fn same_anchors(anchors: &[Anchor], looks: &[Look], mut histories: Histories) -> Result<(), String> {
    for (look, anchor) in looks.iter().zip(anchors) {
        let history = histories.of_anchor(&anchor.anchor);
        if history.points != anchor.points.iter().copied().collect() {
            let linked = history.points.len();
            return Err(format!("{linked} points are linked from {look}, and the commit hands out others"));
        }
        let due = history.look(&anchor.anchor);
        if *look != due {
            return Err(format!("{look}; by the links and marks {due}"));
        }
        histories.commit(&history);
    }
    if looks.len() != anchors.len() {
        return Err(format!("{} anchors can be read, the commit hands out {}", looks.len(), anchors.len()));
    }
    Ok(())
}

/// The linked counts are the lengths of the Rust's shuffles, as far as it came: of so many anchors.
fn as_shuffled(looks: &[Look], lists: &PlaceLists) -> Result<usize, String> {
    for (look, rounds) in looks.iter().zip(lists) {
        let due = lengths(rounds);
        if look.linked != due {
            return Err(format!("{look}; the Rust shuffles {due:?}"));
        }
    }
    Ok(looks.len().min(lists.len()))
}

fn lengths(rounds: &[Vec<u8>]) -> Vec<u32> {
    rounds.iter().map(|list| list.len() as u32).collect()
}

/// A commit that isn't refused hands out what the outlook before it told, with lists as long.
pub fn handed_as_told(told: &Compared, anchors: &[Anchor], lists: &PlaceLists) -> Result<(), String> {
    let Compared::Anchors { looks, .. } = told else {
        return Err(format!("refused, and the commit hands out {} anchors", anchors.len()));
    };
    let handed: Vec<Look> = (anchors.iter().zip(lists))
        .map(|(anchor, rounds)| Look {
            anchor: anchor.anchor,
            points: anchor.points.len() as u32,
            linked: lengths(rounds),
        })
        .collect();
    if handed != *looks || anchors.len() != looks.len() {
        return Err(format!("{looks:?}; the commit hands out {handed:?}"));
    }
    Ok(())
}

/// A commit that is refused, but for 20, 21 and 24, is refused as the outlook before it.
pub fn refused_as_told(told: &Compared, why: &view::Refused) -> Result<(), String> {
    let same = |told: &Refused| {
        let round = match told.refusal {
            Refusal::Conflict { round } => round,
            _ => 0,
        };
        (told.number(), round) == (why.number, why.round)
    };
    match told {
        _ if [20, 21, 24].contains(&why.number) => Ok(()),
        Compared::Refused(told) if same(told) => Ok(()),
        Compared::Refused(told) => {
            Err(format!("{told:?}, and the commit is refused with {} {}", why.number, why.round))
        }
        Compared::Anchors { .. } => Err(format!("not refused, and the commit is with {}", why.number)),
    }
}

/// A buffer of just the bytes needed will do; one byte less, one anchor less or none: 21 and no byte written.
fn other_buffers<S: Side>(ours: &S, trigger: &PointId, whole: &[u8], looks: &[Look]) -> Result<u64, String> {
    let length = looks.iter().map(Look::bytes).sum();
    if whole[length..].iter().any(|byte| *byte != UNTOUCHED) {
        return Err("bytes beyond the anchors were written".into());
    }
    let mut exact = vec![UNTOUCHED; length];
    let given = ours.outlook(trigger, &mut exact);
    if given != Ok(looks.len() as u32) || exact != whole[..length] {
        return Err(format!("a buffer of just {length} bytes: {given:?}, or other bytes"));
    }
    let Some(last) = looks.last() else {
        return Ok(0);
    };
    let shorter = [0, length - last.bytes(), length - 1];
    for length in shorter {
        let mut buffer = vec![UNTOUCHED; length];
        let given = ours.outlook(trigger, &mut buffer);
        let due = Err(Refused { refusal: Refusal::NoRoom, finished: 0 });
        if given != due || buffer.iter().any(|byte| *byte != UNTOUCHED) {
            return Err(format!("a buffer of {length} bytes: {given:?}, due {due:?}, or bytes were written"));
        }
    }
    Ok(shorter.len() as u64)
}

/// What an outlook is to tell of these anchors after these calls, by the links and marks alone.
pub fn counted(anchors: &[PointId], taken: &[&Call], view: &View) -> Vec<Look> {
    let mut histories = Histories::of(taken, view);
    let look = |anchor: &PointId| {
        let history = histories.of_anchor(anchor);
        histories.commit(&history);
        history.look(anchor)
    };
    anchors.iter().map(look).collect()
}

/// What links of uncommitted points lead to from an anchor, down to its lowest round.
struct History {
    /// those not committed, with the anchor
    points: HashSet<PointId>,
    /// how many in each round, committed ones too, the anchor's round first
    linked: Vec<u32>,
}

impl History {
    fn look(&self, anchor: &PointId) -> Look {
        Look { anchor: *anchor, points: self.points.len() as u32, linked: self.linked.clone() }
    }
}

/// Histories by the links that were resolved, the marks that there are and those of the anchors that were counted.
struct Histories {
    links: HashMap<PointId, Vec<PointId>>,
    uncommitted: HashSet<PointId>,
    with: Start,
    bottom: u32,
}

impl Histories {
    fn of(taken: &[&Call], view: &View) -> Histories {
        let start = taken.iter().rev().find_map(|call| match call {
            Call::Start(with) => Some(*with),
            _ => None,
        });
        Histories {
            links: links(taken).collect(),
            uncommitted: view.points.iter().filter(|point| !point.is_committed()).map(|point| point.id).collect(),
            with: start.unwrap_or_default(),
            bottom: view.state.as_ref().map_or(0, |state| state.bottom),
        }
    }

    fn of_anchor(&self, anchor: &PointId) -> History {
        let limit = (self.with.genesis + 1).max(anchor.round.saturating_sub(self.with.commit_history_rounds));
        let lowest = limit.max(self.bottom);
        let mut linked = HashSet::new();
        let mut next = vec![*anchor];
        while let Some(id) = next.pop() {
            if id.round >= lowest && linked.insert(id) && self.uncommitted.contains(&id) {
                next.extend(self.links.get(&id).into_iter().flatten());
            }
        }
        let in_round = |round| linked.iter().filter(|id| id.round == round).count() as u32;
        History {
            linked: (lowest..=anchor.round).rev().map(in_round).collect(),
            points: linked.intersection(&self.uncommitted).copied().collect(),
        }
    }

    /// Marks the points of an anchor, as its commit does.
    fn commit(&mut self, history: &History) {
        self.uncommitted.retain(|id| !history.points.contains(id));
    }
}
