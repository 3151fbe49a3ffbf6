//! The link behind each point of a record (02, N7). The Rust has no such list: what a record is to tell is made anew from its own ids and the
//! links that the resolutions gave.

use std::cmp::Reverse;
use std::collections::{HashMap, HashSet};

use committer::{Anchor, Call, LinkBehind, PointId, PointInfo, Word};

/// Each point that was resolved since the last start, and the points that its links lead to.
pub fn links(taken: &[&Call]) -> impl Iterator<Item = (PointId, Vec<PointId>)> {
    let begun = taken.iter().rposition(|call| matches!(call, Call::Start(_)));
    taken[begun.unwrap_or(0)..].iter().filter_map(|call| match call {
        Call::Resolve(id, info) => Some((*id, targets(id, info))),
        _ => None,
    })
}

fn targets(id: &PointId, info: &PointInfo) -> Vec<PointId> {
    let one = info.includes.iter().map(|link| (1, link));
    let two = info.witness.iter().map(|link| (2, link));
    one.chain(two)
        .filter_map(|(down, link)| {
            Some(PointId { round: id.round.checked_sub(down)?, author: link.peer, digest: link.digest })
        })
        .collect()
}

/// The points that link to a point.
pub struct Linkers(HashMap<PointId, Vec<PointId>>);

impl Linkers {
    pub fn of(taken: &[&Call]) -> Linkers {
        let mut linkers: HashMap<PointId, Vec<PointId>> = HashMap::new();
        for (by, targets) in links(taken) {
            targets.into_iter().for_each(|to| linkers.entry(to).or_default().push(by));
        }
        Linkers(linkers)
    }

    pub fn to(&self, id: &PointId) -> &[PointId] {
        self.0.get(id).map_or(&[], Vec::as_slice)
    }

    /// Those of these points, and the others.
    fn split(&self, to: &PointId, points: &HashSet<PointId>) -> (Vec<PointId>, Vec<PointId>) {
        self.to(to).iter().partition(|by| points.contains(by))
    }
}

/// How a linker leads to a point: by an include one round down, by a witness two.
pub fn link(by: PointId, to: &PointId) -> LinkBehind {
    LinkBehind { by, word: if by.round == to.round + 1 { Word::Includes } else { Word::Witness } }
}

/// Of several linkers the first is told: the highest round before others, in it the lowest digest.
fn order(by: &PointId) -> (Reverse<u32>, [u8; 32]) {
    (Reverse(by.round), by.digest)
}

/// What is told of a point that these points of its record link to; none if it isn't the anchor and there are none.
fn told(anchor: &PointId, to: &PointId, own: &[PointId]) -> Option<LinkBehind> {
    if to == anchor {
        return Some(LinkBehind { by: *anchor, word: Word::Anchor });
    }
    own.iter().min_by_key(|by| order(by)).map(|by| link(*by, to))
}

/// What the record of an anchor with these points is to tell, in their order.
pub fn behind(anchor: &PointId, points: &[PointId], linkers: &Linkers) -> Option<Vec<LinkBehind>> {
    let all = points.iter().copied().collect();
    points.iter().map(|to| told(anchor, to, &linkers.split(to, &all).0)).collect()
}

/// Gives the anchors these links, whatever links they have.
pub fn with_links(anchors: &mut [Anchor], linkers: &Linkers) {
    for anchor in anchors {
        anchor.links = behind(&anchor.anchor, &anchor.points, linkers).expect("a point of a history has a link in it");
    }
}

/// How many links behind points were compared, and how many of these points had more than one linker.
#[derive(Clone, Copy, Debug, Default, PartialEq, Eq)]
pub struct Seen {
    /// by word: includes, witness, anchor
    pub words: [u64; 3],
    /// points with two linkers or more in the record
    pub several: u64,
    /// those with linkers in both rounds above: a witness goes before an include
    pub both_rounds: u64,
    /// those with two or more in the highest round: the lowest digest decides
    pub same_round: u64,
    /// points with a linker that isn't in the record, and those where it would be told if it counted
    pub outside: u64,
    pub outside_first: u64,
}

impl Seen {
    /// Each count with its name.
    pub fn named(&self) -> [(&'static str, u64); 8] {
        let [includes, witness, anchor] = self.words;
        [
            ("includes", includes),
            ("witness", witness),
            ("anchor", anchor),
            ("points with two linkers or more in the record", self.several),
            ("with linkers in both rounds", self.both_rounds),
            ("with two or more in the highest round", self.same_round),
            ("with a linker outside the record", self.outside),
            ("with one that would go before", self.outside_first),
        ]
    }

    pub fn add(&mut self, other: &Seen) {
        self.words.iter_mut().zip(other.words).for_each(|(ours, others)| *ours += others);
        self.several += other.several;
        self.both_rounds += other.both_rounds;
        self.same_round += other.same_round;
        self.outside += other.outside;
        self.outside_first += other.outside_first;
    }

    /// Adds a point with this link behind it, and with these linkers in its record and outside.
    fn point(&mut self, told: &LinkBehind, own: &[PointId], others: &[PointId]) {
        let highest = own.iter().filter(|by| by.round == told.by.round).count();
        let outside_first = told.word != Word::Anchor && others.iter().any(|by| order(by) < order(&told.by));
        self.words[told.word as usize] += 1;
        self.several += u64::from(own.len() > 1);
        self.both_rounds += u64::from(own.len() > highest);
        self.same_round += u64::from(highest > 1);
        self.outside += u64::from(!others.is_empty());
        self.outside_first += u64::from(outside_first);
    }
}

/// The links that records tell are those made anew: what was seen, or what is wrong.
pub fn compared(records: &[Anchor], linkers: &Linkers) -> Result<Seen, String> {
    let mut seen = Seen::default();
    for record in records {
        let due = behind(&record.anchor, &record.points, linkers);
        if due.as_ref() != Some(&record.links) {
            let due = due.map_or("none of some point".into(), |due| shown(&due));
            let anchor = record.anchor.text(".");
            return Err(format!("{anchor} tells {}; by the links of its points: {due}", shown(&record.links)));
        }
        let points = record.points.iter().copied().collect();
        for (to, told) in record.points.iter().zip(&record.links) {
            let (own, others) = linkers.split(to, &points);
            seen.point(told, &own, &others);
        }
    }
    Ok(seen)
}

fn shown(links: &[LinkBehind]) -> String {
    links.iter().map(LinkBehind::to_string).collect::<Vec<_>>().join(", ")
}
