//! A recording of calls with what the Rust answers, as the text that `replay` writes for it. See docs/FORMATS.md.

use std::collections::BTreeSet;

use committer::{Anchor, Call, Committer, record};

use crate::behind::{Linkers, with_links};
use crate::compare::{List, lent};
use crate::counts::{Counts, kind};
use crate::known::Known;
use crate::library::{Library, with_lists};
use crate::lists::{Growth, Taste, chained, removing};
use crate::play::{BUFFER, PLACES};
use crate::random::Random;
use crate::rust::Rust;
use crate::view::{Answer, Told, View};

/// It reads 65,536 bytes at most.
const BYTES_MAX: usize = 59_000;
/// Of the Rust's shuffle.
const ORDER: u64 = 2026;
/// So many points at least are left at the end.
const LEFT_LEAST: usize = 16;

pub struct Sample {
    pub calls: Vec<Call>,
    pub records: Vec<u8>,
    pub text: String,
}

/// Lists of random growth, chains and lists that remove in turn, with a reset between any two, the last with points left.
pub fn sample() -> Sample {
    let last = (1000..1200).map(list).max_by_key(|calls| words_left(calls)).expect("there are lists");
    let mut calls = Vec::new();
    let mut chains = (0..1000).filter_map(chain);
    let mut removes = (0..10_000).filter_map(remove);
    for n in 0.. {
        let next = match n % 4 {
            0 => list(n),
            1 => chains.next().expect("there are chains"),
            _ => removes.next().expect("there are lists that remove"),
        };
        if encoded(&calls).len() + encoded(&next).len() + encoded(&last).len() > BYTES_MAX {
            break;
        }
        calls.extend(next);
        calls.push(Call::Reset);
    }
    calls.extend(last);
    Sample { records: encoded(&calls), text: played(&calls), calls }
}

fn encoded(calls: &[Call]) -> Vec<u8> {
    calls.iter().flat_map(|call| record::encode(call).expect("a call of the sample has a record")).collect()
}

/// A list that the Rust takes whole; it doesn't end with a reset.
fn list(n: u64) -> Vec<Call> {
    let mut random = Random::of(2026, 4, n);
    let taste = Taste {
        peers: random.within(2, 5),
        places: PLACES,
        calls: random.within(30, 60) as usize,
        wild: 0,
        edges: false,
        steady: random.chance(50),
        commits: false,
    };
    let mut growth = Growth::new(random, taste);
    growth.grow();
    let mut calls = growth.list().calls;
    while calls.last() == Some(&Call::Reset) {
        calls.pop();
    }
    calls
}

/// A list that commits, small enough for the tables, that the Rust takes whole and answers as document 01.
fn chain(n: u64) -> Option<Vec<Call>> {
    let (list, counts) = alike(chained(Random::of(2026, 5, n)))?;
    (counts.anchors > 0).then_some(list.calls)
}

/// Likewise a list whose removes report events of several kinds, a fork or evidence without inclusion among them.
fn remove(n: u64) -> Option<Vec<Call>> {
    let (list, counts) = alike(removing(Random::of(2026, 8, n)))?;
    let kinds: Vec<u32> = counts.events.keys().copied().collect();
    (kinds.len() > 1 && kinds.last() >= Some(&4)).then_some(list.calls)
}

/// The list on tables of `replay`, its commits with their place lists, if no call is refused and the Rust answers as document 01.
fn alike(list: List) -> Option<(List, Counts)> {
    let list = List { places: PLACES, order: ORDER, ..list };
    if !taken(&list.calls) {
        return None;
    }
    let mut counts = Counts::default();
    let (list, ended) = lent::<Library>(&list, &mut counts);
    ended.unwrap_or_else(|why| panic!("{why}"));
    // commits and removes are also made with smaller buffers there, and commits with damaged lists, which the Rust doesn't have
    let no_answer = |known: &Known| [Known::Entry(6), Known::Entry(14)].contains(known);
    let alike = counts.known.keys().all(no_answer) && counts.memory_lesser == 0;
    (alike && counts.refusals.is_empty()).then_some((list, counts))
}

/// Whether the library takes all calls, each with an answer that has room in the buffer of `replay`.
fn taken(calls: &[Call]) -> bool {
    let mut committer = Committer::new(PLACES);
    calls.iter().all(|call| match committer.call(&with_lists(&committer, call)) {
        committer::Answer::Refused(..) => false,
        committer::Answer::Removed(told) => told.bytes() <= BUFFER,
        _ => true,
    })
}

/// How many different certificate words a list leaves, if it leaves enough points.
fn words_left(calls: &[Call]) -> usize {
    let mut rust = Rust::strict();
    calls.iter().for_each(|call| drop(rust.call(call)));
    let points = rust.view().points;
    let words: BTreeSet<u16> = points.iter().map(|point| point.word).collect();
    if points.len() >= LEFT_LEAST { words.len() } else { 0 }
}

/// A line for each call, then the state and the points. The Rust's own assertions hold. The links behind points, which the Rust doesn't tell, are
/// those of the resolutions.
fn played(calls: &[Call]) -> String {
    oracle::set_shuffle_order(ORDER);
    let mut rust = Rust::strict();
    let mut text = String::new();
    let mut taken: Vec<&Call> = Vec::new();
    for call in calls {
        let mut answer = match rust.call(call) {
            Told::Answer(answer) => answer,
            other => panic!("the Rust doesn't take {call:?}: {other:?}"),
        };
        if let Answer::Anchors(anchors) = &mut answer {
            with_links(anchors, &Linkers::of(&taken));
        }
        text += &line(call, &answer);
        taken.push(call);
    }
    text + &held(&rust.view())
}

/// The lines of one call.
pub fn line(call: &Call, answer: &Answer) -> String {
    let what = match (call, answer) {
        (Call::Gap, Answer::Said(yes)) => format!("gap {}", yes_or_no(*yes)),
        (Call::Drop(_), Answer::Said(yes)) => format!("drop {}", yes_or_no(*yes)),
        (_, Answer::Done) => "ok".into(),
        (Call::Commit(..), Answer::Anchors(anchors)) => anchor_lines(anchors) + "ok",
        (Call::Remove { .. }, Answer::Removed(told)) => told.to_string() + "ok",
        (_, Answer::Refused(why)) if why.number == 13 => {
            anchor_lines(&why.finished) + &format!("refused 13 {}", why.round)
        }
        (_, Answer::Refused(why)) => anchor_lines(&why.finished) + &format!("refused {}", why.number),
        _ => panic!("no line for the answer of a {}", kind(call)),
    };
    what + "\n"
}

/// The lines of each anchor.
fn anchor_lines(anchors: &[Anchor]) -> String {
    anchors.iter().map(|anchor| format!("{anchor}\n")).collect()
}

fn yes_or_no(yes: bool) -> &'static str {
    if yes { "yes" } else { "no" }
}

/// The last lines: the state, and each point with its certificate word.
pub fn held(view: &View) -> String {
    let Some(state) = &view.state else {
        return "state none\n".into();
    };
    let last_committed_proof = state.last_committed_proof.map_or("none".into(), |round| round.to_string());
    let emit = state.emit_first_after_gap.map_or("none".into(), |past| past.to_string());
    let mut text = format!(
        "state bottom {} top {} lastproof {last_committed_proof} fullbottom {} first {} emit {emit}\n",
        state.bottom, state.top, state.full_history_bottom, state.first_executable,
    );
    for point in &view.points {
        text += &format!("p {} {:04x}\n", point.id.text("."), point.word);
    }
    text
}
