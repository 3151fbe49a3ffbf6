//! What the programs `player`, `replay` and `recorded` write for calls: these are made through the library as the programs make them, on 20
//! places and with a zeroed buffer of 4,096 bytes for each call that takes one. See docs/FORMATS.md.

use committer::record::Broken;
use committer::{Anchor, Answer, Call, Committer, Look, PointId, Refusal, Refused, looks, removal};

use crate::behind::{Linkers, with_links};
use crate::library::{records, view};
use crate::outlook::counted;

/// The places that the programs lend.
pub const PLACES: usize = 20;
/// And the bytes of a buffer.
pub const BUFFER: usize = 4096;

/// What `player` writes for a trace of these calls.
pub fn brief(calls: impl Iterator<Item = Result<Call, Broken>>) -> String {
    let mut committer = Committer::new(PLACES);
    let mut text = String::new();
    for call in calls {
        match call {
            Ok(call) => text += &brief_lines(answer(&mut committer, &call)),
            Err(broken) => text += &format!("refused {}\n", broken.refusal.number()),
        }
    }
    let (bottom, top) = committer.summary().map_or((0, 0), |state| (state.bottom, state.top));
    text + &format!("rounds {bottom} {top}\n")
}

/// What `replay` writes for these calls, outlooks among them.
pub fn full(calls: impl Iterator<Item = Result<Call, Broken>>) -> String {
    full_by(calls, answer)
}

/// The same, but the counts of an outlook and the links behind points aren't the library's: they are made from the links that were taken and the
/// marks.
pub fn full_counted(calls: impl Iterator<Item = Result<Call, Broken>>) -> String {
    let mut taken: Vec<Call> = Vec::new();
    full_by(calls, |committer, call| {
        let mut answer = answer(committer, call);
        let before: Vec<&Call> = taken.iter().collect();
        match &mut answer {
            Answer::Looked(looks) => {
                let anchors: Vec<PointId> = looks.iter().map(|look| look.anchor).collect();
                *looks = counted(&anchors, &before, &view(committer));
            }
            Answer::Handed(anchors) | Answer::Refused(_, anchors) => with_links(anchors, &Linkers::of(&before)),
            _ => {}
        }
        if !matches!(answer, Answer::Refused(..)) {
            taken.push(call.clone());
        }
        answer
    })
}

fn full_by(
    calls: impl Iterator<Item = Result<Call, Broken>>,
    mut answered: impl FnMut(&mut Committer, &Call) -> Answer,
) -> String {
    let mut committer = Committer::new(PLACES);
    let mut text = String::new();
    for call in calls {
        text += &match call {
            Ok(call) => full_lines(&call, answered(&mut committer, &call)),
            Err(broken) => broken.to_string(),
        };
        text += "\n";
    }
    text + &held(&committer)
}

/// A call's answer where its buffer is one of the programs'.
fn answer(committer: &mut Committer, call: &Call) -> Answer {
    let mut buffer = [0; BUFFER];
    match call {
        Call::Commit(trigger, lists) => match committer.commit(trigger, lists, &mut buffer) {
            Ok(count) => Answer::Handed(records(&buffer, count)),
            Err(why) => Answer::Refused(why, records(&buffer, why.finished)),
        },
        Call::Outlook(trigger) => match committer.outlook(trigger, &mut buffer) {
            Ok(count) => Answer::Looked(looks(&buffer, count, committer.parts().1)),
            Err(why) => Answer::Refused(why, Vec::new()),
        },
        Call::Remove { round, since } => match committer.remove(*round, *since, &mut buffer) {
            Ok(()) => Answer::Removed(removal(&buffer).expect("a remove writes a whole answer")),
            Err(why) => Answer::Refused(why, Vec::new()),
        },
        _ => committer.call(call),
    }
}

fn brief_lines(answer: Answer) -> String {
    let (anchors, refused) = match answer {
        Answer::Handed(anchors) => (anchors, None),
        Answer::Refused(why, finished) => (finished, Some(why)),
        _ => (Vec::new(), None),
    };
    let line = |anchor: &Anchor| {
        let PointId { round, author, .. } = anchor.anchor;
        format!("anchor {round} {author} {}\n", anchor.points.len())
    };
    let mut text: String = anchors.iter().map(line).collect();
    if let Some(why) = refused {
        text += &format!("refused {}\n", why.number());
    }
    text
}

/// The last without its newline.
fn full_lines(call: &Call, answer: Answer) -> String {
    let question = match call {
        Call::Gap => "gap ",
        Call::Drop(_) => "drop ",
        _ => "",
    };
    let shown = |anchors: &[Anchor]| anchors.iter().map(|anchor| format!("{anchor}\n")).collect::<String>();
    match answer {
        Answer::Done => "ok".into(),
        Answer::Said(yes) => format!("{question}{}", if yes { "yes" } else { "no" }),
        Answer::Handed(anchors) => shown(&anchors) + "ok",
        Answer::Looked(looks) => looks.iter().map(|look: &Look| format!("{look}\n")).collect::<String>() + "ok",
        Answer::Removed(told) => told.to_string() + "ok",
        Answer::Refused(why, finished) => shown(&finished) + &refused(&why),
    }
}

fn refused(why: &Refused) -> String {
    match why.refusal {
        Refusal::Conflict { round } => format!("refused 13 {round}"),
        other => format!("refused {}", other.number()),
    }
}

/// The lines of the state and of the points.
fn held(committer: &Committer) -> String {
    let Some(state) = committer.summary() else { return "state none\n".into() };
    let proof = state.last_committed_proof.map_or("none".into(), |round| round.to_string());
    let emit = state.emit_first_after_gap.map_or("none".into(), |flag| flag.to_string());
    let mut text = format!(
        "state bottom {} top {} lastproof {proof} fullbottom {} first {} emit {emit}\n",
        state.bottom, state.top, state.full_history_bottom, state.first_executable
    );
    for point in committer.points() {
        text += &format!("p {} {:04x}\n", point.id.text("."), point.cert);
    }
    text
}
