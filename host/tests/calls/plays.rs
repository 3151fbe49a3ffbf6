//! Traces played: the lines of `player`, and the recordings that the repository's programs are run on.

use committer::record::{bench_calls, calls, decode};
use committer::{Anchor, Answer, Call, Committer, Look, PointId, PointInfo, Refusal, Start};

use crate::common::{beginning, handed, id, valid};
use crate::records::{id_fields, record_of, written};

// ---- `player`

/// The lines that `player` writes for a trace: 20 places, and for each commit or remove a buffer of 4,096 zeros.
fn brief(trace: &[u8]) -> Vec<String> {
    let mut committer = Committer::new(20);
    let mut lines = Vec::new();
    for call in calls(trace) {
        let mut buffer = [0; 4096];
        let refused = match call {
            Ok(Call::Commit(trigger, lists)) => {
                let given = committer.commit(&trigger, &lists, &mut buffer);
                let count = given.unwrap_or_else(|why| why.finished);
                let line = |a: Anchor| format!("anchor {} {} {}", a.anchor.round, a.anchor.author, a.points.len());
                lines.extend(handed(&committer, &buffer, count).into_iter().map(line));
                given.err().map(|why| why.number())
            }
            Ok(Call::Remove { round, since }) => {
                committer.remove(round, since, &mut buffer).err().map(|why| why.number())
            }
            Ok(call) => match committer.call(&call) {
                Answer::Refused(why, _) => Some(why.number()),
                _ => None,
            },
            Err(broken) => Some(broken.refusal.number()),
        };
        lines.extend(refused.map(|number| format!("refused {number}")));
    }
    let (bottom, top) = committer.summary().map_or((0, 0), |state| (state.bottom, state.top));
    lines.push(format!("rounds {bottom} {top}"));
    lines
}

fn assert_lines(trace: &[u8], expected: &[&str]) {
    assert_eq!(brief(trace), expected);
}

fn trace_of(calls: &[Call]) -> Vec<u8> {
    calls.iter().flat_map(written).collect()
}

fn begun(top: u32) -> Vec<Call> {
    let with = Start { deduplicate_rounds: 5, peers: 3, used: Some(0), ..beginning() };
    let rounds = (11..=top).map(|round| Call::Round { round, peers: 3 });
    std::iter::once(Call::Start(with)).chain(rounds).collect()
}

/// K13 of document 01 without its commit.
fn k13_points() -> Vec<Call> {
    let [a, b, c] = [id(11, 0, 'a'), id(12, 0, 'b'), id(12, 1, 'c')];
    let [d, e, f] = [id(13, 0, 'd'), id(14, 0, 'e'), id(15, 0, 'f')];
    let under = |top_proof, includes: &[PointId]| PointInfo { top_proof, ..valid(includes, &[]) };
    let z = id(10, 0, 'z');
    let infos = [
        under(z, &[]),
        under(z, &[a]),
        under(z, &[a]),
        under(z, &[b, c]),
        PointInfo { proof: true, ..under(e, &[d]) },
        PointInfo { trigger: true, ..under(e, &[e]) },
    ];
    let points = [a, b, c, d, e, f];
    let resolved = points.into_iter().zip(infos).map(|(id, info)| Call::Resolve(id, info));
    begun(15).into_iter().chain(points.map(Call::Name)).chain(resolved).chain([Call::Certify(d)]).collect()
}

fn k13_commit(lists: &[u8]) -> Call {
    Call::Commit(id(15, 0, 'f'), lists.to_vec())
}

/// The trace of K13, and these calls behind it.
fn k13(more: &[Call]) -> Vec<u8> {
    let trace = trace_of(&[k13_points(), vec![k13_commit(&[0, 0, 1, 0])], more.to_vec()].concat());
    assert!(trace.len() >= 1220);
    trace
}

const ANCHOR: &str = "anchor 13 0 4";

#[test]
fn plays_of_k13() {
    assert_eq!(k13(&[]).len(), 1220);
    assert_lines(&k13(&[]), &[ANCHOR, "rounds 10 15"]);
    let twice = [k13_points(), vec![k13_commit(&[0, 1, 1, 0]), k13_commit(&[0, 0, 1, 0])]].concat();
    assert_lines(&trace_of(&twice), &["refused 24", ANCHOR, "rounds 10 15"]);
    assert_lines(&k13(&[Call::Reset, Call::Gap]), &[ANCHOR, "refused 2", "rounds 0 0"]);
    assert_lines(&k13(&begun(10)), &[ANCHOR, "refused 2", "rounds 10 15"]);
    assert_lines(&k13(&[])[..1219], &["refused 26", "rounds 10 15"]);
    let removed = |flag, since: u32| {
        let remove = record_of(1, 7, &[&[0, 0, 0, 13, flag][..], &since.to_be_bytes()].concat());
        [k13(&[]), remove].concat()
    };
    for (flag, since) in [(0, u32::MAX), (0, 0), (1, 0), (7, 0)] {
        assert_lines(&removed(flag, since), &[ANCHOR, "rounds 11 15"]);
    }
}

/// A flag is no only at 0; 255 is no used author; mark bits above the third aren't read.
#[test]
fn plays_of_other_bytes() {
    let changed = |at: usize, byte| {
        let mut trace = k13(&[]);
        trace[at] = byte;
        trace
    };
    for flag in [1, 2, 0x80, 0xff] {
        assert_lines(&changed(26, flag), &["refused 20", "rounds 10 15"]);
    }
    assert_lines(&changed(27, 255), &["refused 25", "rounds 10 15"]);
    let mut trace = k13(&[]);
    let mut at = 0;
    while let Ok((call, length)) = decode(&trace[at..]) {
        if matches!(call, Call::Resolve(..)) {
            trace[at + 44] |= 0xf8;
        }
        at += length;
    }
    assert_lines(&trace, &[ANCHOR, "rounds 10 15"]);
}

/// An anchor that is finished before a conflict has its line before the refusal's (entry 4 of docs/DIFFERENCES.md).
#[test]
fn a_play_with_a_conflict() {
    let [a, b, c] = [id(11, 0, 'a'), id(11, 1, 'b'), id(12, 0, 'c')];
    let [d, e] = [id(13, 0, 'd'), id(14, 0, 'e')];
    let points = [
        (a, PointInfo { top_proof: id(10, 0, 'z'), ..valid(&[], &[]) }),
        (b, PointInfo { status: 3, ..valid(&[], &[]) }),
        (c, PointInfo { proof: true, top_proof: c, ..valid(&[a, b], &[]) }),
        (d, PointInfo { proof: true, ..valid(&[c], &[]) }),
        (e, PointInfo { trigger: true, ..valid(&[d], &[]) }),
    ];
    let put = points.into_iter().flat_map(|(id, info)| [Call::Name(id), Call::Resolve(id, info)]);
    let calls: Vec<Call> =
        begun(14).into_iter().chain(put).chain([Call::Certify(c), Call::Commit(e, vec![0])]).collect();
    assert_lines(&trace_of(&calls), &["anchor 11 0 1", "refused 13", "rounds 10 14"]);
}

/// 121 links are read, and refused by the call; 122 are of wrong length.
#[test]
fn plays_of_many_links() {
    let z = id(10, 0, 'z');
    let named = trace_of(&[begun(10), vec![Call::Name(z)]].concat());
    for (includes, number) in [(121, 11), (122, 26)] {
        let mut fields = vec![0; 90 + 33 * usize::from(includes)];
        fields[..37].copy_from_slice(&id_fields(&z).unwrap());
        (fields[37], fields[80]) = (1, includes);
        let trace = [&named[..], &record_of(1, 4, &fields)].concat();
        assert_lines(&trace, &[&format!("refused {number}"), "rounds 10 10"]);
    }
}

#[test]
fn plays_that_end_early() {
    assert_lines(&[], &["rounds 0 0"]);
    assert_lines(&[0], &["refused 26", "rounds 0 0"]);
    assert_lines(&[0, 0, 0, 2, 1, 9], &["refused 2", "rounds 0 0"]);
    assert_lines(&[0, 0, 0, 2, 2, 9], &["refused 27", "rounds 0 0"]);
    let behind = |bytes: &[u8]| [&trace_of(&begun(11)), bytes, &trace_of(&[Call::Reset])].concat();
    assert_lines(&behind(&[0, 0, 0, 3, 1, 9, 0]), &["refused 26", "rounds 10 11"]);
    assert_lines(&behind(&[0, 0, 0, 3, 2, 9, 0]), &["refused 27", "rounds 10 11"]);
}

// ---- `replay` and `recorded`

/// The lines that `replay` writes for a call.
fn lines_of(call: &Call, answer: Answer) -> Vec<String> {
    let question = match call {
        Call::Gap => "gap ",
        Call::Drop(_) => "drop ",
        _ => "",
    };
    let in_lines = |text: String| text.lines().map(String::from).collect::<Vec<_>>();
    let shown = |anchors: &[Anchor]| anchors.iter().map(Anchor::to_string).flat_map(in_lines).collect::<Vec<_>>();
    let (mut lines, last) = match answer {
        Answer::Done => (vec![], "ok".into()),
        Answer::Said(yes) => (vec![], format!("{question}{}", if yes { "yes" } else { "no" })),
        Answer::Handed(anchors) => (shown(&anchors), "ok".into()),
        Answer::Looked(looks) => (looks.iter().map(Look::to_string).collect(), "ok".into()),
        Answer::Refused(why, finished) => (shown(&finished), refused(why.refusal)),
        Answer::Removed(told) => (in_lines(told.to_string()), "ok".into()),
    };
    lines.push(last);
    lines
}

fn refused(why: Refusal) -> String {
    match why {
        Refusal::Conflict { round } => format!("refused 13 {round}"),
        _ => format!("refused {}", why.number()),
    }
}

/// The lines of the state and of the points.
fn last_lines(committer: &Committer) -> Vec<String> {
    let Some(s) = committer.summary() else { return vec!["state none".into()] };
    let proof = s.last_committed_proof.map_or("none".into(), |round| round.to_string());
    let emit = s.emit_first_after_gap.map_or("none".into(), |flag| flag.to_string());
    let state = format!(
        "state bottom {} top {} lastproof {proof} fullbottom {} first {} emit {emit}",
        s.bottom, s.top, s.full_history_bottom, s.first_executable
    );
    let points = committer.points().into_iter().map(|p| format!("p {} {:04x}", p.id.text("."), p.cert));
    std::iter::once(state).chain(points).collect()
}

/// What `replay` writes for a recording.
fn played(recording: &[u8]) -> Vec<String> {
    let mut committer = Committer::new(20);
    let mut lines = Vec::new();
    for call in bench_calls(recording) {
        match call {
            Ok(call) => lines.extend(lines_of(&call, committer.call(&call))),
            Err(broken) => lines.push(broken.to_string()),
        }
    }
    lines.extend(last_lines(&committer));
    lines
}

/// The input of a program of the repository, and what it must write.
fn run_of(program: &str) -> (Vec<u8>, Vec<String>) {
    let folder = format!("{}/../crates/{program}/", env!("CARGO_MANIFEST_DIR"));
    let input = std::fs::read(format!("{folder}stdin")).expect("the input");
    let text = std::fs::read_to_string(format!("{folder}stdout")).expect("what the program writes");
    (input, text.lines().map(String::from).collect())
}

#[test]
fn the_recording_of_replay() {
    let (recording, expected) = run_of("replay");
    assert_eq!(played(&recording), expected);
}

#[test]
fn the_parts_of_recorded() {
    let (mut input, expected) = run_of("recorded");
    let mut lines = Vec::new();
    for part in 0.. {
        let Some((length, rest)) = input.split_first_chunk::<4>() else { break };
        let length = u32::from_be_bytes(*length) as usize;
        if rest.len() < length {
            lines.push(format!("cut part {part}"));
            break;
        }
        lines.push(format!("part {part}"));
        lines.extend(played(&rest[..length]));
        input = rest[length..].to_vec();
    }
    assert_eq!(lines, expected);
}
