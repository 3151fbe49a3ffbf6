//! What the harness says and writes.

use committer::{Call, PointId, PointInfo, Start, record};
use runs::compare::List;
use runs::known::{ENTRIES, ROWS};
use runs::library::{Library, Side};
use runs::lists::{digest, link, point, shorts};
use runs::notation;
use runs::play::{brief, full};
use runs::sample::{held, line, sample};

const DIFFERENCES: &str = include_str!("../../docs/DIFFERENCES.md");

#[test]
fn entries_are_those_of_the_document() {
    let (_, entries) = DIFFERENCES.split_once("\n## Other answers\n").expect("the section of the entries");
    let (entries, _) = entries.split_once("\n## ").expect("a section after it");
    let headings: Vec<_> = entries.lines().filter_map(|line| line.strip_prefix("### ")).collect();
    let ours: Vec<_> = (1..).zip(ENTRIES).map(|(n, title)| format!("{n}. {title}")).collect();
    assert_eq!(headings, ours);
}

#[test]
fn rows_are_those_of_the_document() {
    let rows = DIFFERENCES.lines().filter(|line| line.starts_with("| ") && line.as_bytes()[2].is_ascii_digit());
    let numbers: Vec<u32> = rows
        .flat_map(|row| {
            row[2..].split('|').next().expect("a cell").split(',').map(|n| n.trim().parse().expect("a number"))
        })
        .collect();
    assert_eq!(numbers, (1..=ROWS).collect::<Vec<_>>());
}

#[test]
fn lists_are_written_as_in_the_document() {
    let with = Start { genesis: 10, commit_history_rounds: 1, bottom: 10, peers: 3, used: Some(0), ..Start::default() };
    let top_proof = PointId { round: 10, author: 0, digest: digest(9) };
    let includes = vec![link(0, 5)];
    let info = PointInfo { status: 1, trigger: true, top_proof, includes, payload_bytes: 9, ..PointInfo::default() };
    let commit = Call::Commit(point(11, 1, 7), vec![0, 1, 0]);
    let calls =
        vec![Call::Start(with), Call::Name(point(11, 1, 7)), Call::Resolve(point(11, 1, 7), info), Call::Gap, commit];
    let list = List { places: 3, calls, order: 7 };
    assert_eq!(
        notation::written(&list),
        "tables of 3 places, order 7\n\
         start(genesis 10, H 1, dedup 0, bottom 10, peers {0,1}, no gap, used 0)\n\
         name(11.1.b)\n\
         resolve(11.1.b, valid, trigger, top 10.0.c, includes 0:a, payload 0 9)\n\
         gap question\n\
         commit(11.1.b, lists 0 1 0)\n",
    );
    let records: Vec<u8> = list.calls.iter().flat_map(|call| record::encode(call).unwrap()).collect();
    assert_eq!(notation::records(&list), notation::hex(&records));
}

/// A call that has no record is said, not cut.
#[test]
fn calls_without_a_record() {
    let calls = vec![Call::Gap, Call::Name(point(11, 256, 7)), Call::Outlook(point(11, 1, 7)), Call::Reset];
    let why = "record of a trace cut short or of wrong length, or a call that has no room in one (26)";
    assert_eq!(
        notation::records(&List { places: 3, calls, order: 7 }),
        format!("000000020109[name(11.256.a): {why}][outlook(11.1.a): {why}]00000002010a")
    );
}

/// The library's text for the recorded calls is the Rust's.
#[test]
fn the_sample_is_what_the_library_answers() {
    let sample = sample();
    assert!(sample.records.len() < 60_000);
    assert!(sample.calls.len() > 300);
    let mut library = Library::new(20);
    let mut text = String::new();
    for call in record::calls(&sample.records) {
        let call = call.expect("the records are whole");
        text += &line(&call, &library.call(&call));
    }
    text += &held(&library.view());
    assert_eq!(text, sample.text);
}

/// What the harness expects of `player` and `replay` for K13.
#[test]
fn programs_are_played_as_they_write() {
    let read = |file: &str| std::fs::read(format!("{}/../crates/{file}", env!("CARGO_MANIFEST_DIR"))).unwrap();
    let k13 = read("replay/stdin");
    assert_eq!(brief(record::calls(&k13)), "anchor 13 0 4\nrounds 10 15\n");
    assert_eq!(full(record::bench_calls(&k13)).as_bytes(), read("replay/stdout"));
}

#[test]
fn short_lists_are_as_many_as_the_readme_says() {
    assert_eq!(shorts().count(), 30_000 + 28_561 + 2_197 + 10_000);
}
