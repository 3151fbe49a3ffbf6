//! Tables that break one rule each count as not started. The state as bytes.

use committer::{Committer, STATE_BYTES, State, Tables};

use crate::common::{add, beginning, fill_memory, point, refuses, started, version};

/// Places 0 to 4: two points of round 10, one of 11 that includes both, one of 12 with an include and a witness, one
/// named in 13.
fn board() -> Committer {
    let mut committer = started(6, &beginning(), 13);
    let low = [point(10, 0), point(10, 1)];
    add(&mut committer, &low[0], &[], &[]);
    add(&mut committer, &low[1], &[], &[]);
    add(&mut committer, &point(11, 0), &low, &[]);
    add(&mut committer, &point(12, 0), &[point(11, 0)], &[low[1]]);
    committer.name(&point(13, 0)).unwrap();
    committer.certify(&point(12, 0)).unwrap();
    assert!(committer.is_started());
    committer
}

type Break = fn(&mut Tables, &mut State);

/// Each breaks a rule.
const BREAKS: [(&str, Break); 54] = [
    ("phase 0", |_, s| s.phase = 0),
    ("phase 2", |_, s| s.phase = 2),
    ("phase 3", |_, s| s.phase = 3),
    ("more used places than places", |_, s| s.count = 7),
    ("no end of used places", |_, s| s.count = usize::MAX),
    ("H of 0", |_, s| s.commit_history_rounds = 0),
    ("H above 255", |_, s| s.commit_history_rounds = 256),
    ("deduplicate rounds", |_, s| s.deduplicate_rounds = 65_536),
    ("genesis above the bottom", |_, s| s.genesis = 11),
    ("bottom above the top", |_, s| s.bottom = 14),
    ("top above the last round", |_, s| s.top = 4_000_000_001),
    ("513 rounds", |_, s| s.top = 10 + 512),
    ("used mark of author 32", |_, s| s.rounds[12].used_anchor_proof = 33),
    ("129 entries of memory", |_, s| fill_memory(&mut s.memory, 129)),
    ("an entry of author 32", |_, s| {
        fill_memory(&mut s.memory, 2);
        s.memory.entries[1].author = 32;
    }),
    ("two entries of one digest", |_, s| {
        fill_memory(&mut s.memory, 3);
        s.memory.entries[2].digest = s.memory.entries[1].digest;
    }),
    ("an entry of a lower digest", |_, s| {
        fill_memory(&mut s.memory, 3);
        s.memory.entries[1].digest = [0, 1, 0, 0];
    }),
    ("a point below the bottom", |_, s| s.bottom = 11),
    ("a point above the top", |_, s| s.top = 12),
    ("an author who isn't a peer", |_, s| s.rounds[10].peers = 1),
    ("another H than the heights'", |_, s| s.commit_history_rounds = 3),
    ("a place that isn't there", |t, _| t.order[4] = 6),
    ("a place without end", |t, _| t.order[0] = u64::MAX),
    ("a place twice", |t, _| t.order[1] = 0),
    ("two places swapped", |t, _| t.order.swap(0, 1)),
    ("rounds not rising", |t, _| t.order.swap(1, 2)),
    ("a round beyond 32 bits", |t, _| t.keys[4 * 8] |= 1 << 32),
    ("an author above 31", |t, _| t.keys[4 * 8 + 1] = 32),
    ("an author beyond 32 bits", |t, _| t.keys[4 * 8 + 1] = 1 << 32),
    ("a status above 5", |t, _| t.keys[6] = 6),
    ("marks above 7", |t, _| t.keys[7] = 8),
    ("status 4 with links", |t, _| t.keys[3 * 8 + 6] = 4),
    ("status 5 with evidence", |t, _| {
        t.keys[6] = 5;
        t.links[0] = 1;
    }),
    ("evidence beyond 32 bits", |t, _| t.links[0] = 1 << 32),
    ("a top proof by author 32", |t, _| t.links[2] = 32),
    ("a top proof's round beyond 32 bits", |t, _| t.links[1] = 1 << 32),
    ("a link to a free place", |t, _| t.links[2 * 328 + 8] = 6),
    ("a link to no place", |t, _| t.links[2 * 328 + 8] = 7),
    ("a link to another author's point", |t, _| t.links[2 * 328 + 8] = 2),
    ("a link to a point of another round", |t, _| t.links[3 * 328 + 8] = 1),
    ("a link of another digest", |t, _| t.links[2 * 328 + 72] ^= 1),
    ("a witness to no place", |t, _| t.links[3 * 328 + 8 + 32 + 1] = 7),
    ("a witness to another author's point", |t, _| t.links[3 * 328 + 8 + 32 + 1] = 1),
    ("a witness of another digest", |t, _| t.links[3 * 328 + 72 + 33 * 4 + 3] ^= 1),
    ("a witness under another peer", |t, _| t.links.swap(3 * 328 + 8 + 32 + 1, 3 * 328 + 8 + 63)),
    ("status 4 with a witness below the bottom", |t, _| {
        t.keys[6] = 4;
        t.links[8 + 63] = 1;
    }),
    ("status 5 with an include below the bottom", |t, _| {
        t.keys[6] = 5;
        t.links[8 + 31] = 1;
    }),
    ("a height that no top gives", |t, _| t.certs[4] = 3),
    ("a certificate word above 16 bits", |t, _| t.certs[0] |= 1 << 16),
    ("a height too large", |t, _| t.certs[0] += 1),
    ("a height too small", |t, _| t.certs[2] -= 1),
    ("a top without its height", |t, _| t.certs[0] |= 0x8000),
    ("a height without its top", |t, _| t.certs[3] &= 0x7fff),
    ("committed at height 0", |t, _| t.certs[4] |= 0x1000),
];

#[test]
fn tables_that_break_a_rule() {
    for (what, break_rule) in BREAKS {
        let mut committer = board();
        let (tables, state) = committer.parts_mut();
        break_rule(tables, state);
        assert!(!committer.is_started(), "{what}");
        refuses(&mut committer, 2, |c| c.certify(&point(12, 0)));
        refuses(&mut committer, 2, |c| c.drop_upto(11));
        refuses(&mut committer, 2, |c| c.remove(11, Some(0), &mut [0; 5]));
        assert_eq!(committer.start(&beginning()), Ok(()), "{what}");
        assert_eq!(committer.points(), [], "{what}");
    }
}

#[test]
fn five_digests_break_a_rule() {
    let mut committer = started(5, &beginning(), 10);
    for n in 0..4 {
        committer.name(&version(10, 0, n)).unwrap();
    }
    committer.name(&version(10, 1, 0)).unwrap();
    assert!(committer.is_started());
    // the fifth point becomes the first author's; its digest stays above the others
    committer.parts_mut().0.keys[4 * 8 + 1] = 0;
    assert!(!committer.is_started());
    refuses(&mut committer, 2, |c| c.name(&point(10, 2)));
}

/// Each leaves the tables as some calls could have, or is what no rule asks about.
const ALLOWED: [(&str, Break); 13] = [
    ("the last proof", |_, s| s.last_committed_proof = u32::MAX),
    ("the last anchor", |_, s| s.last_anchor = u32::MAX),
    ("the full-history bottom", |_, s| s.full_history_bottom = u32::MAX),
    ("the first executable round", |_, s| s.first_executable = u32::MAX),
    ("the gap flag", |_, s| s.emit_first_after_gap = u32::MAX),
    ("a record of a round that isn't retained", |_, s| s.rounds[14].used_anchor_proof = 99),
    ("a full memory", |_, s| fill_memory(&mut s.memory, 128)),
    ("what an entry says of the round below, the memory's round", |_, s| {
        fill_memory(&mut s.memory, 2);
        s.memory.last = u32::MAX;
        s.memory.entries[1].has_previous = u32::MAX;
        s.memory.entries[1].previous = [u64::MAX; 4];
        s.memory.entries[0].unreferenced_by = u32::MAX;
    }),
    ("an entry beyond those of the memory", |_, s| {
        fill_memory(&mut s.memory, 2);
        s.memory.entries[2].author = 99;
        s.memory.entries[2].digest = s.memory.entries[1].digest;
    }),
    ("a key of a free place", |t, _| t.keys[5 * 8..].fill(99)),
    ("a link of a free place", |t, _| t.links[5 * 328..].fill(99)),
    ("a certificate of a free place", |t, _| t.certs[5] = u64::MAX),
    ("links of a point that isn't resolved", |t, _| t.links[4 * 328..5 * 328].fill(99)),
];

#[test]
fn what_no_rule_asks_about() {
    for (what, change) in ALLOWED {
        let mut committer = board();
        let points = committer.points();
        let (tables, state) = committer.parts_mut();
        change(tables, state);
        assert!(committer.is_started(), "{what}");
        assert_eq!(committer.points(), points, "{what}");
        refuses(&mut committer, 2, |c| c.start(&beginning()));
    }
}

#[test]
fn states_as_bytes() {
    let mut state = *board().parts().1;
    state.memory.entries[127].unreferenced_by = 0xfeed;
    state.memory.entries[1].previous = [1, 2, 3, 4];
    let bytes: [u8; STATE_BYTES] = state.to_bytes().try_into().unwrap();
    assert!(State::from_bytes(&bytes) == state);
    // where the C struct has them
    let half = |at: usize| u32::from_ne_bytes(bytes[at..at + 4].try_into().unwrap());
    assert_eq!((half(0), half(8), half(16), half(28), half(32)), (1, 5, 10, 10, 13));
    assert_eq!(half(std::mem::offset_of!(State, rounds) + 8 * 13), u32::MAX);
    assert_eq!(half(STATE_BYTES - 8), 0xfeed);
    assert_eq!(State::default().to_bytes(), [0; STATE_BYTES]);

    let mut noise = crate::common::Noise::new(1);
    let mut any = [0; STATE_BYTES];
    any.fill_with(|| noise.word() as u8);
    let read = State::from_bytes(&any);
    assert!(State::from_bytes(&read.to_bytes().try_into().unwrap()) == read);
}

#[test]
fn parts_go_and_come() {
    let committer = board();
    let (tables, state) = committer.clone().into_parts();
    let stored = state.to_bytes();
    let again = Committer::from_parts(tables, Box::new(State::from_bytes(&stored.try_into().unwrap())));
    assert!(again == committer);
    assert_eq!(again.points().len(), 5);
}
