//! State and tables that no call left: every call is refused with 2 and changes nothing, and a start works.

use committer::sys::Memory;
use committer::{Answer, Call, Committer, PLACES_MAX, PointId, PointInfo, STATE_BYTES, Start, State, Tables};

use crate::common::{
    Noise, add, assert_outlook, assert_unchanged, beginning, buffer, fill_memory, paid, point, started, valid,
};
use crate::outlooks::{trigger_of_two, two_anchors};
use crate::removes::{board, two_proofs_committed};

/// One call of each kind but start, with arguments made up.
fn calls(noise: &mut Noise) -> Vec<Call> {
    let mut digest = [0; 32];
    digest.fill_with(|| noise.word() as u8);
    let id = PointId { round: noise.below(40), author: noise.below(40), digest };
    let info = PointInfo { status: noise.below(7), evidence: noise.word() as u32, ..valid(&[id], &[id]) };
    let info = paid(info, (noise.word() as u32, noise.word() as u32));
    let round = noise.word() as u32;
    vec![
        Call::Round { round, peers: noise.word() as u32 },
        Call::Name(id),
        Call::Resolve(id, info),
        Call::Certify(id),
        Call::Commit(id, vec![0; noise.below(9) as usize]),
        Call::Outlook(id),
        Call::Drop(round),
        Call::Remove { round: noise.below(40), since: noise.one_in(2).then(|| noise.below(40)) },
        Call::Gap,
        Call::Reset,
    ]
}

/// A start that may be out of range.
fn any_start(noise: &mut Noise) -> Start {
    Start {
        genesis: noise.below(20),
        commit_history_rounds: noise.below(300),
        deduplicate_rounds: noise.below(70_000),
        bottom: noise.below(40),
        peers: noise.word() as u32,
        after_gap: noise.one_in(2),
        used: Some(noise.below(40)).filter(|_| noise.one_in(2)),
    }
}

fn number(answer: &Answer) -> u32 {
    match answer {
        Answer::Refused(why, _) => why.number(),
        _ => 0,
    }
}

/// Every call but start is refused with 2 and changes nothing.
fn assert_not_started(committer: &mut Committer, noise: &mut Noise) {
    let before = committer.clone();
    for call in calls(noise) {
        let answer = committer.call(&call);
        assert_eq!(number(&answer), 2, "{call:?}");
        assert_unchanged(committer, &before);
    }
    assert_outlook(committer, &point(noise.below(40), noise.below(40)));
    assert_eq!((committer.summary(), committer.points()), (None, vec![]));
}

/// A start that is refused with 1 and changes nothing, or one that works: then all is as after a start of zeroed
/// tables.
fn assert_start(committer: &mut Committer, with: &Start) -> bool {
    let before = committer.clone();
    let places = before.parts().0.order.len();
    let mut zeroed = Committer::new(places);
    match (committer.start(with), zeroed.start(with)) {
        (Ok(()), Ok(())) => {
            assert_unchanged(committer, &zeroed);
            true
        }
        (Err(why), Err(same)) => {
            assert_eq!((why.number(), why), (1, same));
            assert_unchanged(committer, &before);
            false
        }
        (noisy, clean) => panic!("{noisy:?} on noise, {clean:?} on zeros: {with:?}"),
    }
}

fn noisy_tables(places: usize, noise: &mut Noise) -> Tables {
    let mut tables = Tables::new(places);
    for table in [&mut tables.keys, &mut tables.links, &mut tables.certs, &mut tables.order] {
        noise.fill(table);
    }
    tables
}

fn noisy_state(noise: &mut Noise) -> Box<State> {
    let mut bytes = [0; STATE_BYTES];
    bytes.fill_with(|| (noise.word() >> 32) as u8);
    Box::new(State::from_bytes(&bytes))
}

/// Numbers in a state's ranges, so that the tests of the tables are reached.
fn plausible(state: &mut State, places: usize, noise: &mut Noise) {
    state.phase = 1;
    state.count = 1 + noise.below(places as u32) as usize;
    state.genesis = noise.below(20);
    state.commit_history_rounds = 1 + noise.below(255);
    state.deduplicate_rounds = noise.below(65_536);
    state.bottom = 20 + noise.below(20);
    state.top = state.bottom + noise.below(512);
    for record in &mut state.rounds {
        record.used_anchor_proof = noise.below(33);
    }
    fill_memory(&mut state.memory, noise.below(129) as usize);
}

#[test]
fn noise_everywhere() {
    let mut started = 0;
    for seed in 0..3000 {
        let noise = &mut Noise::new(seed);
        let places = 1 + noise.below(12) as usize;
        let mut state = noisy_state(noise);
        // of a reset's phase, the memory is kept only with no place in use
        if noise.one_in(3) {
            state.phase = 2;
        }
        let mut committer = Committer::from_parts(noisy_tables(places, noise), state);
        assert_not_started(&mut committer, noise);
        if assert_start(&mut committer, &any_start(noise)) {
            started += 1;
            add_something(&mut committer);
        }
    }
    assert!((100..2900).contains(&started), "starts should be accepted and refused: {started}");
}

/// Each makes of a full memory one that no remove leaves: too many entries, an author who is no peer, digests that don't
/// rise.
const MEMORIES: [fn(&mut Memory); 7] = [
    |m| m.count = 129,
    |m| m.count = usize::MAX,
    |m| m.entries[0].author = 32,
    |m| m.entries[127].author = u32::MAX,
    |m| m.entries[64].digest = m.entries[63].digest,
    |m| m.entries[1].digest = m.entries[2].digest,
    |m| m.entries.swap(126, 127),
];

/// Tables with such a memory count as not started; a start, after a reset too, empties it.
#[test]
fn a_memory_that_does_not_rise() {
    let noise = &mut Noise::new(7);
    for break_memory in MEMORIES {
        for reset in [false, true] {
            let mut committer = started(3, &beginning(), 11);
            add(&mut committer, &point(10, 0), &[], &[]);
            fill_memory(&mut committer.parts_mut().1.memory, 128);
            assert!(committer.is_started());
            if reset {
                committer.reset().unwrap();
            }
            break_memory(&mut committer.parts_mut().1.memory);
            assert_not_started(&mut committer, noise);
            assert!(assert_start(&mut committer, &beginning()));
        }
    }
}

/// What was started can be used.
fn add_something(committer: &mut Committer) {
    let summary = committer.summary().expect("started");
    let round = summary.bottom + 1;
    committer.round(round, u32::MAX).unwrap();
    add(committer, &point(round, 9), &[], &[]);
    committer.certify(&point(round, 9)).unwrap();
    assert_eq!(u32::from(committer.points()[0].height()), summary.commit_history_rounds + 1);
}

#[test]
fn noise_in_the_tables_of_a_plausible_state() {
    for seed in 0..3000 {
        let noise = &mut Noise::new(seed);
        let places = 1 + noise.below(12) as usize;
        let mut state = noisy_state(noise);
        plausible(&mut state, places, noise);
        let mut tables = noisy_tables(places, noise);
        // in half of them the order holds places, so that more tests are reached
        if noise.one_in(2) {
            tables.order.fill_with(|| noise.below(places as u32).into());
        }
        // in half of these small numbers stand in the keys
        if noise.one_in(2) {
            tables.keys.fill_with(|| noise.below(60).into());
        }
        let mut committer = Committer::from_parts(tables, state);
        assert_not_started(&mut committer, noise);
        assert!(assert_start(&mut committer, &beginning()));
        add_something(&mut committer);
    }
}

#[test]
fn noise_in_free_places_is_no_harm() {
    for seed in 0..200 {
        let noise = &mut Noise::new(seed);
        let mut state = noisy_state(noise);
        plausible(&mut state, 4, noise);
        state.count = 0;
        let mut committer = Committer::from_parts(noisy_tables(4, noise), state);
        let summary = committer.summary().expect("no used place breaks a rule");
        committer.reset().unwrap();
        assert_eq!(committer.start(&Start { genesis: summary.genesis, bottom: summary.bottom, ..beginning() }), Ok(()));
    }
}

#[test]
fn noise_in_full_tables() {
    for seed in 0..6 {
        let noise = &mut Noise::new(seed);
        let mut state = noisy_state(noise);
        if seed % 2 == 0 {
            plausible(&mut state, PLACES_MAX, noise);
        }
        let mut committer = Committer::from_parts(noisy_tables(PLACES_MAX, noise), state);
        assert_not_started(&mut committer, noise);
        assert!(assert_start(&mut committer, &beginning()));
        add_something(&mut committer);
    }
}

/// A board with a few points of all sorts.
fn small_board() -> Committer {
    let mut committer = started(8, &beginning(), 13);
    let row = |round| [point(round, 0), point(round, 1)];
    for round in 10..13 {
        for id in row(round) {
            match round {
                10 => add(&mut committer, &id, &[], &[]),
                11 => add(&mut committer, &id, &row(10), &[]),
                _ => add(&mut committer, &id, &row(11), &row(10)),
            }
        }
    }
    committer.name(&point(13, 5)).unwrap();
    committer.certify(&point(12, 1)).unwrap();
    committer
}

/// One changed bit anywhere: the call is refused, with no change, or it is done on tables that count as started.
#[test]
fn one_changed_bit() {
    let board = small_board();
    let mut not_started = 0;
    for seed in 0..6000 {
        let noise = &mut Noise::new(seed);
        let mut committer = board.clone();
        flip(&mut committer, noise);
        let before = committer.clone();
        let counts = committer.is_started();
        not_started += u32::from(!counts);
        for call in calls(noise) {
            let answer = committer.call(&call);
            assert_eq!(number(&answer) == 2, !counts, "{call:?}");
            if number(&answer) != 0 {
                assert_unchanged(&committer, &before);
            }
            committer = before.clone();
        }
        let answer = committer.start(&beginning());
        assert_eq!(answer.is_ok(), !counts);
    }
    assert!((500..5500).contains(&not_started), "both should occur: {not_started}");
}

/// One changed bit on a board whose trigger yields two anchors: outlook and commit still agree.
#[test]
fn one_changed_bit_before_an_outlook() {
    let board = two_anchors(true);
    let mut refused = [0; 26];
    for seed in 0..3000 {
        let mut committer = board.clone();
        flip(&mut committer, &mut Noise::new(seed));
        assert_outlook(&committer, &trigger_of_two());
        refused[number(&committer.call(&Call::Outlook(trigger_of_two()))) as usize] += 1;
    }
    assert!(refused[0] > 100 && refused[2] > 100 && refused[3..].iter().sum::<u32>() > 20, "{refused:?}");
}

/// One changed bit on a board with rounds to drain and entries in the memory: what is done leaves tables that count as
/// started, and says the same once more.
#[test]
fn one_changed_bit_before_a_remove() {
    let mut board = board(&two_proofs_committed());
    board.remove(4, Some(0), &mut buffer(141)).unwrap();
    let mut answered = [0; 24];
    for seed in 0..3000 {
        let mut committer = board.clone();
        flip(&mut committer, &mut Noise::new(seed));
        let before = committer.clone();
        let answer = committer.call(&Call::Remove { round: 5, since: Some(0) });
        assert_eq!(number(&answer) == 2, !before.is_started());
        match number(&answer) {
            0 => assert!(committer.is_started()),
            _ => assert_unchanged(&committer, &before),
        }
        assert!(before.clone().call(&Call::Remove { round: 5, since: Some(0) }) == answer);
        answered[number(&answer) as usize] += 1;
    }
    assert!(answered[0] > 100 && answered[2] > 100, "{answered:?}");
}

/// Changes one bit of the state or of a table. Of the tables only words of used places are changed, of the links mostly
/// targets.
fn flip(committer: &mut Committer, noise: &mut Noise) {
    let (tables, state) = committer.parts_mut();
    let bit = 1 << if noise.one_in(2) { noise.below(4) } else { noise.below(64) };
    match noise.below(5) {
        0 => {
            let mut bytes: [u8; STATE_BYTES] = state.to_bytes().try_into().unwrap();
            let at = if noise.one_in(2) { noise.below(60) } else { noise.below(STATE_BYTES as u32) };
            bytes[at as usize] ^= 1 << noise.below(8);
            *state = State::from_bytes(&bytes);
        }
        1 => tables.keys[noise.below(7 * 8) as usize] ^= bit,
        2 => {
            let at = if noise.one_in(2) { noise.below(72) } else { noise.below(328) };
            tables.links[(noise.below(7) * 328 + at) as usize] ^= bit;
        }
        3 => tables.certs[noise.below(7) as usize] ^= bit,
        _ => tables.order[noise.below(7) as usize] ^= bit,
    }
}
