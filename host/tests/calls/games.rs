//! Games of keepers and spoilers: all small ones against a search of the sides' choices, large ones, and refusals.

use committer::{Game, Reach, Refusal};

/// The sets of peers whose new points may reach, over every way for the peers of a side to include enough points of
/// the round before, `reaching` of which reach.
fn left_by(side: u32, n: u32, quorum: u32, reaching: u32) -> Vec<u32> {
    let mut left = vec![0];
    for peer in (0..n).filter(|peer| side >> peer & 1 == 1) {
        let choices: Vec<u32> = (0..1 << n).filter(|included: &u32| included.count_ones() >= quorum).collect();
        let with = |before: u32| move |included: &u32| before | u32::from(included & reaching != 0) << peer;
        left = left.iter().flat_map(|before| choices.iter().map(with(*before)).collect::<Vec<u32>>()).collect();
    }
    left
}

/// For each set of peers whose points reach: each choice of the keepers, with the sets that the spoilers can leave after
/// it, as bits.
type Rounds = Vec<Vec<u16>>;

fn rounds(n: u32, keepers: u32, quorum: u32) -> Rounds {
    let round = |reaching| {
        let after = left_by(!keepers, n, quorum, reaching);
        let choices = left_by(keepers, n, quorum, reaching);
        choices.iter().map(|kept| after.iter().fold(0, |sets, spoilt| sets | 1u16 << (kept | spoilt))).collect()
    };
    (0..1 << n).map(round).collect()
}

/// The sets from which keepers can force the reach, as bits, and those from which spoilers can prevent it.
fn decided(rounds: &Rounds, author: u32, distance: u32) -> (u16, u16) {
    let sets = |holds: &dyn Fn(u32) -> bool| {
        (0..rounds.len() as u32).filter(|set| holds(*set)).fold(0, |sets, set| sets | 1u16 << set)
    };
    let mut forced = sets(&|set| set >> author & 1 == 1);
    let mut prevented = sets(&|set| set >> author & 1 == 0);
    for _ in 0..distance {
        // some choice of the keepers, whatever the spoilers choose; and to each, some choice of the spoilers
        let (next, kept) = (forced, prevented);
        forced = sets(&|set| rounds[set as usize].iter().any(|left| left & !next == 0));
        prevented = sets(&|set| rounds[set as usize].iter().all(|left| left & kept != 0));
    }
    (forced, prevented)
}

#[test]
fn all_games_of_up_to_four_peers() {
    let mut games = 0;
    for n in 1..=4 {
        for keepers in 0..1 << n {
            for quorum in 1..=n {
                let rounds = rounds(n, keepers, quorum);
                for (author, distance) in (0..n).flat_map(|author| (1..=3).map(move |distance| (author, distance))) {
                    let (forced, prevented) = decided(&rounds, author, distance);
                    for reaching in 0..1 << n {
                        let due = match (forced >> reaching & 1, prevented >> reaching & 1) {
                            (1, 0) => Reach::Forced,
                            (0, 1) => Reach::Prevented,
                            _ => panic!("not exactly one of the two"),
                        };
                        // the lowest peers, and the highest
                        for up in [0, 32 - n] {
                            let peers = u32::MAX >> (32 - n) << up;
                            let (keepers, reaching) = (keepers << up, reaching << up);
                            let game = Game { peers, keepers, quorum, reaching, author: author + up, distance };
                            assert_eq!(game.reach(), Ok(due), "{game:?}");
                            games += 1;
                        }
                    }
                }
            }
        }
    }
    println!("{games} games");
    assert_eq!(games, 28_440);
}

#[test]
fn games_of_all_peers() {
    let game = |keepers: u32, reaching: u32, distance: u32| Game {
        peers: u32::MAX,
        keepers: (1 << keepers) - 1,
        quorum: 22,
        reaching: (1 << reaching) - 1,
        author: 31,
        distance,
    };
    // 21 spoilers are fewer than 22, which counts from the second round on
    assert_eq!(game(11, 1, 1).reach(), Ok(Reach::Prevented));
    for distance in 2..=255 {
        assert_eq!(game(11, 1, distance).reach(), Ok(Reach::Forced));
        assert_eq!(game(10, 1, distance).reach(), Ok(Reach::Prevented));
    }
    // 21 points that don't reach are fewer than 22
    assert_eq!(game(10, 11, 1).reach(), Ok(Reach::Forced));
    assert_eq!(game(10, 10, 1).reach(), Ok(Reach::Prevented));
}

#[test]
fn refused_with_31() {
    let good = Game { peers: 15, keepers: 3, quorum: 3, reaching: 1, author: 0, distance: 1 };
    assert_eq!(good.reach(), Ok(Reach::Forced));
    let bad = [
        Game { peers: 0, keepers: 0, reaching: 0, ..good },
        Game { quorum: 0, ..good },
        Game { quorum: 5, ..good },
        Game { quorum: u32::MAX, ..good },
        Game { author: 4, ..good },
        Game { author: 32, ..good },
        Game { author: u32::MAX, ..good },
        Game { keepers: 16, ..good },
        Game { reaching: 1 << 31, ..good },
        Game { distance: 0, ..good },
        Game { distance: 256, ..good },
        Game { distance: u32::MAX, ..good },
    ];
    for game in bad {
        assert_eq!(game.reach(), Err(Refusal::BadGame), "{game:?}");
    }
    assert_eq!((Refusal::BadGame.number(), Refusal::of(31, 0)), (31, Some(Refusal::BadGame)));
}
