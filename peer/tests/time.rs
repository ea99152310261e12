//! The jumping advance against a walk of single ticks, on random well-formed states.
#![allow(missing_docs)]

use peer::board::{Board, Calls};
use peer::generate::random_board;
use peer::random::Random;

fn walk(board: &mut Board, ticks: u32) -> [u32; 3] {
    let mut fired = [0; 3];
    for _ in 0..ticks {
        for (count, fires) in fired.iter_mut().zip(board.tick()) {
            *count += u32::from(fires);
        }
    }
    fired
}

#[test]
fn jumping_is_walking() {
    let mut random = Random::new(1);
    let mut firings = 0;
    for _ in 0..20_000 {
        let start = random_board(&mut random);
        let ticks = random.below(200) as u32;
        let (mut jumped, mut walked) = (start, start);
        let counts = walk(&mut walked, ticks);
        assert_eq!(jumped.advance(ticks), Ok(counts), "{ticks} ticks from {start:?}");
        assert_eq!(jumped, walked, "{ticks} ticks from {start:?}");
        assert!(walked.is_well_formed());
        firings += counts.iter().sum::<u32>();
    }
    assert!(firings > 100_000, "only {firings} firings were compared");
}

#[test]
fn a_cut_advance_is_the_whole_advance() {
    let mut random = Random::new(2);
    for _ in 0..20_000 {
        let start = random_board(&mut random);
        let total = if random.percent(50) { u32::MAX } else { random.any() as u32 };
        let first = random.below(u64::from(total) + 1) as u32;
        let (mut whole, mut cut) = (start, start);
        let counts = whole.advance(total).unwrap();
        let before = cut.advance(first).unwrap();
        assert_eq!(cut.advance(0), Ok([0; 3]));
        let after = cut.advance(total - first).unwrap();
        assert_eq!(whole, cut);
        assert_eq!(counts, [0, 1, 2].map(|n| before[n] + after[n]));
    }
}

#[test]
fn one_long_walk() {
    let mut random = Random::new(3);
    for _ in 0..10 {
        let start = random_board(&mut random);
        let (mut jumped, mut walked) = (start, start);
        let counts = walk(&mut walked, 300_000);
        assert_eq!(jumped.advance(300_000), Ok(counts));
        assert_eq!(jumped, walked);
    }
}
