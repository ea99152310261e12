//! A reset is a call: it takes any state, tests nothing and gives the reset board.
#![allow(missing_docs)]

mod common;
use common::Desk;
use peer::abi::{Call, Reply};
use peer::board::{Board, Calls};
use peer::fuzz::FIXED_SEED;
use peer::generate::{log, random_board, Profile};
use peer::log::{records_of, replay_from_reset};
use peer::random::Random;
use peer::sequence::{broken, Kind, Maker, Sequence};
use peer::wrong::{self, Mistake};

fn sequences(rounds: usize) -> Vec<Sequence> {
    let mut maker = Maker::new(FIXED_SEED);
    (0..rounds).flat_map(|_| maker.round()).collect()
}

fn reset_desk(random: &mut Random) -> Desk {
    let mut desk = Desk(random_board(random));
    desk.0.reset().unwrap();
    desk
}

#[test]
fn every_register_reads_its_reset_value() {
    let mut random = Random::new(11);
    for _ in 0..200 {
        let mut desk = reset_desk(&mut random);
        assert_eq!(desk.0.read(0, 4, 0x00), Ok(0), "the index");
        for index in 0..0x100 {
            let wanted = match index {
                0x01 => 0x0017_0011,
                0x10..0x40 if index % 2 == 0 => 0x0001_0000,
                _ => 0,
            };
            assert_eq!(desk.read_index(index), wanted, "index {index:#x}");
        }
        for offset in (0..0x400).step_by(8) {
            let wanted = match offset {
                0x000 => 0x05F5_E100_8086_2201,
                0x100 | 0x120 | 0x140 => 0x00FF_FFFF_0000_0030,
                0x108 | 0x128 | 0x148 => u64::MAX,
                _ => 0,
            };
            assert_eq!(desk.get(offset), wanted, "offset {offset:#x}");
        }
    }
}

#[test]
fn nothing_is_left_that_no_register_shows() {
    let mut random = Random::new(12);
    for _ in 0..200 {
        let mut desk = reset_desk(&mut random);
        assert_eq!(desk.advance(u32::MAX), [0, 0, 0]);
        for pin in 0..24 {
            desk.set_low(pin, 0x30);
        }
        assert_eq!(desk.deliver(), None, "no edge is held");
        for pin in 0..24 {
            desk.set_low(pin, 0x8030);
        }
        assert_eq!(desk.deliver(), None, "no wire is high");
        desk.configure(1, 1 << 3);
        desk.set_counter(u64::MAX - 1);
        desk.enable();
        assert_eq!(desk.advance(1), [1, 1, 1]);
        assert_eq!(desk.comparator(1), u64::MAX, "the period is 0");
    }
}

#[test]
fn what_follows_a_reset_is_what_follows_from_reset() {
    for number in 0..40 {
        let profile = Profile::ALL[number as usize % 4];
        let mut board = Board::RESET;
        for record in records_of(&log(profile, 6, number)).0 {
            record.play(&mut board);
        }
        board.reset().unwrap();
        let second = log(profile, 7, number);
        assert_eq!(peer::log::replay(&second, &mut board), replay_from_reset(&second));
    }
}

#[test]
fn a_sequence_stays_broken_until_a_reset_mends_it() {
    for kind in [Kind::Broken, Kind::Memory] {
        for sequence in sequences(4).iter().filter(|sequence| sequence.kind == kind) {
            let refused = Reply { number: 5, ..Reply::default() };
            let mut mended = false;
            for step in sequence.steps() {
                if step.call == Call::Reset {
                    assert_eq!(step.reply, Reply::default());
                    assert_eq!(step.after.model(), Some(Board::RESET));
                    mended = true;
                } else if mended {
                    assert_ne!(step.reply.number, 5);
                    assert!(step.after.is_well_formed());
                } else {
                    assert_eq!((step.reply, step.after), (refused, sequence.start));
                }
            }
            assert!(mended, "every broken sequence has a reset");
        }
    }
}

#[test]
fn the_clause_list_and_the_model_agree() {
    for sequence in sequences(20) {
        let whole = broken(&sequence.start).is_empty();
        assert_eq!(sequence.start.is_well_formed(), whole, "{:?}", sequence.start);
        assert!(!whole || !matches!(sequence.kind, Kind::Broken | Kind::Memory));
        assert!(whole || !matches!(sequence.kind, Kind::State | Kind::Wide));
    }
}

#[test]
fn a_wrong_entry_differs_by_its_mistake_alone() {
    // This mistake shows in logs only, so every reply must be right.
    for sequence in sequences(4) {
        let right: Vec<Reply> = sequence.steps().map(|step| step.reply).collect();
        assert_eq!(wrong::replies(&sequence, Mistake::LimitTooLow), right);
    }
}
