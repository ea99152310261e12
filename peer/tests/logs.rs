//! The generator, the shrinker and the wrong models.
#![allow(missing_docs)]

use peer::abi::{self, Call};
use peer::board::{Board, Calls};
use peer::generate::{log, random_board, Profile};
use peer::log::{records_of, replay_from_reset, Record};
use peer::random::Random;
use peer::shrink::shrink;
use peer::wrong::{self, Mistake};

#[test]
fn the_seed_and_the_number_decide_a_log() {
    for profile in Profile::ALL {
        assert_eq!(log(profile, 3, 50), log(profile, 3, 50));
        assert_ne!(log(profile, 3, 50), log(profile, 4, 50));
        assert_ne!(log(profile, 3, 50), log(profile, 3, 51));
    }
}

#[test]
fn only_torn_logs_stop() {
    for number in 0..40 {
        for profile in &Profile::SOUND {
            assert_eq!(records_of(&log(*profile, 9, number)).1, None);
        }
    }
    let stops = (30..70).filter(|&number| records_of(&log(Profile::Torn, 9, number)).1.is_some());
    assert!(stops.count() > 20);
}

#[test]
fn every_call_keeps_a_state_well_formed() {
    let mut random = Random::new(5);
    for number in 0..40 {
        let mut board = random_board(&mut random);
        assert!(board.is_well_formed());
        for record in records_of(&log(Profile::ALL[number as usize % 4], 5, number)).0 {
            let before = board;
            let line = record.play(&mut board);
            assert!(board.is_well_formed(), "{record:?} on {before:?}");
            assert!(!line.starts_with("refused") || board == before, "{record:?}");
        }
    }
}

#[test]
fn a_difference_is_shrunk_to_what_it_needs() {
    let long = |record: &Record| matches!(record, Record::Advance { ticks } if *ticks >= 1_000);
    let differs = |log: &[u8]| records_of(log).0.iter().any(long);
    let full = (0..)
        .map(|number| log(Profile::Timers, 1, number))
        .find(|log| differs(log) && log.len() < 10_000)
        .unwrap();
    let short = shrink(&full, 8_000_000, differs);
    assert_eq!(records_of(&short).0, [Record::Advance { ticks: 1_000 }]);
}

#[test]
fn a_wrong_model_differs_by_its_mistake_alone() {
    // This mistake shows in logs of one length only, so elsewhere all must be right.
    for number in 0..30 {
        let log = log(Profile::ALL[number as usize % 4], 2, number);
        let right = replay_from_reset(&log);
        assert_eq!(wrong::replay(None, &log, Mistake::LimitTooLow), right);
    }
}

#[test]
fn the_lent_layout_holds_every_state() {
    let mut random = Random::new(8);
    for _ in 0..2_000 {
        let board = random_board(&mut random);
        let lent = abi::Board::from(&board);
        assert_eq!(lent.model(), Some(board));
    }
}

#[test]
fn a_lent_flag_above_1_is_not_well_formed() {
    let mut lent = abi::Board::from(&Board::RESET);
    lent.timers.timer[2].periodic = 2;
    let before = lent;
    let reply = Call::Advance { ticks: 5 }.answer(&mut lent);
    assert_eq!(reply, abi::Reply { number: 5, ..abi::Reply::default() });
    assert_eq!(lent, before);
    assert_eq!(Call::Reset.answer(&mut lent), abi::Reply::default());
    assert_eq!(lent, abi::Board::from(&Board::RESET));
}

#[test]
fn a_lent_delivery_says_where_it_goes() {
    let mut board = Board::RESET;
    board.controller.pins[23].write_low(0x0845);
    board.controller.pins[23].write_high(0x9A00_0000);
    board.wire(23, 1).unwrap();
    let mut lent = abi::Board::from(&board);
    let reply = Call::Deliver.answer(&mut lent);
    let wanted = abi::Reply {
        delivered: 1,
        pin: 23,
        vector: 0x45,
        destination: 0x9A,
        logical: 1,
        ..abi::Reply::default()
    };
    assert_eq!(reply, wanted);
    assert_eq!(Call::Deliver.answer(&mut lent), abi::Reply::default());
}
