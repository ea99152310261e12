//! Short logs, for a program that walks every tick: their advances are few ticks, and all the same they reach
//! what an engine can do wrong.
#![allow(missing_docs)]

use peer::board::{Board, Calls, Refusal};
use peer::controller::Delivery;
use peer::fuzz::{Case, Subject, Twin, FIXED_SEED};
use peer::generate::{short_log, ticks_of, Profile, Sort, MOST_TICKS};
use peer::log::{chosen_settings, records_of, replay, Record};
use peer::wrong::{self, Mistake};

/// A board whose advances are walked, tick by tick.
struct Walker {
    board: Board,
    ticks: u64,
}

impl Calls for Walker {
    fn reset(&mut self) -> Result<(), Refusal> {
        self.board.reset()
    }

    fn read(&mut self, window: u64, width: u64, offset: u64) -> Result<u64, Refusal> {
        self.board.read(window, width, offset)
    }

    fn write(&mut self, window: u64, width: u64, offset: u64, value: u64) -> Result<(), Refusal> {
        self.board.write(window, width, offset, value)
    }

    fn wire(&mut self, pin: u64, level: u64) -> Result<(), Refusal> {
        self.board.wire(pin, level)
    }

    fn end(&mut self, vector: u8) -> Result<(), Refusal> {
        self.board.end(vector)
    }

    fn advance(&mut self, ticks: u32) -> Result<[u32; 3], Refusal> {
        self.ticks += u64::from(ticks);
        let mut fired = [0; 3];
        for _ in 0..ticks {
            let now = self.board.tick();
            fired = [0, 1, 2].map(|n| fired[n] + u32::from(now[n]));
        }
        Ok(fired)
    }

    fn deliver(&mut self) -> Result<Option<Delivery>, Refusal> {
        self.board.deliver()
    }
}

#[test]
fn a_walk_prints_what_a_replay_prints() {
    for number in 0..120 {
        let case = Twin::case(Profile::in_turn(number), FIXED_SEED, number);
        let Ok(settings) = chosen_settings(case.settings.as_deref()) else { continue };
        let mut walker = Walker { board: Board::reset_to(&settings), ticks: 0 };
        assert_eq!(replay(&case.log, &mut walker), Twin::output(&case), "log {number}");
        assert_eq!(walker.ticks, Twin::walked(&case));
    }
}

#[test]
fn no_log_has_more_ticks_than_can_be_walked() {
    for seed in 0..3 {
        for number in 0..240 {
            let ticks = Twin::walked(&Twin::case(Profile::in_turn(number), seed, number));
            assert!(ticks <= MOST_TICKS, "log {number} at seed {seed} has {ticks} ticks");
        }
    }
}

#[test]
fn damage_that_lengthens_an_advance_is_cut_to_the_bound() {
    let ticks = (0..600).map(|number| ticks_of(&short_log(Profile::Torn, 2, number)));
    assert_eq!(ticks.max(), Some(MOST_TICKS));
}

#[test]
fn the_ticks_of_a_log_are_those_of_its_advances() {
    let mut log = Vec::new();
    for ticks in [0, 7, u32::MAX] {
        Record::Advance { ticks }.append_to(&mut log);
        Record::Deliver.append_to(&mut log);
    }
    // Behind a bad record nothing is played.
    log.push(0);
    Record::Advance { ticks: 5 }.append_to(&mut log);
    assert_eq!(ticks_of(&log), 7 + u64::from(u32::MAX));
}

#[test]
fn the_seed_and_the_number_decide_a_short_log() {
    for profile in Profile::ALL {
        assert_eq!(short_log(profile, 3, 50), short_log(profile, 3, 50));
        assert_ne!(short_log(profile, 3, 50), short_log(profile, 4, 50));
        assert_ne!(short_log(profile, 3, 50), short_log(profile, 3, 51));
    }
    for profile in Profile::SOUND {
        assert_eq!(records_of(&short_log(profile, 3, 50)).1, None);
    }
}

#[test]
fn short_logs_find_every_mistake_but_one_of_long_advances() {
    let cases: Vec<(Case, String)> = (0..Twin::GATE_LOGS / 2)
        .map(|number| Twin::case(Profile::in_turn(number), FIXED_SEED, number))
        .map(|case| (case.clone(), Twin::output(&case)))
        .collect();
    let is_found = |mistake| {
        cases.iter().any(|(case, right)| {
            wrong::replay(case.settings.as_deref(), &case.log, mistake) != *right
        })
    };
    for &mistake in Mistake::ALL.iter().filter(|mistake| mistake.shows_in_logs()) {
        let is_long = mistake == Mistake::ShortAdvance;
        assert!(is_long || is_found(mistake), "{mistake:?}");
    }
}

#[test]
fn one_log_walks_for_long() {
    let case = Twin::case(Profile::Timers, 7, 2);
    let output = Twin::output(&case);
    let walk = (MOST_TICKS / 2).to_string();
    assert!(output.lines().any(|line| line.contains("fired") && line.contains(&walk)), "{output}");
}
