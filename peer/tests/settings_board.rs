//! A board that was reset with settings (K6): what its registers show, where its timers go, and what is well formed.
#![allow(missing_docs)]

mod common;
use common::{Desk, EDGE, INTERRUPT, LEVEL_TYPE, NARROW, PERIODIC, SET};
use peer::board::{Board, Calls, Refusal};
use peer::generate::{log, random_board, random_settings, Profile};
use peer::log::records_of;
use peer::random::Random;
use peer::settings::Settings;
use peer::timers::configuration_of;

/// Pins 2 and 7 for timer 0, pin 20 alone for timer 1, 8 to 23 for timer 2.
const SETTINGS: Settings =
    Settings { vendor: 0x1022, period: 0x0429_B17F, masks: [0x84, 1 << 20, 0xFF_FF00], id: 9 };

fn desk() -> Desk {
    Desk(Board::reset_to(&SETTINGS))
}

#[test]
fn the_capability_register_shows_period_and_vendor() {
    assert_eq!(desk().get(0x000), 0x0429_B17F_1022_2201);
    assert_eq!((desk().get_half(0x000), desk().get_half(0x004)), (0x1022_2201, 0x0429_B17F));
    for (vendor, period, wanted) in [
        (0, 1, 0x0000_0001_0000_2201),
        (0xFFFF, 100_000_000, 0x05F5_E100_FFFF_2201),
        (0x8086, 100_000_000, 0x05F5_E100_8086_2201),
    ] {
        let settings = Settings { vendor, period, ..SETTINGS };
        assert_eq!(Desk(Board::reset_to(&settings)).get(0x000), wanted);
    }
}

#[test]
fn bits_63_to_32_of_a_configuration_read_that_timers_mask() {
    let mut desk = desk();
    // The route is the mask's lowest pin: 2, 20, 8.
    let wanted = [0x0000_0084_0000_0430, 0x0010_0000_0000_2830, 0x00FF_FF00_0000_1030];
    for (n, wanted) in wanted.into_iter().enumerate() {
        let offset = configuration_of(n);
        assert_eq!(desk.get(offset), wanted);
        assert_eq!(
            (desk.get_half(offset), desk.get_half(offset + 4)),
            (wanted & 0xFFFF_FFFF, wanted >> 32)
        );
    }
}

#[test]
fn writes_to_the_mask_are_ignored_in_halves_too() {
    let mut desk = desk();
    for n in 0..3 {
        let before = desk.configuration(n);
        for value in [0, 1, 0x00FF_FFFF, 0xFFFF_FFFF] {
            desk.set_half(configuration_of(n) + 4, value);
            assert_eq!(desk.configuration(n), before);
            desk.configure(n, value << 32 | before & 0xFFFF_FFFF);
            assert_eq!(desk.configuration(n), before);
        }
    }
}

#[test]
fn a_written_route_outside_the_mask_keeps_the_old_one_and_takes_the_other_bits() {
    for half in [false, true] {
        for route in 0..32 {
            let mut desk = desk();
            desk.configure(0, LEVEL_TYPE | Desk::route(7));
            let value = INTERRUPT | PERIODIC | SET | NARROW | Desk::route(route);
            if half {
                desk.set_half(0x100, value);
            } else {
                desk.configure(0, value);
            }
            let wanted = if matches!(route, 2 | 7) { route } else { 7 };
            let bits = INTERRUPT | PERIODIC | SET | NARROW | 0x30 | Desk::route(wanted);
            assert_eq!(desk.configuration(0), 0x84 << 32 | bits, "route {route}");
        }
    }
}

#[test]
fn so_does_the_status_rule() {
    // Reading 32: the other bits are taken, even the status rule.
    let mut desk = desk();
    desk.configure(0, LEVEL_TYPE);
    desk.set_comparator(0, 1);
    desk.enable();
    assert_eq!(desk.advance(1), [1, 0, 0]);
    assert_eq!(desk.status(), 1);
    desk.configure(0, Desk::route(3));
    assert_eq!((desk.status(), desk.configuration(0)), (0, 0x0000_0084_0000_0430));
}

#[test]
fn each_timer_has_its_own_mask() {
    for (timer, good, bad) in [(0, 7, 20), (1, 20, 7), (2, 23, 7)] {
        let mut desk = desk();
        let reset = desk.configuration(timer);
        desk.configure(timer, Desk::route(bad));
        assert_eq!(desk.configuration(timer), reset);
        desk.configure(timer, Desk::route(good));
        assert_eq!(desk.configuration(timer) >> 9 & 0x1F, good);
    }
}

#[test]
fn a_timer_that_was_not_routed_drives_its_masks_lowest_pin() {
    for (timer, pin) in [(0, 2), (1, 20), (2, 8)] {
        let mut desk = desk();
        desk.set_low(pin, EDGE);
        desk.set_low(0, EDGE);
        // Route 0, outside the mask, keeps the reset route.
        desk.configure(timer, INTERRUPT);
        desk.set_comparator(timer, 3);
        desk.enable();
        desk.advance(3);
        assert_eq!(desk.deliver(), Some((pin as u8, 0x30)));
        assert_eq!(desk.deliver(), None);
    }
}

#[test]
fn the_id_register_starts_at_the_settings_id() {
    let mut desk = desk();
    assert_eq!((desk.read_index(0), desk.read_index(2)), (0x0900_0000, 0x0900_0000));
    desk.write_index(0, 0x0300_0000);
    assert_eq!((desk.read_index(0), desk.read_index(2)), (0x0300_0000, 0x0300_0000));
    // A write changes the register, not the settings.
    desk.0.reset_with(&SETTINGS).unwrap();
    assert_eq!((desk.read_index(0), desk.read_index(2)), (0x0900_0000, 0x0900_0000));
}

#[test]
fn everything_else_is_as_after_any_reset() {
    let (board, usual) = (Board::reset_to(&SETTINGS), Board::RESET);
    assert_eq!(board.controller.pins, usual.controller.pins);
    assert_eq!((board.controller.index, board.outside), (0, usual.outside));
    assert_eq!((board.timers.counter, board.timers.enabled), (0, false));
    for (timer, usual) in board.timers.timer.iter().zip(usual.timers.timer) {
        let same = peer::timer::Timer { mask: timer.mask, route: timer.route, ..usual };
        assert_eq!(*timer, same);
    }
}

#[test]
fn a_reset_without_settings_is_document_01s_also_on_such_a_board() {
    let mut board = Board::reset_to(&SETTINGS);
    assert_eq!(board.reset(), Ok(()));
    assert_eq!(board, Board::RESET);
    assert_eq!(Board::RESET, Board::reset_to(&Settings::USUAL));
    let mut desk = Desk(board);
    assert_eq!(desk.get(0x000), 0x05F5_E100_8086_2201);
    assert_eq!(desk.configuration(1), 0x00FF_FFFF_0000_0030);
    assert_eq!(desk.read_index(0), 0);
}

#[test]
fn a_reset_takes_any_state_and_tests_only_10() {
    let mut random = Random::new(41);
    for number in 0..300 {
        let mut board = random_board(&mut random);
        if number % 2 == 0 {
            board.controller.id = 16 + number;
        }
        let before = board;
        let ill = Settings { id: 16, ..SETTINGS };
        assert_eq!(board.reset_with(&ill), Err(Refusal::Range));
        assert_eq!(board, before, "refused, it hands that state back");
        assert_eq!(board.reset_with(&SETTINGS), Ok(()));
        assert_eq!(board, Board::reset_to(&SETTINGS));
    }
}

#[test]
fn settings_in_range_are_part_of_well_formed() {
    let breaks: [fn(&mut Board); 9] = [
        |board| board.timers.tick_period = 0,
        |board| board.timers.tick_period = 100_000_001,
        |board| board.timers.timer[0].mask = 0,
        |board| board.timers.timer[1].mask |= 1 << 24,
        |board| board.timers.timer[2].mask = u32::MAX,
        |board| board.timers.timer[0].mask = 0x80,
        |board| board.timers.timer[1].route = 19,
        |board| board.timers.timer[2].route = 0,
        |board| board.timers.timer[2].route = 24,
    ];
    for break_it in breaks {
        let mut board = Board::reset_to(&SETTINGS);
        assert!(board.is_well_formed());
        break_it(&mut board);
        let before = board;
        assert_eq!(board.read(9, 3, 1), Err(Refusal::State));
        assert_eq!(board.write(0, 4, 0, 1 << 32), Err(Refusal::State));
        assert_eq!(board.wire(24, 2), Err(Refusal::State));
        assert_eq!(board.end(0), Err(Refusal::State));
        assert_eq!(board.advance(7), Err(Refusal::State));
        assert_eq!(board.deliver(), Err(Refusal::State));
        assert_eq!(board, before);
        assert_eq!(board.reset(), Ok(()));
        assert_eq!(board, Board::RESET);
    }
}

#[test]
fn masks_never_change_but_by_a_reset_and_routes_stay_in_them() {
    let mut random = Random::new(42);
    for number in 0..40 {
        let settings = random_settings(&mut random);
        let mut board = Board::reset_to(&settings);
        for record in records_of(&log(Profile::ALL[number as usize % 5], 9, number)).0 {
            record.play(&mut board);
            assert!(board.is_well_formed());
            assert_eq!(board.timers.timer.map(|timer| timer.mask), settings.masks);
            assert_eq!(
                (board.timers.tick_period, board.timers.vendor),
                (settings.period, settings.vendor)
            );
        }
    }
}
