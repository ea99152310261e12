//! The lent entries that reset with a settings record (K6), for a board and for a mill, and their memory.
#![allow(missing_docs)]

mod common;
use common::mill::Shop;
use peer::abi::mill::{Mill, MillCall};
use peer::abi::plain::PlainCall;
use peer::abi::settings::Resettable;
use peer::abi::{Board, Call, Controller, Reply, Timers};
use peer::board;
use peer::generate::{broken_record, random_board, random_settings};
use peer::random::Random;
use peer::settings::Settings;
use std::mem::offset_of;

const SETTINGS: Settings =
    Settings { vendor: 0x1022, period: 0x0429_B17F, masks: [0x84, 1 << 20, 0xFF_FF00], id: 9 };

fn number(number: u32) -> Reply {
    Reply { number, ..Reply::default() }
}

#[test]
fn the_places_of_the_fields() {
    let places = [
        offset_of!(Timers, counter),
        offset_of!(Timers, tick_period),
        offset_of!(Timers, vendor),
        offset_of!(Timers, masks),
        offset_of!(Timers, enabled),
        offset_of!(Timers, timer),
    ];
    assert_eq!(places, [0, 8, 12, 16, 28, 32]);
    let places =
        [offset_of!(Board, timers), offset_of!(Board, controller), offset_of!(Board, outside)];
    assert_eq!(places, [0, 104, 280]);
    assert_eq!((size_of::<Timers>(), size_of::<Controller>(), size_of::<Board>()), (104, 176, 304));
}

#[test]
fn a_good_record_resets_whatever_was_there() {
    let mut random = Random::new(51);
    let mut lent = Board::from(&random_board(&mut random));
    lent.timers.timer[1].status = 7;
    lent.timers.masks = [0; 3];
    assert_eq!(lent.reset_settings(&SETTINGS.record()), number(0));
    assert_eq!(lent, Board::from(&board::Board::reset_to(&SETTINGS)));
    assert_eq!((lent.timers.tick_period, lent.timers.vendor), (0x0429_B17F, 0x1022));
    assert_eq!((lent.timers.masks, lent.controller.id), (SETTINGS.masks, 9));
    assert_eq!(lent.timers.timer.map(|timer| timer.route), [2, 20, 8]);
}

#[test]
fn a_refused_record_leaves_every_byte() {
    let good = SETTINGS.record();
    let with = |place: usize, byte: u8| {
        let mut record = good;
        record[place] = byte;
        record.to_vec()
    };
    let records = [
        (8, Vec::new()),
        (8, good[..21].to_vec()),
        (8, [&good[..], &[0]].concat()),
        (6, with(0, 0x5B)),
        (6, with(1, 0x5A)),
        (9, with(2, 2)),
        (9, with(2, 0)),
        (10, with(21, 16)),
        (10, with(12, 1)),
    ];
    let mut random = Random::new(52);
    for (refusal, record) in records {
        for ill in [false, true] {
            let mut lent = Board::from(&random_board(&mut random));
            if ill {
                lent.timers.enabled = 2;
            }
            let before = lent;
            assert_eq!(
                (lent.reset_settings(&record), lent),
                (number(refusal), before),
                "{record:02X?}"
            );
            let mut mill = Mill { board: before, ..Mill::from(&Shop::paused().0) };
            let before = mill;
            assert_eq!((mill.reset_settings(&record), mill), (number(refusal), before));
        }
    }
}

#[test]
fn a_mill_has_no_pin_after_a_reset_with_settings_that_is_done() {
    for shop in Shop::in_each_word() {
        let mut mill = Mill::from(&shop.0);
        assert_eq!(mill.reset_settings(&SETTINGS.record()), number(0));
        assert_eq!(mill.board, Board::from(&board::Board::reset_to(&SETTINGS)));
        assert_eq!((mill.screen.told, mill.screen.pin, mill.screen.word), (0, 0, 0));
    }
}

#[test]
fn a_refused_one_leaves_the_screen_as_it_was() {
    for mut shop in Shop::in_each_word() {
        let before = shop.0;
        let refused = Settings { period: 0, ..SETTINGS };
        assert!(shop.0.reset_with(&refused).is_err());
        assert_eq!(shop.0, before);
        assert_eq!(shop.0.reset_with(&SETTINGS), Ok(()));
        assert_eq!(shop.0.screen, None);
        assert_eq!(Mill::from(&shop.0), Mill::reset_to(&SETTINGS));
    }
}

#[test]
fn kind_7_and_the_plain_reset_are_document_01s() {
    let usual = Board::from(&board::Board::RESET);
    let (mut lent, mut plain) = (Board::reset_to(&SETTINGS), Board::reset_to(&SETTINGS));
    assert_eq!((Call::Reset.answer(&mut lent), lent), (number(0), usual));
    let reset = PlainCall { kind: 7, numbers: [9; 4] };
    assert_eq!((reset.answer(&mut plain), plain), (number(0), usual));
    let mut mill = Mill::reset_to(&SETTINGS);
    assert_eq!(MillCall { kind: 7, numbers: [9; 4] }.answer(&mut mill), number(0));
    assert_eq!(mill.board, usual);
}

#[test]
fn a_vendor_of_more_than_16_bits_is_not_well_formed() {
    for vendor in [0x1_0000, 0x1_1022, 1 << 31] {
        let mut lent = Board::reset_to(&SETTINGS);
        lent.timers.vendor = vendor;
        let before = lent;
        assert_eq!((Call::Deliver.answer(&mut lent), lent), (number(5), before));
        assert_eq!(lent.reset_settings(&SETTINGS.record()), number(0));
        assert!(lent.is_well_formed());
    }
}

#[test]
fn random_records_on_random_memory() {
    let mut random = Random::new(53);
    for _ in 0..2_000 {
        let settings = random_settings(&mut random);
        let mut lent = Board::from(&random_board(&mut random));
        assert_eq!(lent.reset_settings(&settings.record()), number(0));
        assert_eq!(lent.model(), Some(board::Board::reset_to(&settings)));
        assert!(lent.is_well_formed());
        let before = lent;
        let reply = lent.reset_settings(&broken_record(&mut random));
        assert!(matches!(reply.number, 6 | 8 | 9 | 10), "{reply:?}");
        assert_eq!(lent, before);
    }
}
