//! Tellings, resumes and refusals, by K2 and readings 14, 54 and 96.
#![allow(missing_docs)]

mod common;
use common::mill::{Shop, KEY, VECTOR};
use peer::board::{Board, Calls, Refusal};
use peer::fuzz::FIXED_SEED;
use peer::generate::{keyed_log, log, Profile};
use peer::log::{records_of, replay};
use peer::mill::{Mill, MillCalls, Screen, Stage};

const MASK: u64 = 1 << 16;
const LEVEL: u64 = 1 << 15;
const ENTRY: u64 = VECTOR as u64;

// A telling again: allowed in every word (reading 54).

#[test]
fn a_telling_of_another_pin_starts_anew_in_every_word() {
    for mut shop in Shop::in_each_word() {
        shop.tell(9);
        assert_eq!((shop.key(), shop.stage()), (Some(9), Some(Stage::Running)));
        // The old key is no key any more.
        shop.press(KEY);
        assert_eq!(shop.word(), "running");
    }
    for mut shop in Shop::in_each_word() {
        shop.set_low(9, 0x50);
        shop.press(9);
        shop.tell(9);
        assert_eq!((shop.key(), shop.stage()), (Some(9), Some(Stage::Asked)));
    }
}

#[test]
fn a_telling_of_the_same_pin_looks_at_its_edge_again() {
    // In asked the edge is still held; in taken and paused it was delivered.
    for (mut shop, word) in
        Shop::in_each_word().into_iter().zip(["running", "asked", "running", "running"])
    {
        shop.tell(KEY);
        assert_eq!((shop.word(), shop.key()), (word, Some(5)));
    }
}

#[test]
fn after_a_telling_the_old_delivery_is_forgotten() {
    let mut shop = Shop::taken();
    shop.tell(KEY);
    shop.end(VECTOR);
    assert_eq!(shop.word(), "running");
}

// "Refusals: 3 for a pause pin above 23, then 14 if its entry isn't an edge entry at the telling;
// the screen stays as it was."

#[test]
fn a_refused_telling_changes_nothing() {
    for mut shop in Shop::in_each_word() {
        shop.set_low(8, LEVEL | 0x50);
        shop.set_low(9, LEVEL | MASK);
        let before = shop.0;
        for pin in [24, 25, 31, 255, 256, 256 + 5, 1 << 32 | 5, u64::MAX] {
            assert_eq!(shop.0.tell(pin), Err(Refusal::Pin), "{pin}");
            assert_eq!(shop.0, before);
        }
        for pin in [8, 9] {
            assert_eq!(shop.0.tell(pin), Err(Refusal::Trigger), "{pin}");
            assert_eq!(shop.0, before);
        }
    }
    assert_eq!((Refusal::Pin.number(), Refusal::Trigger.number()), (3, 14));
}

#[test]
fn the_trigger_decides_not_the_mask_and_only_at_the_telling() {
    let mut shop = Shop::new();
    for pin in 0..24 {
        // Every entry is masked and edge after a reset.
        shop.tell(pin);
        assert_eq!(shop.key(), Some(pin as u8));
    }
    shop.tell(KEY);
    shop.set_low(KEY, LEVEL | ENTRY);
    assert_eq!((shop.word(), shop.key()), ("running", Some(5)), "written level later");
    assert_eq!(shop.0.tell(KEY), Err(Refusal::Trigger));
    assert_eq!(shop.key(), Some(5));
}

// "When a resume comes in paused, the word becomes asked if that pin holds an edge, else running."

#[test]
fn a_resume_in_paused_looks_at_the_held_edge() {
    let mut shop = Shop::paused();
    shop.resume();
    assert_eq!((shop.key(), shop.stage()), (Some(5), Some(Stage::Running)));
    shop.press(KEY);
    assert_eq!(shop.word(), "asked", "the key is still known");

    let mut shop = Shop::paused();
    shop.press(KEY);
    shop.resume();
    assert_eq!((shop.key(), shop.stage()), (Some(5), Some(Stage::Asked)));
    assert_eq!(shop.deliver(), Some((5, VECTOR)));
    shop.end(VECTOR);
    assert_eq!(shop.word(), "paused", "a second pause");
}

#[test]
fn an_edge_held_on_a_masked_key_counts_at_a_resume() {
    let mut shop = Shop::paused();
    shop.press(KEY);
    shop.set_low(KEY, ENTRY | MASK);
    shop.resume();
    assert_eq!(shop.word(), "asked");
}

#[test]
fn a_resume_in_another_word_is_done_and_changes_nothing() {
    let mut shops = vec![Shop::new(), Shop::running(), Shop::asked(), Shop::taken()];
    for shop in &mut shops {
        let before = shop.0;
        assert_eq!(shop.0.resume(), Ok(()));
        assert_eq!(shop.0, before);
    }
}

#[test]
fn a_resume_needs_no_edge_entry() {
    let mut shop = Shop::paused();
    shop.set_low(KEY, ENTRY | LEVEL);
    shop.resume();
    assert_eq!(shop.word(), "running", "14 is a telling's refusal alone");
}

// Refusal 5, first: a mill that isn't well formed. A reset takes it.

#[test]
fn an_ill_formed_mill_is_refused_by_every_call_but_a_reset() {
    let mut running_beside_an_edge = Shop::asked().0;
    running_beside_an_edge.screen = Some(Screen { key: 5, stage: Stage::Running });
    let key_24 = Mill { screen: Some(Screen { key: 24, stage: Stage::Asked }), ..Mill::RESET };
    let mut broken_board = Shop::paused().0;
    broken_board.board.controller.id = 16;
    for broken in [running_beside_an_edge, key_24, broken_board] {
        assert!(!broken.is_well_formed());
        let mut mill = broken;
        assert_eq!(mill.tell(24), Err(Refusal::State), "5 before 3");
        assert_eq!(mill.tell(5), Err(Refusal::State));
        assert_eq!(mill.resume(), Err(Refusal::State));
        assert_eq!(mill.read(9, 9, 9), Err(Refusal::State), "5 before 1");
        assert_eq!(mill.write(0, 4, 0, 1), Err(Refusal::State));
        assert_eq!(mill.wire(5, 1), Err(Refusal::State));
        assert_eq!(mill.end(VECTOR), Err(Refusal::State));
        assert_eq!(mill.advance(1), Err(Refusal::State));
        assert_eq!(mill.deliver(), Err(Refusal::State));
        assert_eq!(mill, broken);
        assert_eq!(mill.reset(), Ok(()));
        assert_eq!(mill, Mill::RESET);
    }
}

#[test]
fn a_refused_call_of_the_board_leaves_the_word() {
    for mut shop in Shop::in_each_word() {
        let before = shop.0;
        assert_eq!(shop.0.wire(24, 1), Err(Refusal::Pin));
        assert_eq!(shop.0.wire(KEY, 2), Err(Refusal::Value));
        assert_eq!(shop.0.read(2, 4, 0), Err(Refusal::Place));
        assert_eq!(shop.0.write(1, 3, 0x10, 1), Err(Refusal::Width));
        assert_eq!(shop.0, before);
    }
}

// "The board inside is the board of the same calls without the screen, and the answers are the same."

#[test]
fn the_screen_changes_nothing_on_the_board() {
    for number in 0..60 {
        let profile = Profile::SOUND[number as usize % 5];
        let log = log(profile, FIXED_SEED, number);
        for key in [0, 5, 23] {
            let (mut board, mut mill) = (Board::RESET, Mill::RESET);
            mill.tell(key).unwrap();
            assert_eq!(replay(&log, &mut mill), replay(&log, &mut board));
            assert_eq!(mill.board, board);
        }
    }
}

#[test]
fn every_call_keeps_a_mill_well_formed() {
    for number in 0..200 {
        let log = keyed_log(Profile::Pause, 3, number);
        let mut mill = Mill::RESET;
        mill.tell(log.key.into()).unwrap();
        for (place, record) in records_of(&log.bytes).0.iter().enumerate() {
            record.play(&mut mill);
            assert!(mill.is_well_formed(), "{record:?}");
            if place % 7 == 0 {
                mill.resume().unwrap();
                assert!(mill.is_well_formed());
            }
        }
    }
}
