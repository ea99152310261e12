//! When the screen says taken and paused, by the sentences of K2 and readings 12, 13 and 55.
#![allow(missing_docs)]

mod common;
use common::mill::{Shop, KEY, VECTOR};
use peer::mill::Stage;
use peer::timers::{ENABLE, STATUS};

const MASK: u64 = 1 << 16;
const LEVEL: u64 = 1 << 15;
const ENTRY: u64 = VECTOR as u64;

// "Asked becomes taken when a delivery step gives that pin; the vector is remembered."

#[test]
fn only_the_keys_own_delivery_takes() {
    let mut shop = Shop::asked();
    // Pin 2 is lower, and has the key's vector.
    shop.set_low(2, ENTRY);
    shop.press(2);
    assert_eq!(shop.deliver(), Some((2, VECTOR)));
    assert_eq!(shop.word(), "asked");
    assert_eq!(shop.deliver(), Some((5, VECTOR)));
    assert_eq!(shop.stage(), Some(Stage::Taken { vector: VECTOR }));
}

#[test]
fn the_delivered_vector_is_remembered_not_the_one_at_the_press() {
    let mut shop = Shop::asked();
    shop.set_low(KEY, 0x99);
    assert_eq!(shop.deliver(), Some((5, 0x99)));
    assert_eq!(shop.stage(), Some(Stage::Taken { vector: 0x99 }));
    shop.end(VECTOR);
    assert_eq!(shop.word(), "taken");
    shop.end(0x99);
    assert_eq!(shop.word(), "paused");
}

#[test]
fn a_delivery_step_that_passes_the_masked_key_leaves_asked() {
    let mut shop = Shop::asked();
    shop.set_low(KEY, ENTRY | MASK);
    assert_eq!(shop.word(), "asked", "masking drops no edge");
    assert_eq!(shop.deliver(), None);
    assert_eq!(shop.word(), "asked");
    shop.set_low(KEY, ENTRY);
    assert_eq!(shop.deliver(), Some((5, VECTOR)));
    assert_eq!(shop.word(), "taken");
}

// Reading 12: the edge is dropped by a low-word write that makes the entry level.

#[test]
fn asked_stays_when_the_edge_is_dropped_and_a_level_delivery_takes() {
    let mut shop = Shop::asked();
    shop.set_low(KEY, 0x60 | LEVEL);
    assert!(!shop.holds_edge(KEY));
    assert_eq!(shop.word(), "asked", "nothing else changes the word");
    // The wire is still up, so the level pin is delivered.
    assert_eq!(shop.deliver(), Some((5, 0x60)));
    assert_eq!(shop.stage(), Some(Stage::Taken { vector: 0x60 }));
    shop.end(0x60);
    assert_eq!(shop.word(), "paused");
}

#[test]
fn asked_stays_when_the_entry_is_edge_again_without_its_edge() {
    let mut shop = Shop::asked();
    shop.set_low(KEY, ENTRY | LEVEL);
    shop.set_low(KEY, ENTRY);
    assert!(!shop.holds_edge(KEY));
    assert_eq!(shop.deliver(), None);
    assert_eq!(shop.word(), "asked");
    shop.press(KEY);
    assert_eq!(shop.deliver(), Some((5, VECTOR)));
    assert_eq!(shop.word(), "taken");
}

// "Taken becomes paused at the first end of interrupt with that vector."

#[test]
fn an_end_before_the_delivery_doesnt_count() {
    let mut shop = Shop::asked();
    shop.end(VECTOR);
    assert_eq!(shop.word(), "asked");
    shop.deliver();
    assert_eq!(shop.word(), "taken");
    shop.end(VECTOR);
    assert_eq!(shop.word(), "paused");
}

#[test]
fn an_end_with_another_vector_doesnt_pause() {
    let mut shop = Shop::taken();
    for vector in (0..=255).filter(|&vector| vector != VECTOR) {
        shop.end(vector);
        assert_eq!(shop.word(), "taken", "{vector:#x}");
    }
    shop.end(VECTOR);
    assert_eq!(shop.stage(), Some(Stage::Paused { vector: VECTOR }));
}

#[test]
fn a_rewritten_entry_changes_nothing_of_what_is_remembered() {
    let mut shop = Shop::taken();
    shop.set_low(KEY, 0x77);
    shop.end(0x77);
    assert_eq!(shop.word(), "taken", "0x77 was never delivered");
    shop.end(VECTOR);
    assert_eq!(
        shop.word(),
        "paused",
        "no entry has the vector any more; it is an end all the same"
    );
}

#[test]
fn a_second_delivery_leaves_the_first_vector_remembered() {
    let mut shop = Shop::taken();
    shop.set_low(KEY, 0x77);
    shop.press(KEY);
    assert_eq!(shop.word(), "taken", "a press in taken");
    assert_eq!(shop.deliver(), Some((5, 0x77)));
    assert_eq!(shop.stage(), Some(Stage::Taken { vector: VECTOR }), "reading 55");
    shop.end(0x77);
    assert_eq!(shop.word(), "taken");
    shop.end(VECTOR);
    assert_eq!(shop.word(), "paused");
}

#[test]
fn a_delivery_doesnt_pause() {
    assert_eq!(Shop::taken().word(), "taken");
}

// "Nothing else changes the word."

#[test]
fn a_pause_lasts() {
    let mut shop = Shop::paused();
    shop.press(KEY);
    assert_eq!(shop.word(), "paused", "a press in paused");
    assert_eq!(shop.deliver(), Some((5, VECTOR)));
    shop.end(VECTOR);
    shop.set_low(KEY, ENTRY | LEVEL | MASK);
    shop.set(ENABLE, 1);
    shop.advance(100);
    shop.set(STATUS, 7);
    assert_eq!(shop.stage(), Some(Stage::Paused { vector: VECTOR }));
}
