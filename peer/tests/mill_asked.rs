//! When the screen says running and asked, by the sentences of K2 and readings 21 and 54.
#![allow(missing_docs)]

mod common;
use common::mill::{Shop, KEY, VECTOR};
use common::{INTERRUPT, LEVEL_TYPE};
use peer::timers::configuration_of;

const MASK: u64 = 1 << 16;
const LEVEL: u64 = 1 << 15;
const ACTIVE_LOW: u64 = 1 << 13;
const ENTRY: u64 = VECTOR as u64;

// "Before a telling and after a board reset it has no pin and says running."

#[test]
fn before_a_telling_no_edge_is_seen() {
    let mut shop = Shop::new();
    assert_eq!((shop.word(), shop.key()), ("running", None));
    shop.set_low(KEY, ENTRY);
    shop.press(KEY);
    assert!(shop.holds_edge(KEY), "the board has the edge");
    assert_eq!((shop.word(), shop.key()), ("running", None));
    shop.deliver();
    shop.end(VECTOR);
    assert_eq!((shop.word(), shop.key()), ("running", None));
}

#[test]
fn after_a_board_reset_there_is_no_pin() {
    for mut shop in Shop::in_each_word() {
        shop.reset();
        assert_eq!((shop.word(), shop.key()), ("running", None));
        // The key of before is forgotten, so its edge is nobody's.
        shop.set_low(KEY, ENTRY);
        shop.press(KEY);
        assert_eq!(shop.word(), "running");
    }
}

// "When it is told ... the word becomes asked if that pin holds an edge, else running."

#[test]
fn a_telling_looks_at_the_held_edge() {
    let mut shop = Shop::new();
    shop.set_low(KEY, ENTRY);
    shop.tell(KEY);
    assert_eq!((shop.word(), shop.key()), ("running", Some(5)));

    let mut shop = Shop::new();
    shop.set_low(KEY, ENTRY);
    shop.press(KEY);
    // Let go again: the edge is held all the same, and the wire doesn't count.
    shop.wire(KEY, 0);
    shop.tell(KEY);
    assert_eq!((shop.word(), shop.key()), ("asked", Some(5)));
}

#[test]
fn an_asserted_key_without_an_edge_is_running() {
    let mut shop = Shop::new();
    // The wire goes up while the entry is masked: no edge. Unmasking makes none either (B5).
    shop.wire(KEY, 1);
    shop.set_low(KEY, ENTRY);
    shop.tell(KEY);
    assert_eq!(shop.word(), "running");
}

#[test]
fn an_edge_held_on_a_masked_key_counts_at_a_telling() {
    let mut shop = Shop::new();
    shop.set_low(KEY, ENTRY);
    shop.press(KEY);
    shop.set_low(KEY, ENTRY | MASK);
    shop.tell(KEY);
    assert_eq!(shop.word(), "asked", "reading 54: held is held, masked or not");
}

// "Running becomes asked when an edge is held."

#[test]
fn an_edge_by_the_outside_wire_asks() {
    let mut shop = Shop::running();
    shop.wire(KEY, 1);
    assert_eq!(shop.word(), "asked");

    let mut shop = Shop::running();
    shop.wire(KEY, 1);
    shop.wire(KEY, 0);
    assert_eq!(shop.word(), "asked", "letting go takes nothing back");
}

#[test]
fn an_edge_by_a_falling_wire_asks_on_an_active_low_key() {
    let mut shop = Shop::new();
    shop.set_low(KEY, ENTRY | ACTIVE_LOW);
    shop.wire(KEY, 1);
    shop.tell(KEY);
    assert_eq!(shop.word(), "running");
    shop.wire(KEY, 0);
    assert_eq!(shop.word(), "asked");
}

#[test]
fn an_edge_by_a_pulse_asks_after_the_advance() {
    let mut shop = Shop::running();
    shop.arm(INTERRUPT);
    assert_eq!(shop.word(), "running");
    assert_eq!(shop.advance(1), [1, 0, 0]);
    assert_eq!(shop.word(), "asked");
}

#[test]
fn an_edge_by_a_timer_register_write_asks() {
    let mut shop = Shop::running();
    // A level timer fires with its interrupt off: its status is set, its wire stays low.
    shop.arm(LEVEL_TYPE);
    shop.advance(1);
    assert_eq!(shop.word(), "running");
    shop.set(configuration_of(0), LEVEL_TYPE | INTERRUPT | 5 << 9);
    assert_eq!(shop.word(), "asked", "turning the interrupt on raises the wire");
}

#[test]
fn what_holds_no_edge_doesnt_ask() {
    let mut shop = Shop::running();
    shop.set_low(KEY, ENTRY | MASK);
    shop.press(KEY);
    assert_eq!(shop.word(), "running", "edges on a masked pin are ignored");

    shop.set_low(KEY, ENTRY | LEVEL);
    shop.wire(KEY, 0);
    shop.wire(KEY, 1);
    assert_eq!(shop.deliver(), Some((5, VECTOR)));
    assert_eq!(shop.word(), "running", "a level key holds no edge, delivered or not");

    let mut shop = Shop::running();
    shop.set_low(6, 0x42);
    shop.press(6);
    assert_eq!(shop.word(), "running", "another pin's edge");
    assert_eq!(shop.deliver(), Some((6, 0x42)));
    shop.end(0x42);
    assert_eq!(shop.word(), "running");
}

#[test]
fn an_edge_in_another_delivery_mode_asks() {
    let mut shop = Shop::running();
    shop.set_low(KEY, ENTRY | 0x100);
    shop.press(KEY);
    assert_eq!(shop.word(), "asked", "reading 21: it is held, though never delivered as it is");
    assert_eq!(shop.deliver(), None);
    assert_eq!(shop.word(), "asked");
}
