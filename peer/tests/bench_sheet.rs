//! The bench sheet, B1 to B12, from reset.
#![allow(missing_docs)]

mod common;
use common::{Desk, NARROW};
use peer::board::{Calls, Refusal};

/// Periodic, with bit 6.
const PERIODIC_SET: u64 = 1 << 3 | 1 << 6;

#[test]
fn b1_version() {
    assert_eq!(Desk::new().read_index(1), 0x0017_0011);
}

#[test]
fn b2_writable_bits() {
    let mut desk = Desk::new();
    desk.set_low(0, 0xFFFF_FFFF);
    assert_eq!(desk.low(0), 0x0001_AFFF);
}

#[test]
fn b3_active_low_level_pin() {
    let mut desk = Desk::new();
    desk.set_low(9, 0xA029);
    assert_eq!(desk.low(9), 0xB029);
    assert_eq!(desk.deliver(), Some((9, 0x29)));
    assert_eq!(desk.low(9), 0xE029);
    assert_eq!(desk.deliver(), None);
    let before = desk.0;
    desk.end(0x28);
    assert_eq!(desk.0, before);
    desk.end(0x29);
    assert_eq!(desk.deliver(), Some((9, 0x29)));
}

#[test]
fn b4_edges_merge() {
    let mut desk = Desk::new();
    desk.set_low(14, 0x2E);
    desk.wire(14, 1);
    desk.wire(14, 0);
    desk.wire(14, 1);
    assert_eq!(desk.deliver(), Some((14, 0x2E)));
    assert_eq!(desk.deliver(), None);
}

#[test]
fn b5_masked_edge_is_ignored() {
    let mut desk = Desk::new();
    desk.set_low(3, 0x0001_0023);
    desk.wire(3, 1);
    desk.set_low(3, 0x23);
    assert_eq!(desk.deliver(), None);
}

#[test]
fn b6_no_wait_between_level_pins() {
    let mut desk = Desk::new();
    for pin in [5, 2] {
        desk.set_low(pin, 0x8020 + pin);
        desk.wire(pin, 1);
    }
    assert_eq!(desk.deliver(), Some((2, 0x22)));
    assert_eq!(desk.deliver(), Some((5, 0x25)));
}

#[test]
fn b7_one_shot() {
    let mut desk = Desk::new();
    desk.set_comparator(0, 5);
    desk.enable();
    assert_eq!(desk.advance(4), [0, 0, 0]);
    assert_eq!(desk.advance(1), [1, 0, 0]);
}

#[test]
fn b8_periodic() {
    let mut desk = Desk::new();
    desk.configure(0, PERIODIC_SET);
    desk.set_comparator(0, 10);
    desk.set_comparator(0, 4);
    desk.enable();
    assert_eq!(desk.advance(20), [3, 0, 0]);
    assert_eq!(desk.comparator(0), 22);
}

#[test]
fn b9_wide_wrap() {
    let mut desk = Desk::new();
    desk.set_counter(u64::MAX - 1);
    desk.set_comparator(0, 1);
    desk.enable();
    assert_eq!(desk.advance(3), [1, 1, 1]);
    assert_eq!(desk.counter(), 1);
}

#[test]
fn b10_narrow_wrap() {
    let mut desk = Desk::new();
    desk.configure(0, PERIODIC_SET | NARROW);
    desk.set_comparator(0, 0xFFFF_FFFF);
    desk.set_comparator(0, 2);
    desk.set_counter(0xFFFF_FFFE);
    desk.enable();
    assert_eq!(desk.advance(1), [1, 0, 0]);
    assert_eq!(desk.comparator(0), 1);
    assert_eq!(desk.advance(2), [1, 0, 0]);
    assert_eq!(desk.comparator(0), 3);
}

#[test]
fn b11_every_tick() {
    let mut desk = Desk::new();
    desk.configure(0, PERIODIC_SET);
    desk.set_comparator(0, 1);
    desk.enable();
    assert_eq!(desk.advance(7), [7, 0, 0]);
    assert_eq!(desk.comparator(0), 8);
}

#[test]
fn b12_width_before_offset() {
    let mut board = Desk::new().0;
    assert_eq!(board.read(0, 8, 0x04), Err(Refusal::Width));
    assert_eq!(board.read(0, 4, 0x04), Err(Refusal::Place));
}
