//! Half reads, and half writes of all but the comparators (K1), worked out by hand from the sentences
//! above each test.
#![allow(missing_docs)]

mod common;
use common::{Desk, EDGE, EDGE_LOW, FIXED, INTERRUPT, LEVEL_TYPE, NARROW, PERIODIC, SET};
use peer::generate::random_board;
use peer::random::Random;

const ENABLE: u64 = 0x010;
const STATUS: u64 = 0x020;
const COUNTER: u64 = 0x0F0;
const CONFIGURATION: u64 = 0x100;

const BIG: u64 = 1 << 32;

/// A level timer 0 that has fired, routed to pin 4, whose entry is this word.
fn fired_level_timer(word: u64, interrupt: u64) -> Desk {
    let mut desk = Desk::new();
    desk.set_low(4, word);
    desk.configure(0, LEVEL_TYPE | interrupt | Desk::route(4));
    desk.set_comparator(0, 3);
    desk.enable();
    desk.advance(3);
    assert_eq!(desk.status(), 1);
    desk
}

// "A half read gives that half of the 8-byte value."

#[test]
fn halves_of_what_is_known() {
    let mut desk = Desk::with_numbers(PERIODIC | SET, 0x0123_4567_89AB_CDEF, 1);
    desk.set_counter(0xFEDC_BA98_7654_3210);
    let halves = [
        (0x000, 0x8086_2201),
        (0x004, 0x05F5_E100),
        (0x0F0, 0x7654_3210),
        (0x0F4, 0xFEDC_BA98),
        (0x100, 0x0000_0078),
        (0x104, 0x00FF_FFFF),
        (0x108, 0x89AB_CDEF),
        (0x10C, 0x0123_4567),
        (0x128, 0xFFFF_FFFF),
        (0x12C, 0xFFFF_FFFF),
        (0x160, 0),
        (0x3FC, 0),
    ];
    for (offset, half) in halves {
        assert_eq!(desk.get_half(offset), half, "{offset:x}");
    }
}

#[test]
fn halves_of_the_enable_bit_and_the_statuses() {
    let mut desk = fired_level_timer(EDGE, INTERRUPT);
    assert_eq!((desk.get_half(0x010), desk.get_half(0x014)), (1, 0));
    assert_eq!((desk.get_half(0x020), desk.get_half(0x024)), (1, 0));
}

#[test]
fn two_half_reads_are_the_whole_read() {
    let mut random = Random::new(21);
    for _ in 0..500 {
        let mut desk = Desk(random_board(&mut random));
        let before = desk.0;
        for offset in (0..0x400).step_by(8) {
            let (low, high) = (desk.get_half(offset), desk.get_half(offset + 4));
            assert!(low < BIG && high < BIG);
            assert_eq!(high << 32 | low, desk.get(offset), "{offset:x}");
        }
        assert_eq!(desk.0, before, "a read changes nothing");
    }
}

// "A half write replaces that half of a counter or configuration and then follows the rule for the
// whole register."

/// The whole number with one half replaced: bits 31:0 at a multiple of 8, else bits 63:32.
fn with_half(whole: u64, offset: u64, half: u64) -> u64 {
    if offset.is_multiple_of(8) {
        whole & 0xFFFF_FFFF_0000_0000 | half
    } else {
        whole & 0x0000_0000_FFFF_FFFF | half << 32
    }
}

#[test]
fn a_half_of_a_counter_or_configuration_is_a_whole_write_of_what_it_reads() {
    let mut random = Random::new(22);
    for _ in 0..400 {
        let start = random_board(&mut random);
        for register in [ENABLE, COUNTER, 0x100, 0x120, 0x140] {
            for offset in [register, register + 4] {
                let half = random.below(BIG);
                let (mut halved, mut whole) = (Desk(start), Desk(start));
                halved.set_half(offset, half);
                let present = whole.get(register);
                whole.set(register, with_half(present, offset, half));
                assert_eq!(halved.0, whole.0, "{offset:x} {half:x} on {start:?}");
            }
        }
    }
}

#[test]
fn the_counter_in_halves() {
    let mut desk = Desk::new();
    desk.set_half(COUNTER + 4, 7);
    assert_eq!(desk.counter(), 0x7_0000_0000);
    desk.set_half(COUNTER, 9);
    assert_eq!(desk.counter(), 0x7_0000_0009);
    desk.set_half(COUNTER + 4, 0);
    assert_eq!(desk.counter(), 9);
}

// "Counter write while enabled: answer 0, nothing changes (K1: both halves)."
#[test]
fn a_half_of_a_running_counter_is_ignored() {
    let mut desk = Desk::new();
    desk.set_counter(0x5_0000_0006);
    desk.enable();
    let before = desk.0;
    desk.set_half(COUNTER, 1);
    desk.set_half(COUNTER + 4, 1);
    assert_eq!(desk.0, before);
}

#[test]
fn the_low_half_of_a_configuration_follows_the_whole_rule() {
    // Bit 6 without bit 3 isn't kept; a route above 23 keeps the old one.
    let mut desk = Desk::new();
    desk.set_half(CONFIGURATION, PERIODIC | SET | Desk::route(9));
    assert_eq!(desk.configuration(0), FIXED | PERIODIC | SET | Desk::route(9));
    desk.set_half(CONFIGURATION, SET | Desk::route(24));
    assert_eq!(desk.configuration(0), FIXED | Desk::route(9));
    desk.set_half(CONFIGURATION, 0xFFFF_FFFF);
    assert_eq!(desk.configuration(0), FIXED | 0x14E | Desk::route(9));

    // Writing 32-bit mode reduces comparator and period.
    let mut desk = Desk::with_numbers(PERIODIC, 0x5_0000_0007, 0x6_0000_0002);
    desk.set_half(CONFIGURATION, NARROW | PERIODIC);
    assert_eq!(desk.numbers(), (7, 2, false));

    // Writing edge type clears the status.
    let mut desk = fired_level_timer(EDGE, INTERRUPT);
    desk.set_half(CONFIGURATION, INTERRUPT | Desk::route(4));
    assert_eq!(desk.status(), 0);
}

// "The low half is what the register reads now, rewritten by the rule for the whole: nothing
// changes, bit 6 and status included."
#[test]
fn the_high_half_of_a_configuration_changes_nothing() {
    let mut random = Random::new(23);
    let (mut with_bit_six, mut with_status) = (0, 0);
    for _ in 0..2_000 {
        let mut desk = Desk(random_board(&mut random));
        let before = desk.0;
        for offset in [0x014, 0x104, 0x124, 0x144] {
            let half = random.choose(&[0, 0xFFFF_FFFF, random.clone().below(BIG)]);
            desk.set_half(offset, half);
        }
        assert_eq!(desk.0, before);
        with_bit_six += u32::from(before.timers.timer.iter().any(|timer| timer.set_comparator));
        with_status += u32::from(before.timers.timer.iter().any(|timer| timer.status));
    }
    assert!(with_bit_six > 100 && with_status > 100, "{with_bit_six}, {with_status}");
}

#[test]
fn the_high_half_of_the_enable_register_does_not_disable() {
    let mut desk = Desk::new();
    desk.set_half(ENABLE, 1);
    assert_eq!(desk.get(ENABLE), 1);
    desk.set_half(ENABLE + 4, 0);
    assert_eq!(desk.get(ENABLE), 1);
    desk.set_half(ENABLE, 0xFFFF_FFFE);
    assert_eq!(desk.get(ENABLE), 0);
    desk.set_half(ENABLE + 4, 0xFFFF_FFFF);
    assert_eq!(desk.get(ENABLE), 0);
}

// "A status write takes the missing half as zeros", "so 0x024 never clears anything".

#[test]
fn the_low_half_of_the_status_clears_what_is_written_1() {
    let mut desk = Desk::new();
    for timer in 0..3 {
        desk.configure(timer, LEVEL_TYPE);
        desk.set_comparator(timer, 2);
    }
    desk.enable();
    desk.advance(2);
    assert_eq!(desk.status(), 7);
    desk.set_half(STATUS, 2);
    assert_eq!(desk.status(), 5);
    desk.set_half(STATUS, 0xFFFF_FFF8);
    assert_eq!(desk.status(), 5);
    desk.set_half(STATUS, 0xFFFF_FFFF);
    assert_eq!(desk.status(), 0);
}

#[test]
fn the_high_half_of_the_status_clears_nothing() {
    let mut desk = fired_level_timer(EDGE_LOW, INTERRUPT);
    let before = desk.0;
    for half in [0, 1, 7, 0xFFFF_FFFF] {
        desk.set_half(STATUS + 4, half);
        assert_eq!(desk.0, before);
    }
}

#[test]
fn halves_of_read_only_and_unlisted_registers_change_nothing() {
    let listed = [ENABLE, STATUS, COUNTER, 0x100, 0x108, 0x120, 0x128, 0x140, 0x148];
    let mut random = Random::new(25);
    for _ in 0..50 {
        let mut desk = Desk(random_board(&mut random));
        let before = desk.0;
        for offset in (0..0x400).step_by(4).filter(|offset| !listed.contains(&(offset & !7))) {
            desk.set_half(offset, random.below(BIG));
        }
        assert_eq!(desk.0, before);
    }
}

// "Letting a register write that changes a level timer's wire pass without an edge" is a mistake,
// and "a register write is one step".

#[test]
fn a_half_write_that_raises_a_wire_makes_an_edge() {
    let mut desk = fired_level_timer(EDGE, 0);
    assert_eq!(desk.deliver(), None);
    desk.set_half(CONFIGURATION, LEVEL_TYPE | INTERRUPT | Desk::route(4));
    assert_eq!(desk.deliver(), Some((4, 0x30)));
    desk.set_half(ENABLE, 0);
    assert_eq!(desk.deliver(), None);
    desk.set_half(ENABLE, 1);
    assert_eq!(desk.deliver(), Some((4, 0x30)));
    desk.set_low(7, 0x37);
    desk.set_half(CONFIGURATION, LEVEL_TYPE | INTERRUPT | Desk::route(7));
    assert_eq!(desk.deliver(), Some((7, 0x37)));
}

#[test]
fn a_half_write_that_drops_a_wire_makes_an_edge_on_an_active_low_pin() {
    let falls: [(u64, u64); 5] = [
        (STATUS, 1),
        (ENABLE, 0),
        (CONFIGURATION, LEVEL_TYPE | Desk::route(4)),
        (CONFIGURATION, INTERRUPT | Desk::route(4)),
        (CONFIGURATION, LEVEL_TYPE | INTERRUPT | Desk::route(5)),
    ];
    for (offset, half) in falls {
        let mut desk = fired_level_timer(EDGE_LOW, INTERRUPT);
        assert_eq!(desk.deliver(), None);
        desk.set_half(offset, half);
        assert_eq!(desk.deliver(), Some((4, 0x30)), "{offset:x} {half:x}");
        assert_eq!(desk.deliver(), None);
    }
}

#[test]
fn a_half_write_is_one_step() {
    let mut desk = fired_level_timer(EDGE, INTERRUPT);
    assert_eq!(desk.deliver(), Some((4, 0x30)));
    desk.set_half(CONFIGURATION, LEVEL_TYPE | INTERRUPT | PERIODIC | NARROW | Desk::route(4));
    desk.set_half(CONFIGURATION + 4, 0);
    desk.set_half(ENABLE + 4, 0);
    desk.set_half(ENABLE, 1);
    assert_eq!(desk.deliver(), None, "the wire stayed high");
}
