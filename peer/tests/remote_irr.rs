//! K4: what a low-word write makes of remote IRR. Each case stands below the words that it shows.
#![allow(missing_docs)]

mod common;
use common::mill::{Shop, KEY, VECTOR};
use common::{Desk, EDGE, EDGE_LOW};
use peer::board::{Calls, Refusal};
use peer::pin::Pin;

const LEVEL: u64 = 0x8030;
const IRR: u64 = 1 << 14;
const ELIGIBLE: u64 = 1 << 12;
const MASK: u64 = 1 << 16;
/// What a low-word write takes: all but bits 12, 14 and 31:17.
const TAKEN: u64 = 0x0001_AFFF;

/// Pin 4 is level with vector 0x30, asserted and delivered: it waits for its end.
fn waiting() -> Desk {
    let mut desk = Desk::new();
    desk.set_low(4, LEVEL);
    desk.wire(4, 1);
    assert_eq!(desk.low(4), LEVEL | ELIGIBLE);
    assert_eq!(desk.deliver(), Some((4, 0x30)));
    assert_eq!(desk.low(4), LEVEL | IRR);
    assert_eq!(desk.deliver(), None);
    desk
}

/// Words with bit 15 as it is in the trigger: other masks, modes, polarities, vectors, and bits that can't be written.
fn words(trigger: u64) -> [u64; 14] {
    [
        0x30,
        0x30 | MASK,
        0x130,
        0x730,
        0x730 | MASK,
        0x830,
        0x2030,
        0x2030 | MASK,
        0x31,
        0xFF | MASK,
        0x00,
        0x30 | IRR,
        0x30 | IRR | MASK,
        0xFFFF_7FFF,
    ]
    .map(|word| word | trigger)
}

// "From now on a low-word write that leaves the entry edge sets remote IRR to 0" - whatever mask, mode and vector are
// (reading 39).

#[test]
fn an_edge_write_clears_it_whatever_else_is_written() {
    for word in words(0) {
        let mut desk = waiting();
        desk.set_low(4, word);
        assert_eq!(desk.low(4), word & TAKEN, "{word:#x}");
        assert_eq!(desk.deliver(), None, "a write makes no edge: {word:#x}");
    }
}

#[test]
fn an_edge_write_of_a_masked_level_entry_clears_it_too() {
    for masked in [LEVEL | MASK, LEVEL | 0x700, 0xA030] {
        for word in words(0) {
            let mut desk = waiting();
            desk.set_low(4, masked);
            assert_eq!(desk.low(4), masked | IRR);
            desk.set_low(4, word);
            assert_eq!(desk.low(4), word & TAKEN, "{word:#x} after {masked:#x}");
        }
    }
}

// "one that leaves it level keeps the bit."

#[test]
fn a_level_write_keeps_it_whatever_else_is_written() {
    for word in words(1 << 15) {
        let mut desk = waiting();
        desk.set_low(4, word);
        assert_eq!(desk.low(4), word & TAKEN | IRR, "{word:#x}");
        assert_eq!(desk.deliver(), None, "{word:#x}");
        // It is still there when the entry is as it was.
        desk.set_low(4, LEVEL);
        assert_eq!(desk.low(4), LEVEL | IRR, "{word:#x}");
        assert_eq!(desk.deliver(), None, "{word:#x}");
    }
}

#[test]
fn a_kept_bit_is_cleared_by_an_end_with_the_present_vector() {
    let mut desk = waiting();
    desk.set_low(4, 0x8031);
    desk.end(0x30);
    assert_eq!(desk.low(4), 0x8031 | IRR);
    desk.end(0x31);
    assert_eq!(desk.low(4), 0x8031 | ELIGIBLE);
    assert_eq!(desk.deliver(), Some((4, 0x31)));
}

#[test]
fn no_write_sets_it() {
    for word in words(0).into_iter().chain(words(1 << 15)) {
        let mut desk = Desk::new();
        desk.set_low(4, word | IRR);
        assert_eq!(desk.low(4) & !ELIGIBLE, word & TAKEN, "{word:#x}");
    }
}

#[test]
fn every_word_that_can_be_written_on_every_sort_of_entry() {
    // Level without and with remote IRR, edge without and with a held edge; each masked or not, with a mode or not.
    let entries = [(0x8030, false), (0xC030, false), (0x0030, false), (0x0030, true)];
    for (low, held) in entries {
        for extra in [0, 0x10000, 0x0300, 0x12300] {
            let old = Pin { low: low | extra, destination: 7, wire: true, held };
            assert!(old.is_well_formed());
            for value in 0..1 << 17 {
                let mut pin = old;
                pin.write_low(value);
                let level = value >> 15 & 1;
                assert_eq!(pin.low & !(1 << 14), value & 0x1_AFFF);
                assert_eq!(pin.low >> 14 & 1, old.low >> 14 & 1 & level, "{value:#x} on {old:?}");
                assert_eq!(pin.held, held && level == 0);
                assert_eq!((pin.destination, pin.wire), (7, true));
                assert!(pin.is_well_formed());
            }
        }
    }
}

// "Older system software clears a stuck bit by writing the entry as edge and then back as level; under document 01 it
// hangs with a dead pin."

#[test]
fn edge_and_back_frees_an_asserted_pin() {
    for word in words(0) {
        let mut desk = waiting();
        desk.set_low(4, word);
        desk.set_low(4, LEVEL);
        assert_eq!(desk.low(4), LEVEL | ELIGIBLE, "{word:#x}");
        assert_eq!(desk.deliver(), Some((4, 0x30)), "without an end: {word:#x}");
        assert_eq!(desk.low(4), LEVEL | IRR);
        assert_eq!(desk.deliver(), None);
    }
}

#[test]
fn edge_and_back_on_a_pin_that_is_not_asserted_waits_for_its_wire() {
    let mut desk = waiting();
    desk.wire(4, 0);
    desk.set_low(4, EDGE);
    desk.set_low(4, LEVEL);
    assert_eq!(desk.low(4), LEVEL);
    assert_eq!(desk.deliver(), None);
    desk.wire(4, 1);
    assert_eq!(desk.low(4), LEVEL | ELIGIBLE);
    assert_eq!(desk.deliver(), Some((4, 0x30)));
}

#[test]
fn the_way_back_follows_the_usual_rules() {
    // Masked, then in another mode, then with the other polarity: not eligible, and free all the while.
    let mut desk = waiting();
    desk.set_low(4, EDGE);
    for word in [LEVEL | MASK, LEVEL | 0x500, 0xA030] {
        desk.set_low(4, word);
        assert_eq!(desk.low(4), word);
        assert_eq!(desk.deliver(), None);
    }
    desk.set_low(4, 0x8041);
    assert_eq!(desk.low(4), 0x8041 | ELIGIBLE);
    assert_eq!(desk.deliver(), Some((4, 0x41)));
}

#[test]
fn edge_and_back_again_and_again() {
    let mut desk = waiting();
    for _ in 0..5 {
        desk.set_low(4, EDGE | MASK);
        desk.set_low(4, EDGE);
        desk.set_low(4, LEVEL);
        assert_eq!(desk.deliver(), Some((4, 0x30)));
        assert_eq!(desk.deliver(), None);
    }
}

// What else happens to a pin that an edge write has freed.

#[test]
fn an_end_that_comes_late_changes_nothing() {
    let mut desk = waiting();
    desk.set_low(4, EDGE);
    let before = desk.0;
    desk.end(0x30);
    assert_eq!(desk.0, before);
    desk.set_low(4, LEVEL);
    let before = desk.0;
    desk.end(0x30);
    assert_eq!(desk.0, before);
    assert_eq!(desk.deliver(), Some((4, 0x30)));
    desk.end(0x30);
    assert_eq!(desk.deliver(), Some((4, 0x30)), "the second delivery has an end of its own");
}

#[test]
fn an_edge_pin_is_delivered_as_ever() {
    let mut desk = waiting();
    desk.set_low(4, EDGE);
    assert_eq!(desk.deliver(), None);
    desk.wire(4, 0);
    desk.wire(4, 1);
    assert_eq!(desk.low(4), EDGE | ELIGIBLE);
    assert_eq!(desk.deliver(), Some((4, 0x30)));
    assert_eq!(desk.low(4), EDGE, "an edge delivery sets no remote IRR");
    desk.end(0x30);
    assert_eq!(desk.low(4), EDGE);
    assert_eq!(desk.deliver(), None);
}

#[test]
fn a_polarity_in_the_edge_write_makes_no_edge() {
    let mut desk = waiting();
    desk.wire(4, 0);
    desk.set_low(4, EDGE_LOW);
    assert_eq!(desk.low(4), EDGE_LOW);
    assert_eq!(desk.deliver(), None);
}

#[test]
fn an_edge_write_leaves_a_held_edge() {
    let mut desk = Desk::new();
    desk.set_low(4, EDGE);
    desk.wire(4, 1);
    desk.set_low(4, 0x31);
    assert_eq!(desk.low(4), 0x31 | ELIGIBLE);
    assert_eq!(desk.deliver(), Some((4, 0x31)));
}

#[test]
fn another_entry_keeps_its_bit() {
    let mut desk = Desk::new();
    for pin in [3, 4, 5] {
        desk.set_low(pin, LEVEL);
        desk.wire(pin, 1);
    }
    for pin in [3, 4, 5] {
        assert_eq!(desk.deliver(), Some((pin, 0x30)));
    }
    desk.set_low(4, EDGE);
    for (pin, word) in [(3, LEVEL | IRR), (4, EDGE), (5, LEVEL | IRR)] {
        assert_eq!(desk.low(pin), word, "pin {pin}");
    }
    desk.set_low(4, LEVEL);
    assert_eq!(desk.deliver(), Some((4, 0x30)));
    assert_eq!(desk.deliver(), None);
}

// "a low-word write": no other write, and none that is refused.

#[test]
fn other_writes_leave_it() {
    let mut desk = waiting();
    for word in [0, 0xFF00_0000, 0xFFFF_FFFF] {
        desk.set_high(4, word);
        assert_eq!(desk.low(4), LEVEL | IRR);
    }
    desk.write_index(0, 0);
    desk.set_low(3, EDGE);
    desk.set_low(5, EDGE | MASK);
    assert_eq!(desk.low(4), LEVEL | IRR);
}

#[test]
fn a_refused_write_leaves_it() {
    let mut desk = waiting();
    assert_eq!(desk.low(4), LEVEL | IRR);
    let before = desk.0;
    assert_eq!(desk.0.write(0, 4, 0x10, 1 << 32 | EDGE), Err(Refusal::Value));
    assert_eq!(desk.0.write(0, 8, 0x10, EDGE), Err(Refusal::Width));
    assert_eq!(desk.0.write(0, 4, 0x04, EDGE), Err(Refusal::Place));
    assert_eq!(desk.0.write(2, 4, 0x10, EDGE), Err(Refusal::Place));
    assert_eq!(desk.0, before);
}

// K2: "Nothing else changes the word."

#[test]
fn an_edge_write_is_no_end_to_the_screen() {
    let mut shop = Shop::asked();
    shop.set_low(KEY, 0x8000 | u64::from(VECTOR));
    assert_eq!(shop.deliver(), Some((KEY as u8, VECTOR)));
    assert_eq!(shop.word(), "taken");
    shop.set_low(KEY, VECTOR.into());
    assert!(!shop.board().controller.pins[KEY as usize].remote_irr());
    assert_eq!(shop.word(), "taken");
    shop.end(VECTOR);
    assert_eq!(shop.word(), "paused");
}
