//! Cases worked out by hand from the paper and the decided readings.
#![allow(missing_docs)]

mod common;
use common::{Desk, EDGE, EDGE_LOW, FIXED, INTERRUPT, LEVEL_TYPE, NARROW, PERIODIC, SET};
use peer::board::{Board, Calls, Refusal};

const LEVEL: u64 = 0x8030;

/// A desk with pin 4 written `word` and timer `n`, one-shot, due at counter 3.
fn with_timer(word: u64, timer: usize, configuration: u64) -> Desk {
    let mut desk = Desk::new();
    desk.set_low(4, word);
    desk.configure(timer, configuration | Desk::route(4));
    desk.set_comparator(timer, 3);
    desk
}

#[test]
fn a_pulse_on_an_active_low_pin_is_held_at_the_drop() {
    let mut desk = with_timer(EDGE_LOW, 0, INTERRUPT);
    desk.enable();
    assert_eq!(desk.advance(3), [1, 0, 0]);
    assert_eq!(desk.deliver(), Some((4, 0x30)));
    assert_eq!(desk.deliver(), None);
}

#[test]
fn a_pulse_on_a_high_wire_shows_nothing() {
    for word in [EDGE, EDGE_LOW] {
        let mut desk = with_timer(0x0001_0000, 0, INTERRUPT);
        desk.wire(4, 1);
        desk.set_low(4, word);
        desk.enable();
        assert_eq!(desk.advance(3), [1, 0, 0]);
        assert_eq!(desk.deliver(), None);
    }
}

#[test]
fn a_level_timer_on_an_active_low_edge_pin_makes_its_edge_when_the_wire_falls() {
    let falls: [fn(&mut Desk); 4] = [
        |desk| desk.clear(1),
        |desk| desk.disable(),
        |desk| desk.configure(0, LEVEL_TYPE | Desk::route(4)),
        |desk| desk.configure(0, LEVEL_TYPE | INTERRUPT | Desk::route(5)),
    ];
    for fall in falls {
        let mut desk = with_timer(EDGE_LOW, 0, LEVEL_TYPE | INTERRUPT);
        desk.enable();
        desk.advance(3);
        assert_eq!(desk.deliver(), None);
        fall(&mut desk);
        assert_eq!(desk.deliver(), Some((4, 0x30)));
    }
}

#[test]
fn a_level_timer_on_an_active_high_edge_pin_makes_its_edge_at_the_rise() {
    let mut desk = with_timer(EDGE, 0, LEVEL_TYPE | INTERRUPT);
    desk.enable();
    desk.advance(3);
    assert_eq!(desk.status(), 1);
    assert_eq!(desk.deliver(), Some((4, 0x30)));
    assert_eq!(desk.deliver(), None);
}

#[test]
fn register_writes_that_raise_a_level_timers_wire_make_an_edge() {
    let mut desk = with_timer(EDGE, 0, LEVEL_TYPE);
    desk.enable();
    assert_eq!(desk.advance(3), [1, 0, 0]);
    assert_eq!(desk.status(), 1);
    assert_eq!(desk.deliver(), None);
    desk.configure(0, LEVEL_TYPE | INTERRUPT | Desk::route(4));
    assert_eq!(desk.deliver(), Some((4, 0x30)));
    desk.disable();
    desk.enable();
    assert_eq!(desk.deliver(), Some((4, 0x30)));
    desk.set_low(7, 0x37);
    desk.configure(0, LEVEL_TYPE | INTERRUPT | Desk::route(7));
    assert_eq!(desk.deliver(), Some((7, 0x37)));
}

#[test]
fn a_register_write_is_one_step() {
    // The wire of pin 4 stays high: another timer's status, then the same timer's rewrite.
    let mut desk = with_timer(EDGE, 0, LEVEL_TYPE | INTERRUPT);
    desk.enable();
    desk.advance(3);
    assert_eq!(desk.deliver(), Some((4, 0x30)));
    desk.configure(0, LEVEL_TYPE | INTERRUPT | PERIODIC | NARROW | Desk::route(4));
    assert_eq!(desk.deliver(), None);
}

#[test]
fn a_shared_wire_stays_high_until_the_last_status_is_cleared() {
    let mut desk = with_timer(EDGE_LOW, 0, LEVEL_TYPE | INTERRUPT);
    desk.configure(1, LEVEL_TYPE | INTERRUPT | Desk::route(4));
    desk.set_comparator(1, 3);
    desk.enable();
    assert_eq!(desk.advance(3), [1, 1, 0]);
    desk.clear(1);
    assert_eq!(desk.deliver(), None);
    desk.clear(2);
    assert_eq!(desk.deliver(), Some((4, 0x30)));
}

#[test]
fn timers_fire_in_turn_within_a_tick() {
    // On an active-low pin a rise makes no edge, so only a pulse that comes first is seen.
    for (pulse, level, seen) in [(0, 1, true), (1, 0, false), (1, 2, true), (2, 0, false)] {
        let mut desk = with_timer(EDGE_LOW, pulse, INTERRUPT);
        desk.configure(level, LEVEL_TYPE | INTERRUPT | Desk::route(4));
        desk.set_comparator(level, 3);
        desk.enable();
        desk.advance(3);
        assert_eq!(desk.deliver().is_some(), seen, "pulse {pulse}, level {level}");
    }
}

#[test]
fn a_polarity_write_makes_no_edge_now_or_at_the_next_step() {
    let mut desk = Desk::new();
    desk.set_low(4, EDGE);
    desk.set_low(4, EDGE_LOW);
    assert_eq!(desk.deliver(), None);
    desk.wire(5, 1);
    assert_eq!(desk.deliver(), None);
    desk.wire(4, 1);
    assert_eq!(desk.deliver(), None);
    desk.wire(4, 0);
    assert_eq!(desk.deliver(), Some((4, 0x30)));
}

#[test]
fn a_held_edge_survives_masking_and_modes_but_not_a_level_write() {
    let mut desk = Desk::new();
    for (word, survives) in
        [(EDGE | 1 << 16, true), (EDGE | 0x700, true), (EDGE_LOW, true), (LEVEL | 1 << 16, false)]
    {
        desk.set_low(4, EDGE);
        desk.wire(4, 0);
        desk.wire(4, 1);
        desk.set_low(4, word);
        assert_eq!(desk.0.controller.pins[4].held, survives);
        desk.wire(4, 0);
        desk.set_low(4, EDGE);
        assert_eq!(desk.deliver().is_some(), survives, "{word:x}");
    }
}

#[test]
fn a_pin_with_another_mode_holds_edges() {
    let mut desk = Desk::new();
    desk.set_low(4, EDGE | 0x100);
    desk.wire(4, 1);
    assert_eq!(desk.low(4), EDGE | 0x100);
    assert_eq!(desk.deliver(), None);
    desk.set_low(4, EDGE);
    assert_eq!(desk.low(4), EDGE | 0x1000);
    assert_eq!(desk.deliver(), Some((4, 0x30)));
}

#[test]
fn an_end_goes_by_the_present_vector_to_every_level_entry() {
    let mut desk = Desk::new();
    for pin in [1, 6, 8] {
        desk.set_low(pin, LEVEL);
        desk.wire(pin, 1);
    }
    for pin in [1, 6, 8] {
        assert_eq!(desk.deliver(), Some((pin, 0x30)));
    }
    desk.set_low(8, 0x8031);
    desk.end(0x30);
    assert_eq!(desk.deliver(), Some((1, 0x30)));
    assert_eq!(desk.deliver(), Some((6, 0x30)));
    assert_eq!(desk.deliver(), None);
    desk.end(0x31);
    assert_eq!(desk.deliver(), Some((8, 0x31)));
}

#[test]
fn controller_registers() {
    let mut desk = Desk::new();
    desk.write_index(0, 0xFFFF_FFFF);
    assert_eq!(desk.read_index(0), 0x0F00_0000);
    assert_eq!(desk.read_index(2), 0x0F00_0000);
    desk.write_index(2, 0);
    desk.write_index(1, 0);
    assert_eq!(desk.read_index(2), 0x0F00_0000);
    assert_eq!(desk.read_index(1), 0x0017_0011);
    desk.set_high(23, 0xFFFF_FFFF);
    assert_eq!(desk.read_index(0x3F), 0xFF00_0000);
    for index in [3, 0x0F, 0x40, 0xFF] {
        desk.write_index(index, 0xFFFF_FFFF);
        assert_eq!(desk.read_index(index), 0);
    }
    desk.0.write(0, 4, 0, 0xFFFF_FF12).unwrap();
    assert_eq!(desk.0.read(0, 4, 0), Ok(0x12));
}

#[test]
fn timer_registers() {
    let mut desk = Desk::new();
    assert_eq!(desk.get(0), 0x05F5_E100_8086_2201);
    assert_eq!(desk.configuration(2), FIXED);
    assert_eq!(desk.comparator(2), u64::MAX);
    desk.set(0x010, u64::MAX);
    assert_eq!(desk.get(0x010), 1);
    desk.set_counter(9);
    assert_eq!(desk.counter(), 0);
    for offset in [0x008, 0x028, 0x0F8, 0x110, 0x160, 0x3F8] {
        desk.set(offset, u64::MAX);
        assert_eq!(desk.get(offset), 0, "{offset:x}");
    }
    desk.configure(0, u64::MAX);
    assert_eq!(desk.configuration(0), FIXED | 0x14E);
    desk.configure(0, SET | Desk::route(23));
    assert_eq!(desk.configuration(0), FIXED | Desk::route(23));
}

#[test]
fn a_route_above_23_keeps_the_old_route_and_takes_the_rest() {
    let mut desk = with_timer(EDGE, 0, LEVEL_TYPE | INTERRUPT);
    desk.enable();
    desk.advance(3);
    assert_eq!(desk.status(), 1);
    desk.configure(0, PERIODIC | SET | Desk::route(24));
    assert_eq!(desk.configuration(0), FIXED | PERIODIC | SET | Desk::route(4));
    assert_eq!(desk.status(), 0);
}

#[test]
fn bit_6_reads_until_the_next_comparator_write() {
    let mut desk = Desk::new();
    desk.configure(0, PERIODIC | SET);
    assert_eq!(desk.configuration(0), FIXED | PERIODIC | SET);
    desk.set_comparator(0, 8);
    assert_eq!(desk.configuration(0), FIXED | PERIODIC);
    assert_eq!(desk.comparator(0), 8);
    desk.set_comparator(0, 2);
    assert_eq!(desk.comparator(0), 8);
    desk.configure(0, PERIODIC | SET);
    desk.configure(0, SET);
    assert_eq!(desk.configuration(0), FIXED);
}

#[test]
fn a_one_shot_timer_fires_at_every_match() {
    let mut desk = Desk::new();
    desk.configure(0, NARROW);
    desk.set_comparator(0, 3);
    desk.enable();
    assert_eq!(desk.advance(3), [1, 0, 0]);
    assert_eq!(desk.advance(u32::MAX), [0, 0, 0]);
    assert_eq!(desk.advance(1), [1, 0, 0]);
    desk.disable();
    desk.set_counter(2);
    desk.enable();
    assert_eq!(desk.advance(1), [1, 0, 0]);
}

#[test]
fn period_0_fires_at_the_match_and_a_turn_later() {
    let mut desk = Desk::new();
    desk.configure(0, NARROW | PERIODIC | SET);
    desk.set_comparator(0, 4);
    desk.set_comparator(0, 0);
    desk.enable();
    assert_eq!(desk.advance(10), [1, 0, 0]);
    assert_eq!(desk.comparator(0), 4);
    assert_eq!(desk.advance(u32::MAX - 6), [0, 0, 0]);
    assert_eq!(desk.advance(1), [1, 0, 0]);
}

#[test]
fn a_write_that_makes_them_equal_does_not_fire() {
    let mut desk = Desk::new();
    desk.set_counter(5);
    desk.configure(0, LEVEL_TYPE);
    desk.set_comparator(0, 5);
    desk.enable();
    assert_eq!(desk.advance(3), [0, 0, 0]);
    desk.set_comparator(0, 8);
    assert_eq!(desk.status(), 0);
    assert_eq!(desk.advance(3), [0, 0, 0]);
}

#[test]
fn entering_32_bit_mode_reduces_both_numbers() {
    let mut desk = Desk::new();
    desk.configure(0, PERIODIC | SET);
    desk.set_comparator(0, 0x5_0000_0007);
    desk.set_comparator(0, 0x6_0000_0002);
    desk.configure(0, NARROW);
    assert_eq!(desk.comparator(0), 7);
    desk.set_comparator(0, 0x9_0000_0003);
    assert_eq!(desk.comparator(0), 3);
    desk.configure(0, PERIODIC);
    desk.enable();
    assert_eq!(desk.advance(3), [1, 0, 0]);
    assert_eq!(desk.comparator(0), 5);
}

#[test]
fn an_edge_timer_has_no_status() {
    let mut desk = with_timer(EDGE, 0, INTERRUPT);
    desk.enable();
    desk.advance(3);
    assert_eq!(desk.status(), 0);
    assert_eq!(desk.deliver(), Some((4, 0x30)));
}

#[test]
fn full_advance_with_three_timers_of_period_1() {
    let mut desk = Desk::new();
    for timer in 0..3 {
        desk.configure(timer, PERIODIC | SET);
        desk.set_comparator(timer, 1);
    }
    desk.enable();
    assert_eq!(desk.advance(u32::MAX), [u32::MAX; 3]);
    assert_eq!(desk.counter(), 0xFFFF_FFFF);
    assert_eq!(desk.comparator(2), 0x1_0000_0000);
}

#[test]
fn a_disabled_block_stands_still() {
    let mut desk = Desk::new();
    desk.set_comparator(0, 1);
    let before = desk.0;
    assert_eq!(desk.advance(u32::MAX), [0, 0, 0]);
    assert_eq!(desk.0, before);
}

/// Each clause of "well formed" that the model's types leave open, broken alone.
fn ill_formed() -> Vec<Board> {
    let breaks: [fn(&mut Board); 19] = [
        |board| board.controller.id = 16,
        |board| board.controller.index = 256,
        |board| board.controller.pins[3].low = 0x1000,
        |board| board.controller.pins[3].low = 0x0002_0000,
        |board| board.controller.pins[3].low = 0x8000_0000,
        |board| board.controller.pins[3].low = 0x4000,
        |board| board.controller.pins[3].low |= 0x4000,
        |board| {
            board.controller.pins[3] =
                peer::pin::Pin { low: 0x4730, held: true, ..board.controller.pins[3] }
        },
        |board| {
            board.controller.pins[3] =
                peer::pin::Pin { low: 0x8000, held: true, ..board.controller.pins[3] }
        },
        |board| board.controller.pins[3].wire = true,
        |board| board.outside[3] = true,
        |board| board.timers.timer[1].set_comparator = true,
        |board| board.timers.timer[1].narrow = true,
        |board| {
            board.timers.timer[1].comparator = 0;
            board.timers.timer[1].narrow = true;
            board.timers.timer[1].period = 1 << 32;
        },
        |board| board.timers.timer[1].route = 24,
        |board| board.timers.timer[1].status = true,
        |board| {
            let timer = &mut board.timers.timer[1];
            (timer.level_type, timer.interrupt, timer.status) = (true, true, true);
            board.timers.enabled = true;
        },
        |board| board.controller.pins[0].low = u32::MAX,
        |board| board.timers.timer[2].route = u16::MAX,
    ];
    breaks
        .iter()
        .map(|break_it| {
            let mut board = Board::RESET;
            break_it(&mut board);
            board
        })
        .collect()
}

#[test]
fn every_call_but_a_reset_refuses_an_ill_formed_state_first() {
    for board in ill_formed() {
        let mut after = board;
        assert_eq!(after.read(9, 3, 1), Err(Refusal::State));
        assert_eq!(after.write(0, 4, 0, 1 << 32), Err(Refusal::State));
        assert_eq!(after.wire(24, 2), Err(Refusal::State));
        assert_eq!(after.end(0), Err(Refusal::State));
        assert_eq!(after.advance(7), Err(Refusal::State));
        assert_eq!(after.deliver(), Err(Refusal::State));
        assert_eq!(after, board);
        assert_eq!(after.reset(), Ok(()));
        assert_eq!(after, Board::RESET);
    }
}
