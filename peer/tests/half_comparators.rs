//! Half writes of comparators (K1), worked out by hand from the sentences above each test.
#![allow(missing_docs)]

mod common;
use common::{Desk, FIXED, NARROW, PERIODIC, SET};
use peer::generate::random_board;
use peer::random::Random;

const COUNTER: u64 = 0x0F0;
const CONFIGURATION: u64 = 0x100;
const COMPARATOR: u64 = 0x108;

// "For a comparator, the half is replaced in whatever the whole write would set: comparator, period
// or both."

#[test]
fn a_half_of_a_one_shot_comparator() {
    let start = Desk::with_numbers(0, 0x1111_2222_3333_4444, 0x5555_6666_7777_8888).0;
    for (offset, comparator) in
        [(COMPARATOR, 0x1111_2222_0000_000A), (COMPARATOR + 4, 0x0000_000A_3333_4444)]
    {
        let mut desk = Desk(start);
        desk.set_half(offset, 0xA);
        assert_eq!(desk.numbers(), (comparator, 0x5555_6666_7777_8888, false));
        assert_eq!(desk.comparator(0), comparator);
    }
}

#[test]
fn a_half_of_a_period() {
    let start = Desk::with_numbers(PERIODIC, 0x1111_2222_3333_4444, 0x5555_6666_7777_8888).0;
    for (offset, period) in
        [(COMPARATOR, 0x5555_6666_0000_000A), (COMPARATOR + 4, 0x0000_000A_7777_8888)]
    {
        let mut desk = Desk(start);
        desk.set_half(offset, 0xA);
        assert_eq!(desk.numbers(), (0x1111_2222_3333_4444, period, false));
    }
}

// "Both numbers get the written half; each keeps its own other half; bit 6 is then 0, so the second
// half goes into the period only."

#[test]
fn from_reset_bit_6_low_half_10_high_half_0() {
    let mut desk = Desk::new();
    desk.set_half(CONFIGURATION, PERIODIC | SET);
    desk.set_half(COMPARATOR, 10);
    assert_eq!(desk.configuration(0), FIXED | PERIODIC);
    desk.set_half(COMPARATOR + 4, 0);
    assert_eq!(desk.comparator(0), 0xFFFF_FFFF_0000_000A);
    assert_eq!(desk.numbers(), (0xFFFF_FFFF_0000_000A, 10, false));
    // The period shows once the comparator is met.
    desk.set_counter(0xFFFF_FFFF_0000_0009);
    desk.enable();
    assert_eq!(desk.advance(1), [1, 0, 0]);
    assert_eq!(desk.comparator(0), 0xFFFF_FFFF_0000_0014);
}

#[test]
fn bit_6_in_both_orders() {
    let start = Desk::with_numbers(PERIODIC | SET, 0x1111_2222_3333_4444, 0x5555_6666_7777_8888).0;

    let mut desk = Desk(start);
    desk.set_half(COMPARATOR, 0xA);
    assert_eq!(desk.numbers(), (0x1111_2222_0000_000A, 0x5555_6666_0000_000A, false));
    desk.set_half(COMPARATOR + 4, 0xB);
    assert_eq!(desk.numbers(), (0x1111_2222_0000_000A, 0x0000_000B_0000_000A, false));

    let mut desk = Desk(start);
    desk.set_half(COMPARATOR + 4, 0xB);
    assert_eq!(desk.numbers(), (0x0000_000B_3333_4444, 0x0000_000B_7777_8888, false));
    desk.set_half(COMPARATOR, 0xA);
    assert_eq!(desk.numbers(), (0x0000_000B_3333_4444, 0x0000_000B_0000_000A, false));
}

// "Whichever comes first, the high half too, also in 32-bit mode."

#[test]
fn bit_6_in_both_orders_in_32_bit_mode() {
    let start = Desk::with_numbers(NARROW | PERIODIC | SET, 0x3333_4444, 0x7777_8888).0;

    let mut desk = Desk(start);
    desk.set_half(COMPARATOR, 0xA);
    assert_eq!(desk.numbers(), (0xA, 0xA, false));
    desk.set_half(COMPARATOR + 4, 0xB);
    assert_eq!(desk.numbers(), (0xA, 0xA, false));

    let mut desk = Desk(start);
    desk.set_half(COMPARATOR + 4, 0xB);
    assert_eq!(desk.numbers(), (0x3333_4444, 0x7777_8888, false));
    assert_eq!(desk.configuration(0), FIXED | NARROW | PERIODIC);
    desk.set_half(COMPARATOR, 0xA);
    assert_eq!(desk.numbers(), (0x3333_4444, 0xA, false));
}

#[test]
fn bit_6_and_a_half_beside_a_whole_write() {
    let start = Desk::with_numbers(PERIODIC | SET, 0x1111_2222_3333_4444, 0x5555_6666_7777_8888).0;

    let mut desk = Desk(start);
    desk.set_half(COMPARATOR, 0xA);
    desk.set_comparator(0, 0xC);
    assert_eq!(desk.numbers(), (0x1111_2222_0000_000A, 0xC, false));

    let mut desk = Desk(start);
    desk.set_comparator(0, 0xC);
    desk.set_half(COMPARATOR + 4, 0xB);
    assert_eq!(desk.numbers(), (0xC, 0x0000_000B_0000_000C, false));
}

// "The high half becomes 0 (it is 0 already), the low half is kept."
#[test]
fn a_high_half_in_32_bit_mode_stores_0() {
    for half in [0, 1, 0xFFFF_FFFF] {
        let mut desk = Desk::with_numbers(NARROW, 0x3333_4444, 0x7777_8888);
        desk.set_half(COMPARATOR + 4, half);
        assert_eq!(desk.numbers(), (0x3333_4444, 0x7777_8888, false));
        assert_eq!(desk.get_half(COMPARATOR + 4), 0);

        let mut desk = Desk::with_numbers(NARROW | PERIODIC, 0x3333_4444, 0x7777_8888);
        desk.set_half(COMPARATOR + 4, half);
        assert_eq!(desk.numbers(), (0x3333_4444, 0x7777_8888, false));
    }
}

#[test]
fn a_low_half_in_32_bit_mode_is_a_whole_write() {
    for configuration in [NARROW, NARROW | PERIODIC, NARROW | PERIODIC | SET] {
        let start = Desk::with_numbers(configuration, 0x3333_4444, 0x7777_8888).0;
        let (mut halved, mut whole) = (Desk(start), Desk(start));
        halved.set_half(COMPARATOR, 0xFFFF_FFF0);
        whole.set_comparator(0, 0xFFFF_FFF0);
        assert_eq!(halved.0, whole.0);
    }
}

// What follows from these sentences: two halves, in either order, are the whole write, unless bit 6
// lets only the first of them into the comparator.

#[test]
fn two_half_writes_are_the_whole_write() {
    let mut random = Random::new(24);
    for _ in 0..400 {
        let start = random_board(&mut random);
        let value = random.any();
        for register in (0..0x400).step_by(8) {
            let timer = (0..3).find(|n| register == 0x108 + 0x20 * n);
            if timer.is_some_and(|n| start.timers.timer[n as usize].set_comparator) {
                continue;
            }
            let mut whole = Desk(start);
            whole.set(register, value);
            for order in [[register, register + 4], [register + 4, register]] {
                let mut halved = Desk(start);
                for offset in order {
                    let half = if offset == register { value & 0xFFFF_FFFF } else { value >> 32 };
                    halved.set_half(offset, half);
                }
                assert_eq!(halved.0, whole.0, "{register:x} {value:x} on {start:?}");
            }
        }
    }
}

// "A write that makes counter and comparator equal doesn't fire."
#[test]
fn a_half_write_that_makes_them_equal_does_not_fire() {
    let mut desk = Desk::new();
    desk.set_comparator(0, 0x2_0000_0005);
    desk.set_half(COUNTER, 5);
    desk.set_half(COUNTER + 4, 2);
    desk.enable();
    assert_eq!(desk.advance(0), [0, 0, 0]);
    assert_eq!(desk.advance(9), [0, 0, 0]);
    desk.set_half(COMPARATOR, 0xE);
    assert_eq!(desk.advance(3), [0, 0, 0]);
    desk.set_half(COMPARATOR, 0x13);
    assert_eq!(desk.advance(2), [1, 0, 0]);
}
