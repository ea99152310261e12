//! The program `screen`, byte for byte.
//! Every expected text is worked out from documents 01 and 02.
#![allow(missing_docs)]

mod common;
use common::records::{data, end, log, low, says, timers, wire, DELIVER};
use peer::log::{Record, LONGEST};
use peer::screen::{pin_of, screen_from_reset};

#[test]
fn a_pause_from_the_press_to_the_end() {
    says(
        1,
        &[low(1), data(0x21), wire(1, 1), DELIVER, end(0x21)],
        &[
            "screen running",
            "0 ok",
            "1 ok",
            "2 ok",
            "screen asked",
            "3 pin 1 vector 33 dest 0 logical 0",
            "screen taken",
            "4 ok",
            "screen paused",
            "end 5",
        ],
    );
}

#[test]
fn the_same_log_beside_another_pin_stays_running() {
    says(
        2,
        &[low(1), data(0x21), wire(1, 1), DELIVER, end(0x21)],
        &[
            "screen running",
            "0 ok",
            "1 ok",
            "2 ok",
            "3 pin 1 vector 33 dest 0 logical 0",
            "4 ok",
            "end 5",
        ],
    );
}

#[test]
fn a_pulse_asks_after_the_advance() {
    // Timer 0: interrupt on (bit 2), route 4 in bits 13:9, comparator 1, the block enabled.
    let set_up =
        [low(4), data(0x44), timers(0x100, 4 << 9 | 4), timers(0x108, 1), timers(0x010, 1)];
    let records = [&set_up[..], &[Record::Advance { ticks: 3 }, DELIVER]].concat();
    says(
        4,
        &records,
        &[
            "screen running",
            "0 ok",
            "1 ok",
            "2 ok",
            "3 ok",
            "4 ok",
            "5 fired 1 0 0",
            "screen asked",
            "6 pin 4 vector 68 dest 0 logical 0",
            "screen taken",
            "end 7",
        ],
    );
}

#[test]
fn refused_records_are_printed_and_leave_the_word() {
    says(
        1,
        &[wire(24, 1), low(1), data(0x21), wire(1, 1), wire(1, 2), DELIVER],
        &[
            "screen running",
            "0 refused 3",
            "1 ok",
            "2 ok",
            "3 ok",
            "screen asked",
            "4 refused 4",
            "5 pin 1 vector 33 dest 0 logical 0",
            "screen taken",
            "end 6",
        ],
    );
}

#[test]
fn a_log_that_stops_ends_with_its_stop() {
    // Two writes of 15 bytes and a wire change of 5 stand before the stray byte.
    let mut stopped = log(&[low(1), data(0x21), wire(1, 1)]);
    stopped.push(0x7E);
    let expected = "screen running\n0 ok\n1 ok\n2 ok\nscreen asked\nstopped 8 at 35\n";
    assert_eq!(screen_from_reset(1, &stopped), expected);
    assert_eq!(screen_from_reset(1, &[0x7E, 0xB4, 6]), "screen running\nstopped 6 at 0\n");
    assert_eq!(screen_from_reset(0, &[]), "screen running\nend 0\n");
}

#[test]
fn what_is_printed_alone_and_in_which_order() {
    let long = vec![0; LONGEST + 1];
    assert_eq!(screen_from_reset(23, &long), "too long\n");
    assert_eq!(screen_from_reset(24, &long), "refused 3\n", "the pin goes before the length");
    assert_eq!(screen_from_reset(24, &[]), "refused 3\n");
    assert_eq!(screen_from_reset(u64::MAX, &[0x7E]), "refused 3\n");
    let longest = screen_from_reset(23, &long[..LONGEST]);
    assert_eq!(longest, "screen running\nstopped 6 at 0\n");
}

#[test]
fn a_pin_is_decimal_digits_however_many() {
    assert_eq!(pin_of("0"), Some(0));
    assert_eq!(pin_of("00000000000000000000000000000000000000000000000023"), Some(23));
    for above in ["24", "100", "18446744073709551616", "18446744073709551621", &"9".repeat(5_000)] {
        assert!(pin_of(above).is_some_and(|pin| pin > 23), "{above}");
    }
    for no_number in ["", "-1", "+1", "1.0", "0x1", " 1", "1 ", "five", "٣"] {
        assert_eq!(pin_of(no_number), None, "{no_number:?}");
    }
}
