//! Replays, byte for byte: the paper's worked example and the ends that a log can have.
#![allow(missing_docs)]

use peer::log::{replay_from_reset, LONGEST};

const DELIVER: [u8; 3] = [0x7E, 0xB5, 6];

#[test]
fn worked_example() {
    let log: Vec<u8> = [
        &[0x7E, 0xB5, 2, 0, 4, 0, 0, 0x10, 0, 0, 0, 0, 0, 0, 0][..],
        &[0x7E, 0xB5, 2, 0, 4, 0x10, 0, 0x20, 0, 0, 0, 0, 0, 0, 0],
        &[0x7E, 0xB5, 3, 0, 1],
        &DELIVER,
        &DELIVER,
        &[0x7E, 0xB5, 1, 0, 4, 4, 0],
        &[0x7E, 0xB5, 5, 7, 0, 0, 0],
    ]
    .concat();
    let expected = "0 ok\n1 ok\n2 ok\n3 pin 0 vector 32 dest 0 logical 0\n4 none\n5 refused 1\n\
                    6 fired 0 0 0\nend 7\n";
    assert_eq!(replay_from_reset(&log), expected);
}

#[test]
fn a_done_read_prints_sixteen_digits() {
    let log = [0x7E, 0xB5, 1, 1, 8, 0, 0];
    assert_eq!(replay_from_reset(&log), "0 read 0x05f5e10080862201\nend 1\n");
}

#[test]
fn logical_destination_and_all_numbers_are_decimal() {
    let log: Vec<u8> = [
        &[0x7E, 0xB5, 2, 0, 4, 0, 0, 0x3F, 0, 0, 0, 0, 0, 0, 0][..],
        &[0x7E, 0xB5, 2, 0, 4, 0x10, 0, 0, 0, 0, 0xFE, 0, 0, 0, 0],
        &[0x7E, 0xB5, 2, 0, 4, 0, 0, 0x3E, 0, 0, 0, 0, 0, 0, 0],
        &[0x7E, 0xB5, 2, 0, 4, 0x10, 0, 0xFF, 0x08, 0, 0, 0, 0, 0, 0],
        &[0x7E, 0xB5, 3, 23, 1],
        &DELIVER,
    ]
    .concat();
    let expected = "0 ok\n1 ok\n2 ok\n3 ok\n4 ok\n5 pin 23 vector 255 dest 254 logical 1\nend 6\n";
    assert_eq!(replay_from_reset(&log), expected);
}

#[test]
fn empty_log() {
    assert_eq!(replay_from_reset(&[]), "end 0\n");
}

#[test]
fn too_long_is_tested_before_anything_else() {
    let mut log = DELIVER.repeat(LONGEST / 3);
    log.push(0x7E);
    assert_eq!(log.len(), LONGEST);
    assert!(replay_from_reset(&log).ends_with("stopped 8 at 65535\n"));
    log.push(0);
    assert_eq!(replay_from_reset(&log), "too long\n");
}

#[test]
fn the_ways_a_log_stops() {
    let cases: &[(&[u8], &str)] = &[
        (&[0x00], "stopped 8 at 0\n"),
        (&[0x7E, 0xB5], "stopped 8 at 0\n"),
        (&[0x7E, 0xB4, 6], "stopped 6 at 0\n"),
        (&[0x7F, 0xB5, 6], "stopped 6 at 0\n"),
        (&[0x7E, 0xB5, 7], "stopped 7 at 0\n"),
        (&[0x7E, 0xB5, 0], "stopped 7 at 0\n"),
        (&[0x7E, 0xB5, 5], "stopped 8 at 0\n"),
        (&[0x7E, 0xB5, 5, 1, 2, 3], "stopped 8 at 0\n"),
        (&[0x7E, 0xB5, 6, 0x7E], "0 none\nstopped 8 at 3\n"),
        (&[0x7E, 0xB5, 6, 0x7E, 0xB5, 6, 6, 6, 6], "0 none\n1 none\nstopped 6 at 6\n"),
    ];
    for (log, expected) in cases {
        assert_eq!(replay_from_reset(log), *expected, "{log:02X?}");
    }
}

#[test]
fn refusals_are_printed_and_the_log_goes_on() {
    let log: Vec<u8> = [
        &[0x7E, 0xB5, 3, 24, 2][..],
        &[0x7E, 0xB5, 3, 23, 2],
        &[0x7E, 0xB5, 1, 2, 3, 0, 0],
        &[0x7E, 0xB5, 1, 1, 8, 1, 4],
        &[0x7E, 0xB5, 1, 1, 8, 0, 4],
        &[0x7E, 0xB5, 2, 0, 4, 4, 0, 0, 0, 0, 0, 1, 0, 0, 0],
        &[0x7E, 0xB5, 2, 0, 4, 0, 0, 0, 0, 0, 0, 1, 0, 0, 0],
    ]
    .concat();
    let expected = "0 refused 3\n1 refused 4\n2 refused 1\n3 refused 2\n4 refused 1\n\
                    5 refused 1\n6 refused 4\nend 7\n";
    assert_eq!(replay_from_reset(&log), expected);
}
