//! The salvage's lent entry: its answer and every element of both buffers.
//! Every expected answer is worked out by hand from documents 01 and 02.
#![allow(missing_docs)]

use peer::abi::salvage::{salvage, Salvaged};

/// Two records of 3 and 4 bytes, and stretches of 2, 1 and 1 bytes at 0, 5 and 10.
const LOG: [u8; 11] = [0x7E, 0x7E, 0x7E, 0xB5, 6, 0xB5, 0x7E, 0xB5, 4, 0x21, 0x7E];
const RECORDS: [u8; 7] = [0x7E, 0xB5, 6, 0x7E, 0xB5, 4, 0x21];
const LIST: [u64; 6] = [0, 2, 5, 1, 10, 1];
const DONE: Salvaged = Salvaged { number: 0, records: 2, bytes: 7, stretches: 3 };
const NO_ROOM: Salvaged = Salvaged { number: 12, records: 0, bytes: 0, stretches: 0 };

/// The answer with buffers of these lengths, which have 0xEE in them, and what is in them after it.
fn with_room(log: &[u8], bytes: usize, numbers: usize) -> (Salvaged, Vec<u8>, Vec<u64>) {
    let (mut kept, mut list) = (vec![0xEE; bytes], vec![0xEE; numbers]);
    let answer = salvage(log, &mut kept, &mut list);
    (answer, kept, list)
}

// "It copies the kept records ... The list goes to a lent buffer of numbers, two for each stretch."

#[test]
fn buffers_that_fit_exactly() {
    assert_eq!(with_room(&LOG, 7, 6), (DONE, RECORDS.to_vec(), LIST.to_vec()));
}

// 01: "writes its answer from the start and keeps the rest"

#[test]
fn longer_buffers_keep_their_rest() {
    let kept = [&RECORDS[..], &[0xEE, 0xEE]].concat();
    let list = [&LIST[..], &[0xEE]].concat();
    assert_eq!(with_room(&LOG, 9, 7), (DONE, kept, list));
}

// "12 exactly when records or list don't fit; both buffers are then as they came"

#[test]
fn no_room_for_the_records() {
    for bytes in 0..7 {
        assert_eq!(with_room(&LOG, bytes, 6), (NO_ROOM, vec![0xEE; bytes], vec![0xEE; 6]));
        assert_eq!(with_room(&LOG, bytes, 60), (NO_ROOM, vec![0xEE; bytes], vec![0xEE; 60]));
    }
}

#[test]
fn no_room_for_the_list() {
    for numbers in 0..6 {
        assert_eq!(with_room(&LOG, 7, numbers), (NO_ROOM, vec![0xEE; 7], vec![0xEE; numbers]));
        assert_eq!(with_room(&LOG, 70, numbers), (NO_ROOM, vec![0xEE; 70], vec![0xEE; numbers]));
    }
}

#[test]
fn no_room_for_either() {
    assert_eq!(with_room(&LOG, 6, 5), (NO_ROOM, vec![0xEE; 6], vec![0xEE; 5]));
    assert_eq!(with_room(&LOG, 0, 0), (NO_ROOM, vec![], vec![]));
}

#[test]
fn what_needs_no_room_fits_into_none() {
    let nothing = Salvaged { number: 0, records: 0, bytes: 0, stretches: 0 };
    assert_eq!(with_room(&[], 0, 0), (nothing, vec![], vec![]));
    let kept = Salvaged { number: 0, records: 1, bytes: 3, stretches: 0 };
    assert_eq!(with_room(&[0x7E, 0xB5, 6], 3, 0), (kept, vec![0x7E, 0xB5, 6], vec![]));
    let skipped = Salvaged { number: 0, records: 0, bytes: 0, stretches: 1 };
    assert_eq!(with_room(&[0x7E, 0xB5, 7], 0, 2), (skipped, vec![], vec![0, 3]));
}

// The room is what is really needed: less than the log's length, and less than it could need.

#[test]
fn a_log_with_much_damage_needs_little_room() {
    let log = [&[0x55; 10_000][..], &[0x7E, 0xB5, 6]].concat();
    let answer = Salvaged { number: 0, records: 1, bytes: 3, stretches: 1 };
    assert_eq!(with_room(&log, 3, 2), (answer, vec![0x7E, 0xB5, 6], vec![0, 10_000]));
}

// Reading 51: "the converter and the salvage tool have none" (no limit).

#[test]
fn logs_of_any_length() {
    let log = [&[0x7E, 0xB5, 4, 0].repeat(80_000)[..], &[9]].concat();
    let answer = Salvaged { number: 0, records: 80_000, bytes: 320_000, stretches: 1 };
    assert_eq!(with_room(&log, 320_000, 2), (answer, log[..320_000].to_vec(), vec![320_000, 1]));
    assert_eq!(with_room(&log, 319_999, 2).0, NO_ROOM);
}
