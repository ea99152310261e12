//! Lives of a pause key as the program `screen` prints them.
//! Every expected text is worked out from documents 01 and 02.
#![allow(missing_docs)]

mod common;
use common::records::{data, end, low, says, wire, DELIVER};

#[test]
fn the_key_while_another_pin_waits_for_its_end() {
    // Pin 2 is level with vector 50 and lower than the key, pin 5 with vector 53.
    let records = [
        [low(2), data(0x8032), low(5), data(0x35)],
        [wire(2, 1), wire(5, 1), DELIVER, DELIVER],
        [end(50), DELIVER, end(53), DELIVER],
    ];
    says(
        5,
        &records.concat(),
        &[
            "screen running",
            "0 ok",
            "1 ok",
            "2 ok",
            "3 ok",
            "4 ok",
            "5 ok",
            "screen asked",
            "6 pin 2 vector 50 dest 0 logical 0",
            "7 pin 5 vector 53 dest 0 logical 0",
            "screen taken",
            // Pin 2's own end: not the key's vector. Its wire is still up, so it comes again.
            "8 ok",
            "9 pin 2 vector 50 dest 0 logical 0",
            "10 ok",
            "screen paused",
            "11 none",
            "end 12",
        ],
    );
}

#[test]
fn an_entry_that_is_rewritten_before_its_delivery_and_before_its_end() {
    let records = [
        [low(3), data(0x40), wire(3, 1)],
        [data(0x41), DELIVER, data(0x42)],
        [end(0x42), end(0x40), end(0x41)],
    ];
    says(
        3,
        &records.concat(),
        &[
            "screen running",
            "0 ok",
            "1 ok",
            "2 ok",
            "screen asked",
            "3 ok",
            "4 pin 3 vector 65 dest 0 logical 0",
            "screen taken",
            "5 ok",
            // What the entry says now, then what it said at the press, then what was delivered.
            "6 ok",
            "7 ok",
            "8 ok",
            "screen paused",
            "end 9",
        ],
    );
}

#[test]
fn a_key_that_is_masked_and_unmasked() {
    let records = [
        // Masked: the press is ignored, and unmasking makes no edge.
        [low(7), data(0x10050), wire(7, 1), data(0x50), DELIVER, wire(7, 0)],
        // A press, then masked with its edge, then unmasked and delivered.
        [wire(7, 1), data(0x10050), DELIVER, data(0x50), DELIVER, end(0x50)],
    ];
    says(
        7,
        &records.concat(),
        &[
            "screen running",
            "0 ok",
            "1 ok",
            "2 ok",
            "3 ok",
            "4 none",
            "5 ok",
            "6 ok",
            "screen asked",
            "7 ok",
            "8 none",
            "9 ok",
            "10 pin 7 vector 80 dest 0 logical 0",
            "screen taken",
            "11 ok",
            "screen paused",
            "end 12",
        ],
    );
}

#[test]
fn two_presses() {
    let records = [
        [low(0), data(0x20), wire(0, 1), wire(0, 0), wire(0, 1)],
        // Two presses before the delivery are one edge.
        [DELIVER, DELIVER, wire(0, 0), wire(0, 1), DELIVER],
        // A press in taken is delivered and changes nothing; the first end pauses.
        [end(0x20), wire(0, 0), wire(0, 1), DELIVER, end(0x20)],
    ];
    says(
        0,
        &records.concat(),
        &[
            "screen running",
            "0 ok",
            "1 ok",
            "2 ok",
            "screen asked",
            "3 ok",
            "4 ok",
            "5 pin 0 vector 32 dest 0 logical 0",
            "screen taken",
            "6 none",
            "7 ok",
            "8 ok",
            "9 pin 0 vector 32 dest 0 logical 0",
            "10 ok",
            "screen paused",
            "11 ok",
            "12 ok",
            "13 pin 0 vector 32 dest 0 logical 0",
            "14 ok",
            "end 15",
        ],
    );
}

#[test]
fn a_level_write_drops_the_edge_and_a_level_delivery_takes() {
    says(
        4,
        &[low(4), data(0x44), wire(4, 1), data(0x8045), DELIVER, end(0x44), end(0x45)],
        &[
            "screen running",
            "0 ok",
            "1 ok",
            "2 ok",
            "screen asked",
            "3 ok",
            "4 pin 4 vector 69 dest 0 logical 0",
            "screen taken",
            "5 ok",
            "6 ok",
            "screen paused",
            "end 7",
        ],
    );
}
