//! Salvage, sentence by sentence of K12: the text and the file that the program makes of a damaged log.
//! Every expected text is worked out by hand from documents 01 and 02.
#![allow(missing_docs)]

mod common;
use common::records::{data, end, log, low, wire, DELIVER};
use peer::log::Record;
use peer::salvage::{salvage, Output, LONGEST};

/// What the log of document 01 has: seven records of 15, 15, 5, 3, 3, 7 and 7 bytes.
fn worked_example() -> Vec<u8> {
    let read = Record::Read { window: 0, width: 4, offset: 4 };
    let records = [low(0), data(0x20), wire(0, 1), DELIVER, DELIVER, read];
    log(&[&records[..], &[Record::Advance { ticks: 7 }]].concat())
}

/// The text is the heading, these lines, and the count; the file is the log without what was skipped.
#[track_caller]
fn keeps(log: &[u8], skipped: &[(usize, usize)], records: usize) {
    let mut text = "kept records may include damage\n".to_string();
    let mut file = log.to_vec();
    for (offset, length) in skipped {
        text += &format!("skipped {length} at {offset}\n");
    }
    for (offset, length) in skipped.iter().rev() {
        file.drain(offset..&(offset + length));
    }
    text += &format!("kept {records}\n");
    assert_eq!(salvage(log), Output { text, made: Some(file) }, "{log:02X?}");
}

// "Where a whole record with a good mark, known kind and full body stands, keep it and go on after it"

#[test]
fn every_kind_is_kept() {
    let records: &[&[u8]] = &[
        &[0x7E, 0xB5, 1, 0, 4, 0x10, 0],
        &[0x7E, 0xB5, 2, 1, 8, 0xF0, 0, 1, 2, 3, 4, 5, 6, 7, 8],
        &[0x7E, 0xB5, 3, 23, 1],
        &[0x7E, 0xB5, 4, 0x21],
        &[0x7E, 0xB5, 5, 1, 2, 3, 4],
        &[0x7E, 0xB5, 6],
    ];
    for record in records {
        keeps(record, &[], 1);
        // One byte less is no whole record, one byte more is a stretch behind it.
        keeps(&record[..record.len() - 1], &[(0, record.len() - 1)], 0);
        keeps(&[record, &[0][..]].concat(), &[(record.len(), 1)], 1);
    }
    keeps(&records.concat(), &[], 6);
}

#[test]
fn kind_4_counts_as_known() {
    keeps(&log(&[end(0), end(0x7E), end(0xFF)]), &[], 3);
}

#[test]
fn other_kinds_are_not_known() {
    for kind in [0, 7, 8, 0x7E, 0x81, 0xB5, 0xFF] {
        keeps(&[0x7E, 0xB5, kind], &[(0, 3)], 0);
        // Not even where bytes for a body would stand.
        keeps(&[0x7E, 0xB5, kind, 1, 2, 3, 4], &[(0, 7)], 0);
    }
}

#[test]
fn both_bytes_of_a_mark_are_needed() {
    for mark in [[0x7E, 0xB4], [0x7E, 0x7E], [0x7F, 0xB5], [0xB5, 0xB5], [0xB5, 0x7E], [0, 0]] {
        keeps(&[mark[0], mark[1], 6], &[(0, 3)], 0);
    }
}

#[test]
fn what_the_call_would_answer_does_not_matter() {
    // Refused by a replay: the window, the width, the pin, the level, the value.
    let refused = [
        Record::Read { window: 2, width: 4, offset: 0 },
        Record::Read { window: 0, width: 3, offset: 0x10 },
        wire(24, 1),
        wire(255, 0),
        wire(0, 2),
        data(0x1_0000_0000),
    ];
    keeps(&log(&refused), &[], 6);
}

// "otherwise skip one byte"

#[test]
fn a_record_may_start_at_any_byte() {
    for stray in 1..20 {
        keeps(&[&vec![0; stray][..], &[0x7E, 0xB5, 6]].concat(), &[(0, stray)], 1);
    }
    // The first byte of a mark twice; a mark twice; a mark with a kind that isn't known.
    keeps(&[0x7E, 0x7E, 0xB5, 6], &[(0, 1)], 1);
    keeps(&[0x7E, 0xB5, 0x7E, 0xB5, 6], &[(0, 2)], 1);
    keeps(&[0x7E, 0xB5, 0, 0x7E, 0xB5, 6], &[(0, 3)], 1);
    keeps(&[0x7E, 0xB5, 7, 0x7E, 0xB5, 6], &[(0, 3)], 1);
}

#[test]
fn a_bad_mark_does_not_skip_the_record_that_its_kind_says() {
    // A write with a wrong mark, and a delivery step where its body would be.
    keeps(&[0x7E, 0xB4, 2, 0x7E, 0xB5, 6, 0, 0, 0, 0, 0, 0, 0, 0, 0], &[(0, 3), (6, 9)], 1);
    keeps(&[0x7F, 0xB5, 2, 0, 0x7E, 0xB5, 4, 9], &[(0, 4)], 1);
}

#[test]
fn a_body_that_is_cut_by_the_end_hides_nothing() {
    keeps(&[0x7E, 0xB5, 2, 0, 0x7E, 0xB5, 6], &[(0, 4)], 1);
    keeps(&[0x7E, 0xB5, 5, 0x7E, 0xB5, 6], &[(0, 3)], 1);
    keeps(&[0x7E, 0xB5, 5, 1, 2, 3], &[(0, 6)], 0);
}

// From the left: a kept record hides what starts in it.

#[test]
fn a_record_in_a_kept_record_s_body_is_its_body() {
    // A write whose value has the bytes of a delivery step.
    keeps(&[0x7E, 0xB5, 2, 0, 4, 0x10, 0, 0x7E, 0xB5, 6, 0, 0, 0, 0, 0], &[], 1);
    // A wire change whose pin and level are a mark; an end whose vector is the first byte of one.
    keeps(&[0x7E, 0xB5, 3, 0x7E, 0xB5, 6], &[(5, 1)], 1);
    keeps(&[0x7E, 0xB5, 4, 0x7E, 0xB5, 6], &[(4, 2)], 1);
    keeps(&[0x7E, 0xB5, 4, 0x7E, 0xB5, 6, 0x7E, 0xB5, 6], &[(4, 2)], 2);
}

// "lists every skipped stretch, as long as it runs, by offset and length"

#[test]
fn the_lines_of_several_stretches() {
    // Records of 15, 15 and 7 bytes, 5 stray bytes at 37; 15 and 3 bytes, 1 stray byte at 60; seven more.
    let read = Record::Read { window: 0, width: 4, offset: 0 };
    let damaged = [
        &log(&[low(1), data(0x21), read])[..],
        &[1, 2, 3, 4, 5],
        &log(&[low(2), DELIVER]),
        &[0xB5],
        &log(&[DELIVER; 7]),
    ]
    .concat();
    let text =
        "kept records may include damage\nskipped 5 at 37\nskipped 1 at 60\nkept 12\n".to_string();
    assert_eq!(salvage(&damaged).text, text);
    keeps(&damaged, &[(37, 5), (60, 1)], 12);
}

#[test]
fn a_stretch_runs_over_marks_and_halves_of_marks() {
    keeps(&[0x7E, 0xB5, 0x7E, 0xB5, 7, 0x7E, 0x7E, 0xB5], &[(0, 8)], 0);
    let stretch = [0x7E, 0xB5, 0, 0xB5, 0x7E, 0, 0x7E, 0xB5, 9];
    let damaged = [&log(&[DELIVER])[..], &stretch, &log(&[DELIVER])].concat();
    keeps(&damaged, &[(3, 9)], 2);
    keeps(&[0x33; 1_000], &[(0, 1_000)], 0);
}

#[test]
fn damage_at_both_ends() {
    keeps(&[0xB5, 6, 0x7E, 0xB5, 6, 0x7E, 0xB5, 5, 1, 2, 3], &[(0, 2), (5, 6)], 1);
}

#[test]
fn offsets_are_those_of_the_damaged_log() {
    keeps(&[0, 0x7E, 0xB5, 6, 0, 0, 0x7E, 0xB5, 6, 0], &[(0, 1), (4, 2), (9, 1)], 2);
}

// "Service techs send logs with a torn middle."

#[test]
fn a_torn_middle() {
    // Bytes 16 to 32 are missing: of the second write one byte is left, of the wire change two.
    let mut torn = worked_example();
    torn.drain(16..33);
    keeps(&torn, &[(15, 3)], 5);
}

#[test]
fn a_flipped_mark() {
    let mut flipped = worked_example();
    flipped[31] ^= 1;
    keeps(&flipped, &[(30, 5)], 6);
    let mut flipped = worked_example();
    flipped[15] ^= 0x80;
    keeps(&flipped, &[(15, 15)], 6);
}

// "It may keep bytes inside damage that happen to look like a record"

#[test]
fn a_torn_record_takes_the_bytes_behind_the_tear() {
    // Bytes 20 to 32 are missing. The second write's five bytes at 15 and ten bytes behind the tear look like a
    // whole write; of the read they leave five bytes.
    let mut torn = worked_example();
    torn.drain(20..33);
    keeps(&torn, &[(30, 5)], 3);
}

#[test]
fn a_record_found_inside_damage() {
    // A write with a wrong mark, whose value has the bytes of a delivery step.
    keeps(&[0x7E, 0xB4, 2, 0, 4, 0x10, 0, 0x7E, 0xB5, 6, 0, 0, 0, 0, 0], &[(0, 7), (10, 5)], 1);
}

// "A sound log comes out unchanged with an empty list."

#[test]
fn sound_logs() {
    keeps(&worked_example(), &[], 7);
    keeps(&[], &[], 0);
    assert_eq!(salvage(&[]).text, "kept records may include damage\nkept 0\n");
    assert_eq!(salvage(&[]).made, Some(Vec::new()), "an empty file is made");
}

#[test]
fn nothing_but_damage() {
    keeps(&[0, 0x7E, 0xB5, 7, 0x7E], &[(0, 5)], 0);
    assert_eq!(salvage(&[1]).text, "kept records may include damage\nskipped 1 at 0\nkept 0\n");
}

// The program takes at most 262,144 bytes.

#[test]
fn the_longest_logs() {
    assert_eq!(LONGEST, 262_144);
    // 65,536 records of four bytes; 65,536 times a stray byte and a record of three.
    keeps(&[0x7E, 0xB5, 4, 0].repeat(65_536), &[], 65_536);
    let skipped: Vec<(usize, usize)> = (0..65_536).map(|number| (4 * number, 1)).collect();
    keeps(&[0, 0x7E, 0xB5, 6].repeat(65_536), &skipped, 65_536);
    keeps(&vec![0; 262_144], &[(0, 262_144)], 0);
}

#[test]
fn too_long() {
    let long = vec![0; 262_145];
    for longer in [long.clone(), long.repeat(3), [0x7E, 0xB5, 4, 0].repeat(70_000)] {
        assert_eq!(salvage(&longer), Output { text: "too long\n".to_string(), made: None });
    }
}
