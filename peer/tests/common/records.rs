//! Logs by short names, and what the program `screen` says to them.

use peer::log::Record;
use peer::screen::screen_from_reset;

pub fn low(pin: u64) -> Record {
    Record::Write { window: 0, width: 4, offset: 0x00, value: 0x10 + 2 * pin }
}

pub fn data(value: u64) -> Record {
    Record::Write { window: 0, width: 4, offset: 0x10, value }
}

pub fn wire(pin: u8, level: u8) -> Record {
    Record::Wire { pin, level }
}

pub fn timers(offset: u16, value: u64) -> Record {
    Record::Write { window: 1, width: 8, offset, value }
}

pub fn end(vector: u8) -> Record {
    Record::End { vector }
}

pub const DELIVER: Record = Record::Deliver;

pub fn log(records: &[Record]) -> Vec<u8> {
    let mut log = Vec::new();
    records.iter().for_each(|record| record.append_to(&mut log));
    log
}

pub fn says(pin: u64, records: &[Record], lines: &[&str]) {
    let expected: String = lines.iter().map(|line| format!("{line}\n")).collect();
    assert_eq!(screen_from_reset(pin, &log(records)), expected);
}
