//! Logs as long as the program takes them, and longer.

use super::{short_log, Damage};
use crate::log::Record;
use crate::random::Random;
use crate::salvage::LONGEST;

/// What chance would make too rarely, whatever the seed.
pub(super) fn fixed(damage: Damage, turn: usize) -> Option<Vec<u8>> {
    let log = match (damage, turn) {
        (Damage::Sound, 0) => Vec::new(),
        (Damage::Sound, 1) => sound(LONGEST),
        (Damage::Sound, 2) => sound(LONGEST + 1),
        (Damage::Cut, 0) => records(Record::Deliver, LONGEST),
        (Damage::Cut, 1) => records(Record::Deliver, LONGEST - 1),
        (Damage::Inserted, 0) => one_in_four(LONGEST),
        (Damage::Inserted, 1) => one_in_four(LONGEST + 1),
        (Damage::Noise, 0) => vec![0; LONGEST],
        (Damage::Noise, 1) => vec![0; LONGEST + 1],
        (Damage::Noise, 2) => vec![0; 2 * LONGEST],
        _ => return None,
    };
    Some(log)
}

/// Short logs, one after the other, up to a length near the limit.
pub(super) fn log(damage: Damage, random: &mut Random) -> Vec<u8> {
    let length = LONGEST - 4 + random.below(7) as usize;
    if damage == Damage::Sound {
        return sound(length);
    }
    let mut log = Vec::new();
    while log.len() < length {
        log.extend(short_log(damage, random));
    }
    log.truncate(length);
    log
}

/// Records of 4 bytes, and at the end a few of 3 so that none is cut: the length is at least 6.
fn sound(length: usize) -> Vec<u8> {
    let threes = (4 - length % 4) % 4;
    let mut log = records(Record::End { vector: 0x21 }, length - 3 * threes);
    log.extend(records(Record::Deliver, 3 * threes));
    log
}

/// So many bytes of a record again and again, the last one cut if need be.
fn records(record: Record, length: usize) -> Vec<u8> {
    let mut one = Vec::new();
    record.append_to(&mut one);
    one.into_iter().cycle().take(length).collect()
}

/// A stray byte before each of the shortest records: no log of that length has more stretches.
fn one_in_four(length: usize) -> Vec<u8> {
    let mut one = vec![0];
    Record::Deliver.append_to(&mut one);
    one.into_iter().cycle().take(length).collect()
}
