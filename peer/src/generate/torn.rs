//! Torn logs: cut, damaged, overlong or never a log at all.

use super::short::shorten;
use super::{sound_log, Log, Pace, Profile};
use crate::log::{Reader, Record, LONGEST, MARK};
use crate::random::Random;
use crate::settings::Settings;

/// The first logs are those that chance would make too rarely, whatever the seed: one of each length
/// if the profiles come in turn.
const FIXED: [usize; 5] = [0, LONGEST, LONGEST + 1, LONGEST + 1, LONGEST - 1];

pub(super) fn log(settings: &Settings, pace: Pace, random: &mut Random, number: u64) -> Log {
    let mut log = any_log(settings, pace, random, number);
    if pace == Pace::Short {
        shorten(&mut log.bytes);
    }
    log
}

fn any_log(settings: &Settings, pace: Pace, random: &mut Random, number: u64) -> Log {
    let turn = number as usize / Profile::ALL.len();
    if let Some(&length) = FIXED.get(turn) {
        return no_key(deliveries(length));
    }
    match random.below(100) {
        0 => no_key(Vec::new()),
        1..5 => no_key(deliveries(LONGEST - 3 + random.below(7) as usize)),
        5..9 => no_key(random_bytes(random)),
        _ => {
            let profile = random.choose(&Profile::SOUND);
            let mut log = sound_log(settings, profile, pace, random);
            for _ in 0..1 + random.below(10) / 8 {
                damage(&mut log.bytes, random);
            }
            log
        }
    }
}

/// Nothing happens in it, at any pin.
fn no_key(bytes: Vec<u8>) -> Log {
    Log { bytes, key: 0 }
}

/// So many bytes of delivery steps, the last one cut if need be.
fn deliveries(length: usize) -> Vec<u8> {
    let mut log = Vec::new();
    while log.len() < length {
        Record::Deliver.append_to(&mut log);
    }
    log.truncate(length);
    log
}

fn random_bytes(random: &mut Random) -> Vec<u8> {
    let mut log: Vec<u8> = (0..random.below(12)).map(|_| random.any() as u8).collect();
    if random.percent(60) {
        log.splice(0..0, MARK);
    }
    log
}

fn damage(log: &mut Vec<u8>, random: &mut Random) {
    let starts = record_starts(log);
    let record = random.choose(&starts);
    let place = random.below(log.len() as u64 + 1) as usize;
    match random.below(8) {
        0 => log.truncate(place),
        1 => log.truncate(record + 1 + random.below(2) as usize),
        2 => {
            if let Some(byte) = log.get_mut(place) {
                *byte ^= 1 << random.below(8);
            }
        }
        3 => replace(log, record + random.below(2) as usize, random.any() as u8),
        4 => {
            let kind = random.choose(&[0, 7, 8, 9, 0x40, 0x86, 0xFF]);
            replace(log, record + 2, kind);
        }
        5 => {
            log.truncate(record);
            log.extend(MARK);
            log.push(random.choose(&[0, 7, 0x7E, 1, 5]));
        }
        6 => {
            let stray =
                random.choose(&[&[0x7E][..], &[0x7E, 0xB5], &[0x00], &[0xB5, 0x7E], &[0, 6]]);
            log.extend(stray);
        }
        _ => {
            log.insert(place, random.any() as u8);
        }
    }
}

fn replace(log: &mut [u8], place: usize, byte: u8) {
    if let Some(old) = log.get_mut(place) {
        *old = byte;
    }
}

/// Where records start, the log's end included.
fn record_starts(log: &[u8]) -> Vec<usize> {
    let mut reader = Reader::new(log);
    let mut starts = vec![0];
    while let Some(Ok(_)) = reader.take() {
        starts.push(reader.place());
    }
    starts
}
