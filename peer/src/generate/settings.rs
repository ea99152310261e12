//! Random settings, near the ends of their ranges, and records that a reader refuses for one thing or for several.

use super::choices::any_pin;
use crate::pin::PINS;
use crate::random::Random;
use crate::settings::{Settings, ALL_PINS, LENGTH, LONGEST_PERIOD, MARK};
use crate::timers::TIMERS;

/// Settings in range, often with a single pin in a mask, or without the pins that are used most.
pub fn random_settings(random: &mut Random) -> Settings {
    let mask = random_mask(random);
    let masks = match random.below(10) {
        0 => [mask; TIMERS],
        1 => [mask, ALL_PINS, !mask & ALL_PINS | 1],
        _ => [mask, random_mask(random), random_mask(random)],
    };
    Settings {
        vendor: random_vendor(random),
        period: random_period(random),
        masks,
        id: random.choose(&[0, 1, 8, 15, 15, random.clone().below(16) as u8]),
    }
}

fn random_vendor(random: &mut Random) -> u16 {
    let any = random.any() as u16;
    random.choose(&[0, 1, 0x8086, 0x8680, 0x00FF, 0x8000, 0xFFFF, any, any, any])
}

fn random_period(random: &mut Random) -> u32 {
    let any = 1 + random.below(LONGEST_PERIOD.into()) as u32;
    match random.below(10) {
        0 => 1,
        1 => LONGEST_PERIOD,
        2 => random.choose(&[2, 255, 256, 65_535, 65_536, 69_841_279, LONGEST_PERIOD - 1]),
        3 => 1 << random.below(27),
        _ => any,
    }
}

/// A mask in range.
fn random_mask(random: &mut Random) -> u32 {
    let (pin, other) = (1 << any_pin(random), 1 << any_pin(random));
    let mask = random.any() as u32 & ALL_PINS;
    match random.below(100) {
        0..15 => ALL_PINS,
        15..30 => pin,
        30..40 => random.choose(&[1, 1 << 23]),
        40..50 => pin | other,
        50..65 => ALL_PINS & !pin,
        65..75 => random.choose(&[ALL_PINS - 1, ALL_PINS >> 1, 0xFF_FF00, 0xF0_0000, 0xFFF]),
        75..85 => mask & (random.any() as u32) | pin,
        _ => mask | other,
    }
}

/// The pins of a mask.
pub(super) fn pins_of(mask: u32) -> Vec<u8> {
    (0..PINS as u8).filter(|&pin| mask >> pin & 1 != 0).collect()
}

/// What a record is refused for, in the order of the tests.
#[derive(Clone, Copy, PartialEq, Eq, Debug)]
pub enum Flaw {
    /// 8
    Length,
    /// 6
    Mark,
    /// 9
    Form,
    /// 10
    Range,
}

impl Flaw {
    /// All of them, in that order.
    pub const ALL: [Flaw; 4] = [Flaw::Length, Flaw::Mark, Flaw::Form, Flaw::Range];
}

/// A record with some of the flaws: each is the first one as often, and often alone.
pub fn broken_record(random: &mut Random) -> Vec<u8> {
    let first = random.below(4) as usize;
    let more = if random.percent(50) { random.below(16) } else { 0 };
    let later = |flaw: &Flaw| *flaw as usize > first && more >> *flaw as u64 & 1 != 0;
    let mut flaws = vec![Flaw::ALL[first]];
    flaws.extend(Flaw::ALL.into_iter().filter(later));
    flawed_record(&flaws, random)
}

/// A record with exactly these flaws.
pub fn flawed_record(flaws: &[Flaw], random: &mut Random) -> Vec<u8> {
    let mut settings = random_settings(random);
    if flaws.contains(&Flaw::Range) {
        leave_range(&mut settings, random);
    }
    let mut record = settings.record().to_vec();
    if flaws.contains(&Flaw::Mark) {
        let marks = [[0x5A, 0xC2], [0x5B, 0xC3], [0xC3, 0x5A], [0x7E, 0xB5], [0, 0], [0x5A, 0x5A]];
        let any = random.choose(&marks);
        let mark = random.choose(&[marks[0], marks[1], any]);
        record[..2].copy_from_slice(&mark);
    }
    if flaws.contains(&Flaw::Form) {
        record[2] =
            random.choose(&[0, 2, 2, 3, 0x11, 0x81, 0xFF, 2 + random.clone().below(254) as u8]);
    }
    if flaws.contains(&Flaw::Length) {
        change_length(&mut record, random);
    }
    record
}

/// One of the numbers goes out of its range, mostly by one; sometimes several.
fn leave_range(settings: &mut Settings, random: &mut Random) {
    for _ in 0..1 + random.below(5) / 4 {
        let n = random.below(TIMERS as u64) as usize;
        match random.below(10) {
            0 | 1 => settings.period = 0,
            2 | 3 => {
                let above = LONGEST_PERIOD + 1;
                settings.period = random.choose(&[above, above, 1 << 27, 1 << 31, u32::MAX]);
            }
            4 | 5 => settings.masks[n] = 0,
            6 | 7 => {
                let bit = 1 << (24 + random.below(8));
                let beside = settings.masks[n] | bit;
                settings.masks[n] = random.choose(&[1 << 24, 1 << 24, bit, beside, u32::MAX]);
            }
            _ => settings.id = random.choose(&[16, 16, 17, 31, 32, 128, 255]),
        }
    }
}

/// Shorter or longer: by one, by none of it, or so that fewer bits of the length would be right.
fn change_length(record: &mut Vec<u8>, random: &mut Random) {
    let length = match random.below(10) {
        0 | 1 => LENGTH - 1,
        2 | 3 => LENGTH + 1,
        4 => 0,
        5 => random.below(LENGTH as u64) as usize,
        6 => LENGTH + 2,
        7 => LENGTH + (1 << random.choose(&[8, 8, 8, 16])),
        8 => 2 * LENGTH,
        _ => LENGTH + 1 + random.below(200) as usize,
    };
    let rest = random.choose(&[0, 0xFF, MARK[0]]);
    let again = record.clone();
    record.resize(length, rest);
    if length == 2 * LENGTH {
        record[LENGTH..].copy_from_slice(&again);
    }
}

/// The record that a program is given, so many times in a hundred; once in six of these times a broken one.
pub fn given_record(chance: u64, random: &mut Random) -> Option<Vec<u8>> {
    if !random.percent(chance) {
        None
    } else if random.percent(16) {
        Some(broken_record(random))
    } else {
        Some(random_settings(random).record().to_vec())
    }
}
