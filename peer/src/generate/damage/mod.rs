//! Damaged logs: a short sound log, and what happens to logs on their way.

mod hurts;
mod long;

use super::maker::Maker;
use super::{Pace, Profile, Sort};
use crate::random::Random;
use crate::settings::Settings;

/// What has happened to a log.
#[derive(Clone, Copy, PartialEq, Eq, Debug)]
pub enum Damage {
    /// Nothing.
    Sound,
    /// Bytes are missing: in the middle, at the start, at the end.
    Cut,
    /// Bits and bytes are others: in marks, in kinds, anywhere.
    Flipped,
    /// Further bytes: any, marks, marks with a kind that isn't known, records cut short.
    Inserted,
    /// Pieces of another log, and records inside records.
    Spliced,
    /// There never was a log.
    Noise,
}

impl Sort for Damage {
    const ALL: &'static [Damage] = &[
        Damage::Sound,
        Damage::Cut,
        Damage::Flipped,
        Damage::Inserted,
        Damage::Spliced,
        Damage::Noise,
    ];

    fn name(self) -> &'static str {
        match self {
            Damage::Sound => "sound",
            Damage::Cut => "cut",
            Damage::Flipped => "flipped",
            Damage::Inserted => "inserted",
            Damage::Spliced => "spliced",
            Damage::Noise => "noise",
        }
    }

    fn letter(self) -> char {
        match self {
            Damage::Sound => 's',
            Damage::Cut => 'c',
            Damage::Flipped => 'f',
            Damage::Inserted => 'i',
            Damage::Spliced => 'p',
            Damage::Noise => 'n',
        }
    }
}

/// The damaged log with this number: the seed and the number decide it. The first ones are as long as
/// the program takes them, or longer.
pub fn damaged_log(damage: Damage, seed: u64, number: u64) -> Vec<u8> {
    let mut random = Random::new(seed ^ number.wrapping_mul(0xA24B_AED4_963E_E407));
    let turn = number as usize / Damage::ALL.len();
    if let Some(log) = long::fixed(damage, turn) {
        return log;
    }
    match random.below(200) {
        0..=1 => long::log(damage, &mut random),
        2 => Vec::new(),
        _ => short_log(damage, &mut random),
    }
}

/// A damaged log without a long one among them.
pub fn short_damaged_log(damage: Damage, random: &mut Random) -> Vec<u8> {
    if random.percent(1) {
        return Vec::new();
    }
    short_log(damage, random)
}

fn short_log(damage: Damage, random: &mut Random) -> Vec<u8> {
    if damage == Damage::Noise {
        return hurts::noise(random);
    }
    let mut log = some_records(random);
    let times = if damage == Damage::Sound { 0 } else { 1 + random.below(10) / 3 };
    for _ in 0..times {
        hurts::hurt(&mut log, damage, random);
    }
    log
}

/// A few records of any life, sometimes many.
fn some_records(random: &mut Random) -> Vec<u8> {
    let records = match random.below(20) {
        0..=11 => 1 + random.below(12),
        12..=18 => 10 + random.below(40),
        _ => 50 + random.below(300),
    };
    let profile = random.choose(&Profile::SOUND);
    let mut maker = Maker::new(Pace::Any, &Settings::USUAL, random.any());
    while maker.records < records {
        maker.move_by(profile);
    }
    maker.log
}
