//! What the program `settings_file` is given: records to show, and numbers to make one of. The first ones are those
//! at the limits, whatever the seed.

use super::settings::{broken_record, flawed_record, random_settings, Flaw};
use super::Sort;
use crate::random::Random;
use crate::settings::{Settings, ALL_PINS, LENGTH, LONGEST_PERIOD};
use crate::settings_file::NUMBERS;

/// What a run of the program is about.
#[derive(Clone, Copy, PartialEq, Eq, Debug)]
pub enum Given {
    /// A record that is shown, good or nearly so.
    Records,
    /// A record that is refused for one thing or for several.
    Broken,
    /// Numbers that a record is made of.
    Numbers,
}

impl Sort for Given {
    const ALL: &'static [Given] = &[Given::Records, Given::Broken, Given::Numbers];

    fn name(self) -> &'static str {
        match self {
            Given::Records => "records",
            Given::Broken => "broken",
            Given::Numbers => "numbers",
        }
    }

    fn letter(self) -> char {
        match self {
            Given::Records => 'r',
            Given::Broken => 'b',
            Given::Numbers => 'n',
        }
    }
}

fn random_for(seed: u64, number: u64) -> (Random, usize) {
    let random = Random::new(seed ^ number.wrapping_mul(0x9FB2_1C65_1E98_DF25));
    (random, number as usize / Given::ALL.len())
}

const LAST: u32 = 1 << 23;

/// Settings at the ends of their ranges.
const LIMITS: [Settings; 8] = [
    Settings::USUAL,
    Settings { period: 1, id: 15, ..Settings::USUAL },
    Settings { vendor: 0, period: 1, masks: [1; 3], id: 0 },
    Settings { vendor: 0xFFFF, period: LONGEST_PERIOD, masks: [LAST; 3], id: 15 },
    Settings {
        vendor: 0x0102,
        period: 0x0304_0506,
        masks: [0x07_0809, 0x0A_0B0C, 0x0D_0E0F],
        id: 1,
    },
    Settings { masks: [1, LAST, ALL_PINS], ..Settings::USUAL },
    Settings { masks: [LAST | 1, ALL_PINS - 1, ALL_PINS >> 1], ..Settings::USUAL },
    Settings { vendor: 0x8680, period: LONGEST_PERIOD - 1, masks: [2, 4, 8], id: 14 },
];

/// The record with this number that is good, or one bit off.
pub fn shown_record(seed: u64, number: u64) -> Vec<u8> {
    let (mut random, turn) = random_for(seed, number);
    if let Some(settings) = LIMITS.get(turn) {
        return settings.record().to_vec();
    }
    let mut record = random_settings(&mut random).record().to_vec();
    if random.percent(25) {
        record[random.below(LENGTH as u64) as usize] ^= 1 << random.below(8);
    }
    record
}

/// The record with this number that is refused.
pub fn refused_record(seed: u64, number: u64) -> Vec<u8> {
    let (mut random, turn) = random_for(seed, number);
    // Every choice of flaws; then each number one past each of its limits; then lengths, marks and forms.
    if turn < 15 {
        let has = |flaw: &Flaw| (turn + 1) >> *flaw as usize & 1 != 0;
        let flaws: Vec<Flaw> = Flaw::ALL.into_iter().filter(has).collect();
        return flawed_record(&flaws, &mut random);
    }
    let past = past_a_limit();
    if let Some(settings) = past.get(turn - 15) {
        return settings.record().to_vec();
    }
    let good = random_settings(&mut random).record();
    let at = |place: usize, bytes: &[u8]| {
        let mut record = good.to_vec();
        record[place..place + bytes.len()].copy_from_slice(bytes);
        record
    };
    match turn - 15 - past.len() {
        cut @ 0..4 => good[..[0, 1, 3, 21][cut]].to_vec(),
        longer @ 4..9 => {
            let mut record = good.to_vec();
            record.resize(LENGTH + [1, 2, LENGTH, 256, 65_536][longer - 4], 0);
            record
        }
        mark @ 9..13 => at(0, &[[0x5A, 0xC2], [0x5B, 0xC3], [0xC3, 0x5A], [0x7E, 0xB5]][mark - 9]),
        form @ 13..17 => at(2, &[[0, 2, 3, 255][form - 13]]),
        _ => broken_record(&mut random),
    }
}

fn past_a_limit() -> Vec<Settings> {
    let good = LIMITS[4];
    let mut past = vec![
        Settings { period: 0, ..good },
        Settings { period: LONGEST_PERIOD + 1, ..good },
        Settings { id: 16, ..good },
    ];
    for n in 0..good.masks.len() {
        for mask in [0, 1 << 24, good.masks[n] | 1 << 24] {
            let mut settings = good;
            settings.masks[n] = mask;
            past.push(settings);
        }
    }
    past
}

/// The numbers in their order with the greatest of each, and the bits of their fields.
const FIELDS: [(u128, u128, u32); NUMBERS] = [
    (0, 0xFFFF, 16),
    (1, LONGEST_PERIOD as u128, 32),
    (1, ALL_PINS as u128, 32),
    (1, ALL_PINS as u128, 32),
    (1, ALL_PINS as u128, 32),
    (0, 15, 8),
];

/// So many turns have each number at and one past each of its limits, and too large for its field.
const AT_LIMITS: usize = 5 * NUMBERS;

/// The words of a `make` with this number.
pub fn made_of(seed: u64, number: u64) -> [String; NUMBERS] {
    let (mut random, turn) = random_for(seed, number);
    let good = random_settings(&mut random);
    let [first, second, third] = good.masks.map(u128::from);
    let mut numbers =
        [good.vendor.into(), good.period.into(), first, second, third, u128::from(good.id)];
    if turn < AT_LIMITS {
        let place = turn / 5;
        let (least, most, bits) = FIELDS[place];
        let beside = numbers[place] | 1 << bits;
        numbers[place] = [least, most, least.wrapping_sub(1), most + 1, beside][turn % 5];
        if numbers[place] == u128::MAX {
            numbers[place] = 1 << bits;
        }
    } else if random.percent(50) {
        for _ in 0..1 + random.below(8) / 6 {
            let place = random.below(NUMBERS as u64) as usize;
            numbers[place] = bad_number(place, numbers[place], &mut random);
        }
    }
    numbers.map(|number| word_of(number, &mut random))
}

/// A number that is out of its range, or one at a limit.
fn bad_number(place: usize, good: u128, random: &mut Random) -> u128 {
    let (least, most, bits) = FIELDS[place];
    match random.below(8) {
        0 => least,
        1 => most,
        2 if least > 0 => least - 1,
        3 | 4 => most + 1,
        5 => most + 1 + u128::from(random.below(1 << bits)),
        6 => good | 1 << random.choose(&[bits, 16, 32, 33, 63, 64]),
        _ => good | 1 << random.choose(&[64, 65, 96, 126]),
    }
}

/// Decimal, or hexadecimal with small or large digits; sometimes with zeros in front, also many.
fn word_of(number: u128, random: &mut Random) -> String {
    let zeros = match random.below(20) {
        0 => 1 + random.below(3) as usize,
        1 => 1 + random.below(40) as usize,
        _ => 0,
    };
    let zeros = "0".repeat(zeros);
    match random.below(5) {
        0..2 => format!("{zeros}{number}"),
        2..4 => format!("0x{zeros}{number:x}"),
        _ => format!("0x{zeros}{number:X}"),
    }
}
