//! Random logs and random states, biased so that the interesting things really happen.
//!
//! A log is made beside a model that plays it, so that comparators land near the counter, ends
//! of interrupt meet a remote IRR, and advances stop just before, at or behind a due tick. A log
//! keeps to a few pins and vectors, and reads the registers back often.

mod choices;
mod damage;
mod given;
mod halves;
mod maker;
mod moves;
mod pause;
mod routes;
mod scenes;
mod settings;
mod short;
mod states;
mod stuck;
mod torn;

pub use damage::{damaged_log, short_damaged_log, Damage};
pub use given::{made_of, refused_record, shown_record, Given};
pub use settings::{broken_record, flawed_record, given_record, random_settings, Flaw};
pub use short::{ticks_of, MOST_TICKS};
pub use states::random_board;

use crate::log::LONGEST;
use crate::random::Random;
use crate::settings::Settings;
use maker::Maker;

/// Sorts of logs that come in turn.
pub trait Sort: Copy + PartialEq + 'static {
    /// All of them.
    const ALL: &'static [Self];

    /// The name on the command line.
    fn name(self) -> &'static str;

    /// The letter in the lists of events.
    fn letter(self) -> char;

    /// The sort of that name.
    fn named(name: &str) -> Option<Self> {
        Self::ALL.iter().copied().find(|sort| sort.name() == name)
    }

    /// The sort whose turn it is.
    fn in_turn(number: u64) -> Self {
        Self::ALL[(number % Self::ALL.len() as u64) as usize]
    }
}

/// What a log is mostly about.
#[derive(Clone, Copy, PartialEq, Eq, Debug)]
pub enum Profile {
    /// A bit of everything, nothing refused on purpose.
    Valid,
    /// Bad windows, widths, offsets, pins, levels and values.
    Adversarial,
    /// Timers that share pins, wraps, all kinds of periods, full advances.
    Timers,
    /// Masking, polarity and trigger switches, remote IRR, storms of ends of interrupt.
    Controller,
    /// The life of a pause key, at each of its stages what is easily taken for another one.
    Pause,
    /// Cut, damaged and overlong logs.
    Torn,
}

impl Profile {
    /// All profiles.
    pub const ALL: [Profile; 6] = [
        Profile::Valid,
        Profile::Adversarial,
        Profile::Timers,
        Profile::Controller,
        Profile::Pause,
        Profile::Torn,
    ];

    /// The profiles whose logs have no bad record.
    pub const SOUND: [Profile; 5] = [
        Profile::Valid,
        Profile::Adversarial,
        Profile::Timers,
        Profile::Controller,
        Profile::Pause,
    ];
}

impl Sort for Profile {
    const ALL: &'static [Profile] = &Profile::ALL;

    fn name(self) -> &'static str {
        match self {
            Profile::Valid => "valid",
            Profile::Adversarial => "adversarial",
            Profile::Timers => "timers",
            Profile::Controller => "controller",
            Profile::Pause => "pause",
            Profile::Torn => "torn",
        }
    }

    fn letter(self) -> char {
        match self {
            Profile::Valid => 'v',
            Profile::Adversarial => 'a',
            Profile::Timers => 't',
            Profile::Controller => 'c',
            Profile::Pause => 'p',
            Profile::Torn => 'x',
        }
    }
}

/// How long advances are.
#[derive(Clone, Copy, PartialEq, Eq, Debug)]
pub enum Pace {
    /// Any number of ticks, the largest too.
    Any,
    /// So few that every tick can be walked.
    Short,
}

/// A log, and the pin that is its pause key.
pub struct Log {
    /// Its bytes.
    pub bytes: Vec<u8>,
    /// A pin at which something happens.
    pub key: u8,
}

/// The log with this number: the seed and the number decide it. It can be played on any board; this one is made on
/// a board with document 01's settings.
pub fn log(profile: Profile, seed: u64, number: u64) -> Vec<u8> {
    keyed_log(profile, seed, number).bytes
}

/// The same, with its pause key.
pub fn keyed_log(profile: Profile, seed: u64, number: u64) -> Log {
    log_for(&Settings::USUAL, profile, Pace::Any, seed, number)
}

/// The log with this number whose every tick can be walked: its advances together are at most
/// [`MOST_TICKS`].
pub fn short_log(profile: Profile, seed: u64, number: u64) -> Vec<u8> {
    log_for(&Settings::USUAL, profile, Pace::Short, seed, number).bytes
}

/// Such a log that begins with a long walk: half of its ticks in one advance, with a firing at each.
pub fn walk_log(profile: Profile, seed: u64) -> Vec<u8> {
    let mut maker = Maker::new(Pace::Short, &Settings::USUAL, seed);
    maker.set_walk_scene();
    finish(maker, profile, &mut Random::new(!seed)).bytes
}

/// The log with this number, made on a board with these settings.
pub fn log_for(settings: &Settings, profile: Profile, pace: Pace, seed: u64, number: u64) -> Log {
    let mut random = Random::new(seed ^ number.wrapping_mul(0xD134_2543_DE82_EF95));
    if profile == Profile::Torn {
        torn::log(settings, pace, &mut random, number)
    } else {
        sound_log(settings, profile, pace, &mut random)
    }
}

fn sound_log(settings: &Settings, profile: Profile, pace: Pace, random: &mut Random) -> Log {
    finish(Maker::new(pace, settings, random.any()), profile, random)
}

fn finish(mut maker: Maker, profile: Profile, random: &mut Random) -> Log {
    let length = match random.below(100) {
        // A pause that isn't resumed comes once in a log.
        _ if profile == Profile::Pause => 10 + random.below(120),
        0..60 => 50 + random.below(350),
        60..95 => 300 + random.below(700),
        _ => u64::MAX,
    };
    if !maker.has_usual_settings() {
        maker.set_settings_scene();
    }
    if random.percent(80) {
        maker.set_scene(profile);
    }
    while maker.records < length && maker.log.len() + LONGEST_MOVE < LONGEST {
        maker.move_by(profile);
    }
    Log { key: maker.pins[0], bytes: maker.log }
}

/// No move adds more bytes than this.
const LONGEST_MOVE: usize = 4_000;
