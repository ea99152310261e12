//! What is compared: the program `replay`, `twin`, `screen`, `salvage_log` or `settings_file`.

use std::ffi::OsString;
use std::path::Path;

use crate::events::{Counts, Event, Listed, SalvageEvent, ScreenEvent, SettingsEvent};
use crate::generate::{broken_record, damaged_log, given_record, log_for, ticks_of, walk_log};
use crate::generate::{made_of, refused_record, shown_record, Given};
use crate::generate::{Damage, Log, Pace, Profile};
use crate::log::{replay_from, LONGEST};
use crate::random::Random;
use crate::salvage::salvage;
use crate::screen::{pin_of, screen_from};
use crate::settings::Settings;
use crate::settings_file::{self, NUMBERS};
use crate::shrink::{shrink, shrink_bytes};

/// What a program is run on.
#[derive(Clone, Default)]
pub struct Case {
    /// The settings record that it starts from, if it is given one.
    pub settings: Option<Vec<u8>>,
    /// The argument before the log.
    pub pin: Option<String>,
    /// The log, or the settings record that is shown.
    pub log: Vec<u8>,
    /// The numbers that a settings record is made of.
    pub numbers: Option<[String; NUMBERS]>,
}

/// The files of a run.
pub struct Files<'run> {
    /// The log, unless it is standard input.
    pub log: Option<&'run Path>,
    /// The settings record.
    pub settings: &'run Path,
    /// What the program makes.
    pub out: &'run Path,
}

impl Case {
    /// The same with another log.
    pub fn with_log(&self, log: Vec<u8>) -> Case {
        Case { log, ..self.clone() }
    }

    /// A log of this number, with its pause key: two in five have a settings record. It is made on a board with these
    /// settings; if the record is refused, that doesn't matter.
    fn with_settings(profile: Profile, pace: Pace, seed: u64, number: u64) -> (Case, u8) {
        let mut random =
            Random::new(seed.rotate_left(16) ^ number.wrapping_mul(0xC2B2_AE3D_27D4_EB4F));
        // The first torn logs come whatever the seed. They have no record, but one of those that are too long has a
        // refused one.
        let turn = number / Profile::ALL.len() as u64;
        let settings = match (profile, turn) {
            (Profile::Torn, 3) => Some(broken_record(&mut random)),
            (Profile::Torn, 0..5) => None,
            _ => given_record(40, &mut random),
        };
        let read = settings.as_deref().map_or(Ok(Settings::USUAL), Settings::of_record);
        let Log { bytes, key } =
            log_for(&read.unwrap_or(Settings::USUAL), profile, pace, seed, number);
        (Case { settings, log: bytes, ..Case::default() }, key)
    }

    /// The words that hand the settings over.
    fn settings_words(&self, files: &Files) -> Vec<OsString> {
        let words = || vec!["--settings".into(), files.settings.into()];
        self.settings.as_ref().map_or(Vec::new(), |_| words())
    }
}

/// The sorts of cases that a program is compared on.
pub type SortOf<S> = <<S as Subject>::Event as Listed>::Sort;

/// A program that this one has too.
pub trait Subject {
    /// What is counted in its cases.
    type Event: Listed;

    /// How many logs the gate compares.
    const GATE_LOGS: u64 = 3_000;
    /// How many logs a long run compares, unless told otherwise.
    const LONG_LOGS: u64 = 200_000;
    /// From so many logs on, they have to reach every event that they are meant to reach.
    const ENOUGH_LOGS: u64 = 400;
    /// The sorts of logs that are meant to reach an event may do it together; else each has to.
    const TOGETHER: bool = false;
    /// The log is always a file, and never standard input.
    const ALWAYS_FILE: bool = false;

    /// The case with this number: the seed and the number decide it.
    fn case(sort: SortOf<Self>, seed: u64, number: u64) -> Case;

    /// What the program is called with.
    fn arguments(case: &Case, files: &Files) -> Vec<OsString>;

    /// This program's whole output.
    fn output(case: &Case) -> String;

    /// What the file has that it makes, if it makes one.
    fn made(_: &Case) -> Option<Vec<u8>> {
        None
    }

    /// Counts what happens; answers the number of records.
    fn watch(counts: &mut Counts<Self::Event>, case: &Case) -> usize;

    /// The ticks that the program has to walk one by one, if it does.
    fn walked(_: &Case) -> u64 {
        0
    }

    /// The sort of logs is meant to reach the event.
    fn wants(event: Self::Event, sort: SortOf<Self>) -> bool {
        event.is_wanted_in(sort)
    }

    /// A short log that still differs.
    fn shrink(log: &[u8], effort: usize, differs: impl FnMut(&[u8]) -> bool) -> Vec<u8> {
        shrink(log, effort, differs)
    }
}

/// `replay [--settings FILE] [FILE]`
pub struct Replay;

impl Subject for Replay {
    type Event = Event;

    fn case(profile: Profile, seed: u64, number: u64) -> Case {
        Case::with_settings(profile, Pace::Any, seed, number).0
    }

    fn arguments(case: &Case, files: &Files) -> Vec<OsString> {
        case.settings_words(files).into_iter().chain(files.log.map(OsString::from)).collect()
    }

    fn output(case: &Case) -> String {
        replay_from(case.settings.as_deref(), &case.log)
    }

    fn watch(counts: &mut Counts<Event>, case: &Case) -> usize {
        counts.watch(case.settings.as_deref(), &case.log)
    }
}

/// `twin [--settings FILE] [FILE]`, which walks every tick beside a replay, and prints what that prints. Under an
/// emulator it takes its time, so there are fewer logs, and their advances are short.
pub struct Twin;

impl Subject for Twin {
    type Event = Event;

    const GATE_LOGS: u64 = 720;
    const LONG_LOGS: u64 = 20_000;
    const ENOUGH_LOGS: u64 = 100;
    const TOGETHER: bool = true;

    fn case(profile: Profile, seed: u64, number: u64) -> Case {
        // Chance makes a long walk too rarely: one comes whatever the seed.
        let is_walk = profile == Profile::Timers && number < Profile::ALL.len() as u64;
        if is_walk {
            return Case { log: walk_log(profile, seed), ..Case::default() };
        }
        Case::with_settings(profile, Pace::Short, seed, number).0
    }

    fn arguments(case: &Case, files: &Files) -> Vec<OsString> {
        Replay::arguments(case, files)
    }

    fn output(case: &Case) -> String {
        Replay::output(case)
    }

    fn watch(counts: &mut Counts<Event>, case: &Case) -> usize {
        Replay::watch(counts, case)
    }

    fn walked(case: &Case) -> u64 {
        ticks_of(&case.log)
    }

    fn wants(event: Event, profile: Profile) -> bool {
        event.is_wanted_in(profile) && !event.is_of_long_advances()
    }
}

/// `screen [--settings FILE] PIN [FILE]`
pub struct Screen;

impl Screen {
    fn pin(case: &Case) -> &str {
        case.pin.as_deref().expect("every case of a screen has a pin")
    }
}

impl Subject for Screen {
    type Event = ScreenEvent;

    fn case(profile: Profile, seed: u64, number: u64) -> Case {
        let (case, key) = Case::with_settings(profile, Pace::Any, seed, number);
        let mut random = Random::new(seed.rotate_left(32) ^ number);
        // A refused pin with a log that is too long comes, whatever the seed.
        let turn = number / Profile::ALL.len() as u64;
        let pin = if case.log.len() > LONGEST && turn.is_multiple_of(2) {
            bad_pin(&mut random, key)
        } else {
            let chance = if profile == Profile::Pause { 3 } else { 20 };
            pin_text(&mut random, chance, key)
        };
        Case { pin: Some(pin), ..case }
    }

    fn arguments(case: &Case, files: &Files) -> Vec<OsString> {
        let mut words = case.settings_words(files);
        words.push(Screen::pin(case).into());
        words.extend(files.log.map(OsString::from));
        words
    }

    fn output(case: &Case) -> String {
        let pin = pin_of(Screen::pin(case)).expect("every case has a number for its pin");
        screen_from(case.settings.as_deref(), pin, &case.log)
    }

    fn watch(counts: &mut Counts<ScreenEvent>, case: &Case) -> usize {
        counts.watch(case.settings.as_deref(), Screen::pin(case), &case.log)
    }
}

/// `salvage_log FILE OUT`
pub struct Salvage;

impl Subject for Salvage {
    type Event = SalvageEvent;

    fn case(damage: Damage, seed: u64, number: u64) -> Case {
        Case { log: damaged_log(damage, seed, number), ..Case::default() }
    }

    fn arguments(_: &Case, files: &Files) -> Vec<OsString> {
        vec![files.log.map_or("-".into(), OsString::from), files.out.into()]
    }

    fn output(case: &Case) -> String {
        salvage(&case.log).text
    }

    fn made(case: &Case) -> Option<Vec<u8>> {
        salvage(&case.log).made
    }

    fn watch(counts: &mut Counts<SalvageEvent>, case: &Case) -> usize {
        counts.watch(&case.log)
    }

    fn shrink(log: &[u8], effort: usize, differs: impl FnMut(&[u8]) -> bool) -> Vec<u8> {
        shrink_bytes(log, effort, differs)
    }
}

/// `settings_file show FILE` and `settings_file make VENDOR PERIOD MASK0 MASK1 MASK2 ID OUT`
pub struct SettingsFile;

impl SettingsFile {
    fn output_of(case: &Case) -> settings_file::Output {
        match &case.numbers {
            None => settings_file::Output { text: settings_file::show(&case.log), made: None },
            Some(words) => settings_file::make(words).expect("every word is a number"),
        }
    }
}

impl Subject for SettingsFile {
    type Event = SettingsEvent;

    const GATE_LOGS: u64 = 450;
    const LONG_LOGS: u64 = 20_000;
    const ENOUGH_LOGS: u64 = 120;
    const ALWAYS_FILE: bool = true;

    fn case(given: Given, seed: u64, number: u64) -> Case {
        match given {
            Given::Records => Case { log: shown_record(seed, number), ..Case::default() },
            Given::Broken => Case { log: refused_record(seed, number), ..Case::default() },
            Given::Numbers => Case { numbers: Some(made_of(seed, number)), ..Case::default() },
        }
    }

    fn arguments(case: &Case, files: &Files) -> Vec<OsString> {
        match &case.numbers {
            None => ["show".into()].into_iter().chain(files.log.map(OsString::from)).collect(),
            Some(numbers) => {
                let words = numbers.iter().map(OsString::from);
                ["make".into()].into_iter().chain(words).chain([files.out.into()]).collect()
            }
        }
    }

    fn output(case: &Case) -> String {
        SettingsFile::output_of(case).text
    }

    fn made(case: &Case) -> Option<Vec<u8>> {
        SettingsFile::output_of(case).made
    }

    fn watch(counts: &mut Counts<SettingsEvent>, case: &Case) -> usize {
        match &case.numbers {
            None => counts.watch_shown(&case.log),
            Some(numbers) => counts.watch_made(numbers),
        }
        1
    }

    fn shrink(log: &[u8], effort: usize, differs: impl FnMut(&[u8]) -> bool) -> Vec<u8> {
        shrink_bytes(log, effort, differs)
    }
}

/// The log's pause key, or another number so many times in a hundred.
fn pin_text(random: &mut Random, chance: u64, key: u8) -> String {
    let zeros = if random.percent(20) { 1 + random.below(40) as usize } else { 0 };
    let pin = if !random.percent(chance) {
        key.to_string()
    } else if random.percent(20) {
        random.below(24).to_string()
    } else {
        bad_pin(random, key)
    };
    "0".repeat(zeros) + &pin
}

/// A number above 23, often one that would be the key with fewer bits.
fn bad_pin(random: &mut Random, key: u8) -> String {
    match random.below(4) {
        0 => "24".to_string(),
        1 => (25 + random.below(1_000)).to_string(),
        2 => ((1u128 << random.choose(&[8, 16, 32, 64])) + u128::from(key)).to_string(),
        _ => "9".repeat(21 + random.below(300) as usize),
    }
}
