//! Looks for the mistakes with settings: in what `fuzz --settings` compares, in replays with a record, in the resets
//! that `lent-check` and `mill-check` compare, and in calls of the writer.

use super::Place;
use crate::abi::mill::Mill;
use crate::abi::settings::Resettable;
use crate::abi::{Board, Reply};
use crate::fuzz::{Case, Replay, SettingsFile, Subject};
use crate::generate::{Given, Profile, Sort};
use crate::sequence::settings::{Maker, Resetting, Writing};
use crate::settings_file::Output;
use crate::wrong::settings::{make, replay, reset_board, reset_mill, show, write, SettingsMistake};

/// Each mistake has to be found within so many rounds of resets and writings.
const ROUNDS: usize = 60;

/// What the mistakes are looked for in.
pub(super) struct Search {
    /// What the program is given, with what it leaves behind.
    given: Vec<(Case, Output)>,
    /// Logs with a record, with their outputs.
    logs: Vec<(Case, String)>,
    boards: Vec<Resetting<Board>>,
    mills: Vec<Resetting<Mill>>,
    writings: Vec<Writing>,
}

impl Search {
    pub(super) fn new(seed: u64, logs: u64) -> Search {
        let given = |number| SettingsFile::case(Given::in_turn(number), seed, number);
        let left = |case: &Case| Output {
            text: SettingsFile::output(case),
            made: SettingsFile::made(case),
        };
        let log = |number| Replay::case(Profile::in_turn(number), seed, number);
        let mut maker = Maker::new(seed);
        let logs = (0..logs).map(log).filter(|case| case.settings.is_some());
        let given = (0..SettingsFile::GATE_LOGS).map(given);
        Search {
            given: given.map(|case| (case.clone(), left(&case))).collect(),
            logs: logs.map(|case| (case.clone(), Replay::output(&case))).collect(),
            boards: (0..ROUNDS).flat_map(|_| maker.boards()).collect(),
            mills: (0..ROUNDS).flat_map(|_| maker.mills()).collect(),
            writings: (0..ROUNDS).flat_map(|_| maker.writings()).collect(),
        }
    }

    /// Prints a line for each mistake; answers how many were found wherever they show.
    pub(super) fn run(&self) -> usize {
        let is_found = |mistake: SettingsMistake| {
            let places = mistake.places().chars().map(|place| Some(self.look(mistake, place)));
            super::is_found_in(mistake.text(), &places.collect::<Vec<_>>())
        };
        SettingsMistake::ALL.iter().filter(|&&mistake| is_found(mistake)).count()
    }

    fn look(&self, mistake: SettingsMistake, place: char) -> Place {
        match place {
            's' => first(&self.given, "records", |(case, right)| {
                case.numbers.is_none() && show(&case.log, mistake) != right.text
            }),
            'm' => first(&self.given, "numbers", |(case, right)| {
                case.numbers.as_ref().is_some_and(|words| make(words, mistake) != *right)
            }),
            'l' => first(&self.logs, "logs", |(case, right)| {
                let record = case.settings.as_deref().unwrap_or_default();
                replay(record, &case.log, mistake) != *right
            }),
            'b' => first(&self.boards, "boards", |call| differs(call, mistake, reset_board)),
            'k' => first(&self.mills, "mills", |call| differs(call, mistake, reset_mill)),
            _ => first(&self.writings, "writings", |call| {
                call.ask(|settings, buffer| write(settings, buffer, mistake)) != call.right()
            }),
        }
    }
}

/// Where it shows first.
fn first<T>(all: &[T], what: &str, shows: impl Fn(&T) -> bool) -> Place {
    match all.iter().position(shows) {
        Some(place) => Ok(format!("{} {what}", place + 1)),
        None => Err(format!("{} {what}", all.len())),
    }
}

fn differs<Lent: Resettable>(
    call: &Resetting<Lent>,
    mistake: SettingsMistake,
    reset: fn(&mut Lent, &[u8], SettingsMistake) -> Reply,
) -> bool {
    let mut lent = call.before;
    let reply = reset(&mut lent, &call.record, mistake);
    (reply, lent) != call.right()
}
