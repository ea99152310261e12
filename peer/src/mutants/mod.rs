//! Shows that the comparison catches mistakes: each wrong model against the right one, on the
//! same random logs, or on the same random sequences of calls if the mistake is one in a reset or in
//! what is refused with 5, which no log shows. A mistake that isn't found is a hole in the
//! generator. Mistakes of a pause screen are in [`screen`], those of a salvage in [`salvage`], those with settings
//! records in [`settings`].

mod salvage;
mod screen;
mod settings;

use crate::abi::Reply;
use crate::fuzz::{Case as Given, Replay, Subject};
use crate::generate::{Profile, Sort};
use crate::log::records_of;
use crate::sequence::{Maker, Sequence};
use crate::shrink::shrink;
use crate::wrong::salvage::SalvageMistake;
use crate::wrong::screen::ScreenMistake;
use crate::wrong::settings::SettingsMistake;
use crate::wrong::{self, Mistake};

/// Each mistake has to be found within so many logs.
pub const LOGS: u64 = 600;
/// Each mistake that no log shows has to be found within so many rounds of sequences.
const ROUNDS: usize = 200;
/// The effort to shrink a difference.
const SHRINK_EFFORT: usize = 8_000_000;

/// Looks for every mistake, prints a line for each and `N passed, M failed`; answers whether
/// all were found.
pub fn run(seed: u64, logs: u64) -> bool {
    let cases: Vec<Case> = (0..logs).map(|number| Case::new(seed, number)).collect();
    let mut maker = Maker::new(seed);
    let calls: Vec<Calls> = (0..ROUNDS).flat_map(|_| maker.round()).map(Calls::new).collect();
    let is_found = |mistake: Mistake| {
        if mistake.shows_in_logs() {
            look_in_logs(mistake, &cases)
        } else {
            look_in_calls(mistake, &calls)
        }
    };
    let found = Mistake::ALL.iter().filter(|&&mistake| is_found(mistake)).count();
    let screen = screen::Search::new(seed, logs).run();
    let salvage = salvage::Search::new(seed, logs).run();
    let settings = settings::Search::new(seed, logs).run();
    let found = found + screen + salvage + settings;
    let all = Mistake::ALL.len()
        + ScreenMistake::ALL.len()
        + SalvageMistake::ALL.len()
        + SettingsMistake::ALL.len();
    println!("{found} passed, {} failed", all - found);
    found == all
}

/// Where a mistake was found, or where it was looked for and not found.
type Place = Result<String, String>;

/// Prints a line for a mistake that has to be found in several places; answers whether it was.
fn is_found_in(text: &str, places: &[Option<Place>]) -> bool {
    let words = places.iter().flatten().map(|place| match place {
        Ok(found) => format!("found after {found}"),
        Err(looked) => format!("NOT FOUND in {looked}"),
    });
    println!("{text:<64} {}", words.collect::<Vec<_>>().join("; "));
    places.iter().flatten().all(Result::is_ok)
}

/// A log, with its settings record if it has one, and its right output.
struct Case {
    given: Given,
    right: String,
}

impl Case {
    fn new(seed: u64, number: u64) -> Case {
        let given = Replay::case(Profile::in_turn(number), seed, number);
        Case { right: Replay::output(&given), given }
    }
}

fn wrong_output(given: &Given, mistake: Mistake) -> String {
    wrong::replay(given.settings.as_deref(), &given.log, mistake)
}

/// A sequence with its right replies.
struct Calls {
    sequence: Sequence,
    right: Vec<Reply>,
}

impl Calls {
    fn new(sequence: Sequence) -> Calls {
        Calls { right: sequence.steps().map(|step| step.reply).collect(), sequence }
    }
}

fn look_in_logs(mistake: Mistake, cases: &[Case]) -> bool {
    let text = mistake.text();
    let shows = |case: &Case| wrong_output(&case.given, mistake) != case.right;
    let Some(place) = cases.iter().position(shows) else {
        println!("{text:<64} NOT FOUND in {} logs", cases.len());
        return false;
    };
    let given = &cases[place].given;
    let differs = |log: &[u8]| {
        let given = given.with_log(log.to_vec());
        wrong_output(&given, mistake) != Replay::output(&given)
    };
    let short = shrink(&given.log, SHRINK_EFFORT, differs);
    let records = records_of(&short).0.len();
    println!("{text:<64} found after {:>3} logs, {records:>2} records", place + 1);
    true
}

/// Looks at the replies alone: what `lent-check` compares, the board's bytes too, differs sooner.
fn look_in_calls(mistake: Mistake, calls: &[Calls]) -> bool {
    let text = mistake.text();
    let shows = |calls: &Calls| wrong::replies(&calls.sequence, mistake) != calls.right;
    let found = calls.iter().position(shows);
    match found {
        Some(place) => println!("{text:<64} found after {:>3} sequences", place + 1),
        None => println!("{text:<64} NOT FOUND in {} sequences", calls.len()),
    }
    found.is_some()
}
