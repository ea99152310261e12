//! Looks for the mistakes of a pause screen: in the outputs that `fuzz --screen` compares, and in
//! the calls whose replies and memory `mill-check` compares.

use super::{is_found_in, Place, SHRINK_EFFORT};
use crate::fuzz::{Case, Screen, Subject};
use crate::generate::{Profile, Sort};
use crate::log::records_of;
use crate::sequence::mill::{Maker, Step};
use crate::shrink::shrink;
use crate::wrong::screen::{answer, output, ScreenMistake};

/// Each mistake has to be found within so many rounds of sequences.
const ROUNDS: usize = 60;

/// What the mistakes are looked for in.
pub(super) struct Search {
    /// Cases with their right outputs.
    cases: Vec<(Case, String)>,
    /// Calls with their right answers.
    steps: Vec<Step>,
}

impl Search {
    pub(super) fn new(seed: u64, logs: u64) -> Search {
        let case = |number| Screen::case(Profile::in_turn(number), seed, number);
        let mut maker = Maker::new(seed);
        let sequences = (0..ROUNDS).flat_map(|_| maker.round());
        Search {
            cases: (0..logs).map(case).map(|case| (case.clone(), Screen::output(&case))).collect(),
            steps: sequences.flat_map(|sequence| sequence.steps().collect::<Vec<_>>()).collect(),
        }
    }

    /// Prints a line for each mistake; answers how many were found wherever they show.
    pub(super) fn run(&self) -> usize {
        let is_found = |mistake: ScreenMistake| {
            let in_logs = mistake.shows_in_logs().then(|| self.look_in_logs(mistake));
            let in_calls = mistake.shows_in_calls().then(|| self.look_in_calls(mistake));
            is_found_in(mistake.text(), &[in_logs, in_calls])
        };
        ScreenMistake::ALL.iter().filter(|&&mistake| is_found(mistake)).count()
    }

    fn look_in_logs(&self, mistake: ScreenMistake) -> Place {
        let shows = |(case, right): &(Case, String)| wrong_output(case, mistake) != *right;
        let Some(place) = self.cases.iter().position(shows) else {
            return Err(format!("{} logs", self.cases.len()));
        };
        let case = &self.cases[place].0;
        let differs = |log: &[u8]| {
            let case = case.with_log(log.to_vec());
            wrong_output(&case, mistake) != Screen::output(&case)
        };
        let records = records_of(&shrink(&case.log, SHRINK_EFFORT, differs)).0.len();
        Ok(format!("{:>3} logs, {records:>2} records", place + 1))
    }

    fn look_in_calls(&self, mistake: ScreenMistake) -> Place {
        let shows = |step: &Step| {
            let mut lent = step.before;
            let reply = answer(step.call, &mut lent, mistake);
            (reply, lent) != (step.reply, step.after)
        };
        match self.steps.iter().position(shows) {
            Some(place) => Ok(format!("{:>5} calls", place + 1)),
            None => Err(format!("{} calls", self.steps.len())),
        }
    }
}

fn wrong_output(case: &Case, mistake: ScreenMistake) -> String {
    let pin = case.pin.as_deref().expect("every case of a screen has a pin");
    output(case.settings.as_deref(), pin, &case.log, mistake)
}
