//! Looks for the mistakes of a salvage: in the texts and files that `fuzz --salvage` compares, and in the
//! calls whose answers and buffers `salvage-check` compares.

use super::{is_found_in, Place, SHRINK_EFFORT};
use crate::generate::{damaged_log, Damage, Sort};
use crate::salvage::{salvage, Output};
use crate::sequence::salvage::{Lending, Maker, Returned};
use crate::shrink::shrink_bytes;
use crate::wrong::salvage::{answer, output, SalvageMistake};

/// Each mistake has to be found within so many rounds of calls.
const ROUNDS: usize = 40;

/// What the mistakes are looked for in.
pub(super) struct Search {
    /// Logs with what the program makes of them.
    logs: Vec<(Vec<u8>, Output)>,
    /// Calls with what has to come of them.
    calls: Vec<(Lending, Returned)>,
}

impl Search {
    pub(super) fn new(seed: u64, logs: u64) -> Search {
        let log = |number| damaged_log(Damage::in_turn(number), seed, number);
        let with_output = |log: Vec<u8>| (log.clone(), salvage(&log));
        let mut maker = Maker::new(seed);
        let calls = (0..ROUNDS).flat_map(|_| maker.round());
        Search {
            logs: (0..logs).map(log).map(with_output).collect(),
            calls: calls.map(|lending| (lending.clone(), lending.right())).collect(),
        }
    }

    /// Prints a line for each mistake; answers how many were found wherever they show.
    pub(super) fn run(&self) -> usize {
        let is_found = |mistake: SalvageMistake| {
            let in_logs = mistake.shows_in_logs().then(|| self.look_in_logs(mistake));
            let in_calls = mistake.shows_in_calls().then(|| self.look_in_calls(mistake));
            is_found_in(mistake.text(), &[in_logs, in_calls])
        };
        SalvageMistake::ALL.iter().filter(|&&mistake| is_found(mistake)).count()
    }

    fn look_in_logs(&self, mistake: SalvageMistake) -> Place {
        let shows = |(log, right): &(Vec<u8>, Output)| output(log, mistake) != *right;
        let Some(place) = self.logs.iter().position(shows) else {
            return Err(format!("{} logs", self.logs.len()));
        };
        let differs = |log: &[u8]| output(log, mistake) != salvage(log);
        let bytes = shrink_bytes(&self.logs[place].0, SHRINK_EFFORT, differs).len();
        Ok(format!("{:>3} logs, {bytes:>2} bytes", place + 1))
    }

    fn look_in_calls(&self, mistake: SalvageMistake) -> Place {
        let shows = |(lending, right): &(Lending, Returned)| {
            lending.ask(|log, kept, list| answer(log, kept, list, mistake)) != *right
        };
        match self.calls.iter().position(shows) {
            Some(place) => Ok(format!("{:>4} calls", place + 1)),
            None => Err(format!("{} calls", self.calls.len())),
        }
    }
}
