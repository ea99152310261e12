//! Compares another program with this one, on random logs.

mod other;
mod show;
mod subject;

use std::path::PathBuf;
use std::time::{Duration, Instant};

use crate::events::{Counts, Listed};
use crate::generate::Sort;
use other::{Other, Outcome, Way};

pub use subject::{Case, Files, Replay, Salvage, Screen, SettingsFile, SortOf, Subject, Twin};

/// The seed that the gate uses.
pub const FIXED_SEED: u64 = 0x7EB5;
/// The effort to shrink a difference.
const SHRINK_EFFORT: usize = 8_000_000;

/// What to compare.
pub struct Options {
    /// The other program.
    pub program: PathBuf,
    /// Decides the logs.
    pub seed: u64,
    /// How many logs.
    pub logs: u64,
    /// Only the sort of logs of this name, or all in turn.
    pub profile: Option<String>,
}

/// Compares, prints the tables and `N passed, M failed`; answers whether nothing failed.
pub fn run<S: Subject>(options: &Options) -> Result<bool, String> {
    let mut comparison = Comparison::<S>::new(options)?;
    let start = Instant::now();
    println!("seed {:#x}, {} logs", options.seed, options.logs);
    let mut passed = 0;
    for number in 0..options.logs {
        if comparison.compare(number)? {
            passed += 1;
        } else {
            println!("{passed} passed, 1 failed");
            return Ok(false);
        }
        if options.logs > S::GATE_LOGS && number % 10_000 == 9_999 {
            println!("{} logs compared", number + 1);
        }
    }
    comparison.print_events();
    let missing = comparison.missing();
    for (profiles, event) in &missing {
        println!("profile {profiles} never reached: {}", event.text());
    }
    comparison.print_totals(start.elapsed());
    println!("{passed} passed, {} failed", missing.len());
    Ok(missing.is_empty())
}

/// What one sort of logs has done so far.
struct Tally<S: Subject> {
    sort: SortOf<S>,
    logs: u64,
    records: usize,
    /// Ticks that the program walks one by one.
    ticks: u64,
    counts: Counts<S::Event>,
}

struct Comparison<'options, S: Subject> {
    options: &'options Options,
    other: Other,
    tallies: Vec<Tally<S>>,
}

impl<'options, S: Subject> Comparison<'options, S> {
    fn new(options: &'options Options) -> Result<Self, String> {
        let sorts = match &options.profile {
            Some(name) => vec![sort_named::<SortOf<S>>(name)?],
            None => SortOf::<S>::ALL.to_vec(),
        };
        let new = |sort| Tally { sort, logs: 0, records: 0, ticks: 0, counts: Counts::new() };
        let tallies = sorts.into_iter().map(new).collect();
        Ok(Comparison { options, other: Other::new(&options.program)?, tallies })
    }

    /// Compares one log; shows a difference if there is one.
    fn compare(&mut self, number: u64) -> Result<bool, String> {
        let turn = (number % self.tallies.len() as u64) as usize;
        let tally = &mut self.tallies[turn];
        let case = S::case(tally.sort, self.options.seed, number);
        tally.logs += 1;
        tally.records += S::watch(&mut tally.counts, &case);
        tally.ticks += S::walked(&case);
        let way = match number % 8 {
            2 if !S::ALWAYS_FILE => Way::StandardInput,
            6 if !S::ALWAYS_FILE => Way::Pipe,
            _ => Way::Argument,
        };
        if self.other.run::<S>(&case, way)? == Outcome::own::<S>(&case) {
            return Ok(true);
        }
        let sort = tally.sort.name();
        println!("log {number} (profile {sort}) by {way:?}: the outputs differ");
        self.show_difference(&case, way)?;
        Ok(false)
    }

    fn show_difference(&self, case: &Case, way: Way) -> Result<(), String> {
        let differs = |log: &[u8]| {
            let case = case.with_log(log.to_vec());
            self.other.run::<S>(&case, way).is_ok_and(|other| other != Outcome::own::<S>(&case))
        };
        let short = case.with_log(S::shrink(&case.log, SHRINK_EFFORT, differs));
        let other = self.other.run::<S>(&short, way)?;
        show::difference(&short, &Outcome::own::<S>(&short), &other, &self.options.program)
    }

    /// The events that enough logs were meant to reach and didn't, with the sorts of these logs.
    fn missing(&self) -> Vec<(String, S::Event)> {
        let groups = self.tallies.chunks(if S::TOGETHER { self.tallies.len() } else { 1 });
        groups
            .flat_map(|group| S::Event::ALL.iter().filter_map(|&event| lack(group, event)))
            .collect()
    }

    /// Events by sort of logs; a star marks what the sort is meant to reach.
    fn print_events(&self) {
        let heads: String =
            self.tallies.iter().map(|tally| format!("{:>13}", tally.sort.name())).collect();
        println!("{:<58}{heads}", "event (* is to be reached)");
        for &event in S::Event::ALL {
            let cell = |tally: &Tally<S>| {
                let star = if S::wants(event, tally.sort) { "*" } else { " " };
                format!("{:>12}{star}", tally.counts.of(event))
            };
            let cells: String = self.tallies.iter().map(cell).collect();
            println!("{:<58}{cells}", event.text());
        }
    }

    fn print_totals(&self, time: Duration) {
        let logs: u64 = self.tallies.iter().map(|tally| tally.logs).sum();
        let records: usize = self.tallies.iter().map(|tally| tally.records).sum();
        for tally in &self.tallies {
            println!("{}: {} logs, {} records", tally.sort.name(), tally.logs, tally.records);
        }
        let ticks: u64 = self.tallies.iter().map(|tally| tally.ticks).sum();
        let walked = if ticks == 0 { String::new() } else { format!(", {ticks} ticks walked") };
        println!("{logs} logs, {records} records{walked} in {:.1} s", time.as_secs_f64());
    }
}

/// The event, with the sorts that were meant to reach it, if they made enough logs and none did.
fn lack<S: Subject>(group: &[Tally<S>], event: S::Event) -> Option<(String, S::Event)> {
    let meant: Vec<_> = group.iter().filter(|tally| S::wants(event, tally.sort)).collect();
    let logs: u64 = meant.iter().map(|tally| tally.logs).sum();
    let reached = meant.iter().any(|tally| tally.counts.of(event) > 0);
    let names: Vec<&str> = meant.iter().map(|tally| tally.sort.name()).collect();
    (logs >= S::ENOUGH_LOGS && !reached).then(|| (names.join(", "), event))
}

fn sort_named<S: Sort>(name: &str) -> Result<S, String> {
    S::named(name).ok_or_else(|| {
        let names: Vec<&str> = S::ALL.iter().map(|sort| sort.name()).collect();
        format!("no profile {name}; there are {}", names.join(", "))
    })
}
