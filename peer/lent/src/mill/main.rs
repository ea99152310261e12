//! `mill-check`: the library's lent entry for the mill against the second model, call by call: the
//! reply and all 312 bytes of the mill after every call.

mod counts;
mod happenings;

use std::process::ExitCode;

use counts::Counts;
use lent::check::{Tally, Wanted};
use peer::sequence::mill::{Maker, Sequence};
use peer::sequence::settings;

/// How many calls are compared, unless told otherwise.
const CALLS: u64 = 2_000_000;

const HELP: &str = "\
mill-check [--seed N] [--calls N]

Compares the library's lent entry for the mill with the second model: lives of a pause key with
tellings, resumes and resets, calls on random mills, numbers wider than a call takes, unknown
kinds, mills that are not well formed clause by clause, and random memory; and resets with settings
records, good and broken, in every word. Every reply and every byte of the mill has to agree, and
everything that is counted has to come. The last line is `N passed, M failed`, in calls.
";

fn main() -> ExitCode {
    lent::check::run("mill-check", HELP, CALLS, check)
}

fn check(seed: u64, calls: u64) -> ExitCode {
    let (mut tally, mut counts) = (Tally::default(), Counts::new());
    let (mut maker, mut resets) = (Maker::new(seed), settings::Maker::new(seed));
    while tally.goes_on(calls) {
        for sequence in maker.round() {
            play(&sequence, &mut tally, &mut counts);
        }
        for (number, reset) in resets.mills().iter().enumerate() {
            counts.note_reset(reset);
            tally.compare_reset(reset, number % 8, lent::mill_reset_settings);
        }
    }
    tally.report(&counts.rows())
}

fn play(sequence: &Sequence, tally: &mut Tally, counts: &mut Counts) {
    for step in sequence.steps() {
        counts.note(sequence.kind, &step);
        let (before, call, after, reply) = (step.before, step.call, step.after, step.reply);
        tally.compare(&Wanted { before, call, after, reply }, lent::mill);
    }
}
