//! `lent-check`: the library's lent entry against the second model, call by call: the reply and
//! all 304 bytes of the board after every call.

mod counts;

use std::process::ExitCode;

use counts::Counts;
use lent::check::{Tally, Wanted};
use peer::abi::Call;
use peer::sequence::{settings, Maker, Sequence};

/// How many calls are compared, unless told otherwise.
const CALLS: u64 = 2_000_000;

const HELP: &str = "\
lent-check [--seed N] [--calls N]

Compares the library's lent entry with the second model: sequences of calls, resets among them,
from random states, with wide arguments, from states that are not well formed clause by clause,
and from random memory; and resets with settings records, good and broken. Every reply and every
byte of the board has to agree, and everything that is counted has to come. The last line is
`N passed, M failed`, in calls.
";

fn main() -> ExitCode {
    lent::check::run("lent-check", HELP, CALLS, check)
}

fn check(seed: u64, calls: u64) -> ExitCode {
    let (mut tally, mut counts) = (Tally::default(), Counts::new());
    let (mut maker, mut resets) = (Maker::new(seed), settings::Maker::new(seed));
    while tally.goes_on(calls) {
        for sequence in maker.round() {
            play(&sequence, &mut tally, &mut counts);
        }
        for (number, reset) in resets.boards().iter().enumerate() {
            counts.with_record.note(reset);
            tally.compare_reset(reset, number % 8, lent::reset_settings);
        }
    }
    tally.report(&counts.rows())
}

fn play(sequence: &Sequence, tally: &mut Tally, counts: &mut Counts) {
    let mut mended = false;
    for step in sequence.steps() {
        counts.note(sequence.kind, &step, mended);
        mended |= step.call == Call::Reset && !step.before.is_well_formed();
        let (before, call, after, reply) = (step.before, step.call, step.after, step.reply);
        tally.compare(&Wanted { before, call, after, reply }, lent::call);
    }
}
