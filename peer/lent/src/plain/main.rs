//! `plain-check`: the library's lent entry for the plain engine against the second model, call by call: the
//! reply and all 304 bytes of the board after every call.

mod counts;
mod happenings;

use std::process::ExitCode;

use counts::Counts;
use lent::check::{Tally, Wanted};
use peer::sequence::plain::{Maker, Sequence};

/// How many calls are compared, unless told otherwise.
const CALLS: u64 = 300_000;

const HELP: &str = "\
plain-check [--seed N] [--calls N]

Compares the library's lent entry for the plain engine with the second model: sequences of calls,
resets and unknown kinds among them, from random states, with numbers wider than a call takes, from
states that are not well formed clause by clause, and from random memory. Advances are short, since
every tick is walked. Every reply and every byte of the board has to agree, and everything that is
counted has to come. The last line is `N passed, M failed`, in calls.
";

fn main() -> ExitCode {
    lent::check::run("plain-check", HELP, CALLS, check)
}

fn check(seed: u64, calls: u64) -> ExitCode {
    let (mut tally, mut counts) = (Tally::default(), Counts::new());
    let mut maker = Maker::new(seed);
    while tally.goes_on(calls) {
        for sequence in maker.round() {
            play(&sequence, &mut tally, &mut counts);
        }
    }
    tally.report(&counts.rows())
}

fn play(sequence: &Sequence, tally: &mut Tally, counts: &mut Counts) {
    for step in sequence.steps() {
        counts.note(sequence.kind, &step);
        let (before, call, after, reply) = (step.before, step.call, step.after, step.reply);
        tally.compare(&Wanted { before, call, after, reply }, lent::plain);
    }
}
