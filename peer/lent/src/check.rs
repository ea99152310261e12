//! What the checks have in common.

use std::fmt::Debug;
use std::process::ExitCode;

use peer::abi::settings::Resettable;
use peer::abi::Reply;
use peer::sequence::settings::Resetting;

use crate::guarded;

/// So many differences are shown.
const SHOWN: u64 = 3;

/// What is lent, with guards on both sides that no call may touch.
#[repr(C)]
#[derive(Clone, Copy, PartialEq, Eq)]
struct Guarded<Lent> {
    before: [u64; 8],
    lent: Lent,
    after: [u64; 8],
}

const GUARD: [u64; 8] = [0xA5A5_5A5A_C3C3_3C3C; 8];

impl<Lent> Guarded<Lent> {
    fn new(lent: Lent) -> Self {
        Guarded { before: GUARD, lent, after: GUARD }
    }
}

/// A call, and what has to come of it.
pub struct Wanted<Lent, Call> {
    /// The memory before it.
    pub before: Lent,
    /// The call.
    pub call: Call,
    /// The memory after it.
    pub after: Lent,
    /// What it answers.
    pub reply: Reply,
}

/// What has been compared.
#[derive(Default)]
pub struct Tally {
    passed: u64,
    failed: u64,
}

impl Tally {
    /// There is more to compare.
    pub fn goes_on(&self, calls: u64) -> bool {
        self.passed + self.failed < calls && self.failed < SHOWN
    }

    /// Makes one call and compares the reply, the memory and the guards.
    pub fn compare<Lent: Copy + Eq + Debug, Call: Copy + Debug>(
        &mut self,
        wanted: &Wanted<Lent, Call>,
        make: impl FnOnce(&mut Lent, Call) -> Reply,
    ) {
        let mut given = Guarded::new(wanted.before);
        let reply = make(&mut given.lent, wanted.call);
        let agrees = reply == wanted.reply && given == Guarded::new(wanted.after);
        self.judge(agrees, || show(wanted, &given, reply));
    }

    /// Makes one reset with a settings record, which lies so many bytes further than it need, and compares the reply,
    /// the memory, the record and the guards of both.
    pub fn compare_reset<Lent: Resettable + Debug>(
        &mut self,
        call: &Resetting<Lent>,
        shift: usize,
        make: impl FnOnce(&mut Lent, &mut [u8]) -> Reply,
    ) {
        let (reply, after) = call.right();
        let mut record = guarded::Guarded::new(&call.record, 0xA5, shift);
        let mut given = Guarded::new(call.before);
        let got = make(&mut given.lent, record.lent());
        let difference = record.difference(&call.record);
        let agrees = got == reply && given == Guarded::new(after) && difference.is_none();
        let wanted = Wanted { before: call.before, call: &call.record, after, reply };
        self.judge(agrees, || {
            println!("a reset with settings:");
            show(&wanted, &given, got);
            difference.iter().for_each(|place| println!("  the record: {place}"));
        });
    }

    /// Counts one call; the first that don't agree are shown.
    pub fn judge(&mut self, agrees: bool, show: impl FnOnce()) {
        if agrees {
            self.passed += 1;
            return;
        }
        self.failed += 1;
        if self.failed <= SHOWN {
            show();
        }
    }

    /// Prints the counts and `N passed, M failed`; what never came is a failure.
    pub fn report(&self, rows: &[(String, u64)]) -> ExitCode {
        for (text, count) in rows {
            println!("{text:<58}{count:>10}");
        }
        let unseen = rows.iter().filter(|(_, count)| *count == 0);
        let failed = self.failed + unseen.map(|(text, _)| println!("never: {text}")).count() as u64;
        println!("{} passed, {failed} failed", self.passed);
        if failed == 0 {
            ExitCode::SUCCESS
        } else {
            ExitCode::FAILURE
        }
    }
}

fn show<Lent: Copy + Eq + Debug, Call: Debug>(
    wanted: &Wanted<Lent, Call>,
    given: &Guarded<Lent>,
    reply: Reply,
) {
    println!("{:?} on {:?}", wanted.call, wanted.before);
    println!("  wanted {:?}", wanted.reply);
    println!("  given  {reply:?}");
    if wanted.after != given.lent {
        println!("  wanted {:?}", wanted.after);
        println!("  given  {:?}", given.lent);
    }
    if (given.before, given.after) != (GUARD, GUARD) {
        println!("  the bytes around it were changed");
    }
}

/// Runs a check with the seed and the number of calls that the command line says, or with so many calls.
pub fn run(
    name: &str,
    help: &str,
    calls: u64,
    check: impl FnOnce(u64, u64) -> ExitCode,
) -> ExitCode {
    let words: Vec<String> = std::env::args().skip(1).collect();
    if words.iter().any(|word| word == "--help" || word == "-h") {
        print!("{help}");
        return ExitCode::SUCCESS;
    }
    match options(&words, calls) {
        Ok((seed, calls)) => check(seed, calls),
        Err(message) => {
            eprintln!("{name}: {message}; see --help");
            ExitCode::from(2)
        }
    }
}

fn options(words: &[String], usual: u64) -> Result<(u64, u64), String> {
    let (mut seed, mut calls) = (peer::fuzz::FIXED_SEED, usual);
    for pair in words.chunks(2) {
        let [option, value] = pair else { return Err(format!("{} wants a value", pair[0])) };
        let number = value.parse().map_err(|_| format!("{option} wants a number, not {value}"))?;
        match option.as_str() {
            "--seed" => seed = number,
            "--calls" => calls = number,
            _ => return Err(format!("unknown option {option}")),
        }
    }
    Ok((seed, calls))
}
