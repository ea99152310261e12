//! Timing: the best of several rounds, the two sides in turn.

use std::hint::black_box;
use std::process::{Command, Stdio};
use std::time::{Duration, Instant};

/// Rounds of which the best counts.
const ROUNDS: u32 = 60;
/// Runs of a program of which the best counts.
const RUNS: u32 = 25;
/// A round lasts about this long.
const ROUND: Duration = Duration::from_millis(1);

/// The best times of the two sides, in nanoseconds.
#[derive(Clone, Copy)]
pub struct Pair {
    /// The library or its program.
    pub library: f64,
    /// Plain Rust.
    pub plain: f64,
}

impl Pair {
    /// No time yet.
    pub const WORST: Pair = Pair { library: f64::MAX, plain: f64::MAX };

    /// The better of the two times on each side.
    pub fn better(self, other: Pair) -> Pair {
        Pair { library: self.library.min(other.library), plain: self.plain.min(other.plain) }
    }

    /// How many times as long the library takes.
    pub fn ratio(&self) -> f64 {
        self.library / self.plain
    }
}

/// Times a call on both sides. `again` puts back what the call uses up; it is part of both times.
pub fn calls<Lent: Clone>(
    start: &Lent,
    again: impl Fn(&mut Lent),
    library: impl Fn(&mut Lent),
    plain: impl Fn(&mut Lent),
) -> Pair {
    let library = Side::new(start, |lent| {
        again(lent);
        library(lent);
    });
    let plain = Side::new(start, |lent| {
        again(lent);
        plain(lent);
    });
    let mut best = Pair::WORST;
    for _ in 0..ROUNDS {
        best.library = best.library.min(library.round());
        best.plain = best.plain.min(plain.round());
    }
    best
}

struct Side<'start, Lent, Run> {
    start: &'start Lent,
    run: Run,
    repeats: u32,
}

impl<'start, Lent: Clone, Run: Fn(&mut Lent)> Side<'start, Lent, Run> {
    fn new(start: &'start Lent, run: Run) -> Self {
        let mut side = Side { start, run, repeats: 1 };
        while side.time() < ROUND && side.repeats < 1 << 24 {
            side.repeats *= 2;
        }
        side
    }

    fn time(&self) -> Duration {
        let mut lent = self.start.clone();
        let begin = Instant::now();
        for _ in 0..self.repeats {
            (self.run)(black_box(&mut lent));
        }
        begin.elapsed()
    }

    /// Nanoseconds for one call.
    fn round(&self) -> f64 {
        self.time().as_nanos() as f64 / f64::from(self.repeats)
    }
}

/// Times two commands, each with a file as its last argument.
pub fn programs(library: &[&str], plain: &[&str], file: &str) -> Result<Pair, String> {
    let mut best = Pair::WORST;
    for _ in 0..RUNS {
        best.library = best.library.min(run(library, file)?);
        best.plain = best.plain.min(run(plain, file)?);
    }
    Ok(best)
}

fn run(command: &[&str], file: &str) -> Result<f64, String> {
    let begin = Instant::now();
    Command::new(command[0])
        .args(&command[1..])
        .arg(file)
        .stdout(Stdio::null())
        .status()
        .map_err(|error| format!("can't run {}: {error}", command[0]))?;
    Ok(begin.elapsed().as_nanos() as f64)
}
