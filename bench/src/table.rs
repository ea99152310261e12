//! The table, and the limits that are read off it.

use crate::rows::{Taker, ADVANCE_BUSY, ADVANCE_IDLE, ADVANCE_ONE};
use crate::rows::{MILL, PLAIN, PLAIN_TICKS, SALVAGE, SALVAGE_DAMAGE, SALVAGE_SOUND};
use crate::time::{self, Pair};

/// The rows so far, printed as they come.
pub struct Table {
    calls: Vec<(&'static str, Pair)>,
}

impl Taker for Table {
    fn take<Lent: Clone>(
        &mut self,
        name: &'static str,
        start: &Lent,
        again: impl Fn(&mut Lent),
        library: impl Fn(&mut Lent),
        plain: impl Fn(&mut Lent),
    ) {
        let pair = time::calls(start, again, library, plain);
        self.print(name, pair);
        self.calls.push((name, pair));
    }
}

impl Table {
    /// Prints the head.
    pub fn new() -> Table {
        println!(
            "| {:<56} | {:>11} | {:>11} | {:>5} |",
            "best time", "library, ns", "plain, ns", "ratio"
        );
        println!("|:{:-<56}-|-{:->11}:|-{:->11}:|-{:->5}:|", "", "", "", "");
        Table { calls: Vec::new() }
    }

    /// Prints a row.
    pub fn print(&self, name: &str, pair: Pair) {
        let Pair { library, plain } = pair;
        println!("| {name:<56} | {library:>11.1} | {plain:>11.1} | {:>5.2} |", pair.ratio());
    }

    fn pair(&self, name: &str) -> Pair {
        let row = self.calls.iter().find(|(other, _)| *other == name);
        row.expect("the row was timed").1
    }

    /// Says which limits hold; answers whether all do.
    pub fn check_limits(&self) -> bool {
        println!();
        self.print_ticks();
        let [idle, busy] = advance_limits(|name| self.pair(name).library);
        let of_the_board =
            |name: &str| ![MILL, SALVAGE, PLAIN].iter().any(|of| name.starts_with(of));
        let (name, ratio) = self.slowest(of_the_board);
        let plain = limit(&format!("call slowest against plain Rust ({name})"), ratio, 2.0);
        let (name, ratio) = self.slowest(|name| [SALVAGE_SOUND, SALVAGE_DAMAGE].contains(&name));
        let salvage = limit(&format!("slower salvage against plain Rust ({name})"), ratio, 2.0);
        let (name, ratio) = self.slowest(|name| name.starts_with(PLAIN));
        let engine = limit(&format!("slower plain engine against plain Rust ({name})"), ratio, 2.0);
        let (name, ratio) = self.slowest(|name| name.starts_with(MILL));
        println!("no limit: call of the mill slowest against plain Rust ({name}): {ratio:.2}");
        sum_up(&[idle, busy, plain, salvage, engine])
    }

    /// What a tick of the plain engine takes, and a full advance at that pace.
    fn print_ticks(&self) {
        for (name, ticks) in PLAIN_TICKS {
            let Pair { library, plain } = self.pair(name);
            let (library, plain) = (library / f64::from(ticks), plain / f64::from(ticks));
            let full = library * f64::from(u32::MAX) / 1e9;
            println!("{name}: {library:.2} ns a tick, plain Rust {plain:.2}; 4,294,967,295 ticks: {full:.0} s");
        }
    }

    /// The slowest against plain Rust among some of the rows.
    fn slowest(&self, among: impl Fn(&str) -> bool) -> (&'static str, f64) {
        let rows = self.calls.iter().filter(|(name, _)| among(name));
        let ratios = rows.map(|(name, pair)| (*name, pair.ratio()));
        ratios.max_by(|a, b| a.1.total_cmp(&b.1)).expect("there are rows")
    }
}

/// The advances alone. A row that comes again keeps its best times.
pub struct Advances {
    best: [(&'static str, Pair); 3],
}

impl Taker for Advances {
    fn take<Lent: Clone>(
        &mut self,
        name: &'static str,
        start: &Lent,
        again: impl Fn(&mut Lent),
        library: impl Fn(&mut Lent),
        plain: impl Fn(&mut Lent),
    ) {
        if let Some((_, best)) = self.best.iter_mut().find(|(row, _)| *row == name) {
            *best = best.better(time::calls(start, again, library, plain));
        }
    }
}

impl Advances {
    /// Nothing timed yet.
    pub fn new() -> Advances {
        Advances { best: [ADVANCE_ONE, ADVANCE_IDLE, ADVANCE_BUSY].map(|row| (row, Pair::WORST)) }
    }

    /// Prints the rows, and says which of the two limits hold; answers whether both do.
    pub fn check_limits(&self) -> bool {
        let table = Table::new();
        for (name, pair) in self.best {
            table.print(name, pair);
        }
        println!();
        sum_up(&advance_limits(|name| {
            let row = self.best.iter().find(|(row, _)| *row == name);
            row.expect("it is one of the three").1.library
        }))
    }
}

/// The two limits on the library's advances, from their times by name.
fn advance_limits(time: impl Fn(&str) -> f64) -> [bool; 2] {
    let one = time(ADVANCE_ONE);
    let (idle, busy) = (time(ADVANCE_IDLE) / one, time(ADVANCE_BUSY) / one);
    [
        limit("full advance with nothing due, over advance by 1", idle, 1.5),
        limit("full advance with 3 x 4,294,967,295 firings, over it", busy, 10.0),
    ]
}

/// Prints how many hold; answers whether all do.
fn sum_up(limits: &[bool]) -> bool {
    let holding = limits.iter().filter(|&&holds| holds).count();
    println!("{holding} passed, {} failed", limits.len() - holding);
    holding == limits.len()
}

fn limit(name: &str, ratio: f64, most: f64) -> bool {
    let holds = ratio <= most;
    let word = if holds { "holds" } else { "DOES NOT HOLD" };
    println!("{word}: {name}: {ratio:.2}, at most {most}");
    holds
}
