//! Instruction counts of the rows, by callgrind. Unlike times they repeat on any machine.

use std::process::Command;

use crate::rows::{self, Taker};

/// Counts every row on both sides and prints a table.
pub fn print() -> Result<(), String> {
    let mut names = Names(Vec::new());
    rows::each(&mut names);
    println!("| {:<55} | {:>8} | {:>8} | {:>5} |", "instructions", "library", "plain", "ratio");
    println!("|:{:-<55}-|-{:->8}:|-{:->8}:|-{:->5}:|", "", "", "", "");
    for name in names.0 {
        let library = count("library", name)?;
        let plain = count("plain", name)?;
        let ratio = library as f64 / plain as f64;
        println!("| {name:<55} | {library:>8} | {plain:>8} | {ratio:>5.2} |");
    }
    Ok(())
}

/// Collects the rows' names.
struct Names(Vec<&'static str>);

impl Taker for Names {
    fn take<Lent: Clone>(
        &mut self,
        name: &'static str,
        _: &Lent,
        _: impl Fn(&mut Lent),
        _: impl Fn(&mut Lent),
        _: impl Fn(&mut Lent),
    ) {
        self.0.push(name);
    }
}

/// Instructions of one call. A row's name starts with the name of its function.
fn count(side: &str, name: &str) -> Result<u64, String> {
    let function = name.split([' ', ',']).next().unwrap_or(name);
    let symbol = match side {
        "library" => format!("nataqvoju_{function}"),
        _ => format!("bench::plain::{function}"),
    };
    let own = std::env::current_exe().map_err(|error| format!("can't find itself: {error}"))?;
    let output = Command::new("valgrind")
        .args(["--tool=callgrind", "--callgrind-out-file=/dev/null"])
        .arg(format!("--toggle-collect={symbol}"))
        .arg(own)
        .args(["once", side, name])
        .output()
        .map_err(|error| format!("can't run valgrind: {error}"))?;
    let report = String::from_utf8_lossy(&output.stderr);
    collected(&report)
        .map(|all| all / u64::from(rows::times(name)))
        .ok_or_else(|| format!("valgrind counted nothing for {symbol}:\n{report}"))
}

/// The number in valgrind's line `Collected : N`.
fn collected(report: &str) -> Option<u64> {
    let line = report.lines().find(|line| line.contains("Collected :"))?;
    let number = line.rsplit(' ').next()?.parse().ok()?;
    (number > 0).then_some(number)
}
