//! Times the library's calls through the lent entry, and its replay, beside plain Rust.
//!
//! One run, best of several rounds, both sides in turn. It checks the limits that the project
//! has set itself and says which hold.

mod counts;
mod plain;
mod rows;
mod table;
mod time;

use std::fmt::Debug;
use std::io::Write;
use std::process::ExitCode;

use peer::abi::plain::PlainCall;
use peer::abi::{Board, Call, Reply};
use peer::board;
use peer::generate::{self, random_board, Profile};
use peer::log::{records_of, replay, Record, LONGEST};
use peer::random::Random;
use peer::sequence::{mill, salvage};
use rows::Taker;
use table::{Advances, Table};

const HELP: &str = "\
bench
    Times the library's calls and its replay beside plain Rust: one table, then the limits.
bench limits
    Times the advances alone, for some seconds, and checks only the two limits that compare the
    library with itself: they hold on every machine. The ratios to plain Rust are shown.
bench counts
    Counts the instructions of the same calls with valgrind's callgrind: one table.
bench once SIDE CALL
    Makes one call of the table 1,000 times, a salvage or an advance of the plain engine 10 times,
    for a profiler. SIDE is library or plain; CALL is the row's name.
bench replay FILE
    Replays a log with the plain calls; the table times the library's program beside it.

NATAQVOJU_LIB_DIR, when this is built, names the folder that has libnataqvoju.a,
libnataqvoju_mill.a, libnataqvoju_salvage.a and libnataqvoju_plain.a;
NATAQVOJU_REPLAY names the program that replays a log, and NATAQVOJU_PEER the second program
(without it, the one that is built beside this package).
Exit status: 0 all limits hold, 1 some don't, 2 something is missing.
";

/// How often `limits` times the advances, one after the other; the best counts.
const SWEEPS: u32 = 10;

fn main() -> ExitCode {
    let words: Vec<String> = std::env::args().skip(1).collect();
    let words: Vec<&str> = words.iter().map(String::as_str).collect();
    let result = match words.as_slice() {
        [] => measure(),
        ["limits"] => limits(),
        ["counts"] => counts::print().map(|()| true),
        ["once", side @ ("library" | "plain"), name] => once(*side == "library", name),
        ["replay", file] => replay_plainly(file),
        _ => {
            print!("{HELP}");
            Ok(true)
        }
    };
    match result {
        Ok(true) => ExitCode::SUCCESS,
        Ok(false) => ExitCode::FAILURE,
        Err(message) => {
            eprintln!("bench: {message}");
            ExitCode::from(2)
        }
    }
}

fn measure() -> Result<bool, String> {
    let program = std::env::var("NATAQVOJU_REPLAY")
        .map_err(|_| "NATAQVOJU_REPLAY isn't set; it names the program that replays a log")?;
    check_plain()?;
    let mut table = Table::new();
    rows::each(&mut table);
    time_replays(&table, &program)?;
    Ok(table.check_limits())
}

fn limits() -> Result<bool, String> {
    check_plain()?;
    let mut advances = Advances::new();
    for _ in 0..SWEEPS {
        rows::each(&mut advances);
    }
    Ok(advances.check_limits())
}

/// Plain Rust and the library have to do the same as the model, or the times say nothing.
fn check_plain() -> Result<(), String> {
    on_random_calls(u32::MAX, |before, call, after| {
        agree("plain Rust", before, after, call, plain::call)?;
        agree("the library", before, after, call, lent::call)
    })?;
    // These two walk, so the advances are short.
    on_random_calls(1_000, |before, call, after| {
        let call = PlainCall::new(call);
        agree("plain Rust's plain engine", before, after, call, plain::plain)?;
        agree("the library's plain engine", before, after, call, lent::plain)
    })?;
    for step in mill::Maker::new(7).round().iter().flat_map(mill::Sequence::steps) {
        let (mut plain, mut library, call) = (step.before, step.before, step.call);
        if plain::mill(&mut plain, call) != step.reply || plain != step.after {
            return Err(format!("plain Rust answers {call:?} wrongly"));
        }
        if lent::mill(&mut library, call) != step.reply || library != step.after {
            return Err(format!("the library answers {call:?} wrongly; run mill-check"));
        }
    }
    check_salvages()
}

/// The calls of 60 random logs, with no longer advances than this, each with the board before it and
/// what the model makes of it.
fn on_random_calls(
    most_ticks: u32,
    check: impl Fn(Board, Call, (Reply, Board)) -> Result<(), String>,
) -> Result<(), String> {
    let mut random = Random::new(7);
    for number in 0..60 {
        let mut board = if number % 2 == 0 {
            Board::from(&board::Board::RESET)
        } else {
            Board::from(&random_board(&mut random))
        };
        let profile = Profile::ALL[number as usize % 4];
        for record in records_of(&generate::log(profile, 7, number)).0 {
            let call = match Call::from(record) {
                Call::Advance { ticks } => Call::Advance { ticks: ticks.min(most_ticks) },
                other => other,
            };
            let before = board;
            let reply = call.answer(&mut board);
            check(before, call, (reply, board))?;
        }
    }
    Ok(())
}

fn agree<Asked: Copy + Debug>(
    side: &str,
    mut board: Board,
    after: (Reply, Board),
    call: Asked,
    make: impl Fn(&mut Board, Asked) -> Reply,
) -> Result<(), String> {
    if (make(&mut board, call), board) == after {
        Ok(())
    } else {
        Err(format!("{side} answers {call:?} wrongly; lent-check says more of the library"))
    }
}

fn check_salvages() -> Result<(), String> {
    let rows = rows::salvages().map(|(_, lending)| lending);
    for lending in salvage::Maker::new(7).round().into_iter().chain(rows) {
        let right = lending.right();
        if lending.ask(plain::salvage) != right {
            return Err("plain Rust salvages wrongly".to_string());
        }
        let library = |log: &[u8], kept: &mut [u8], list: &mut [u64]| {
            lent::salvage(&mut log.to_vec(), kept, list)
        };
        if lending.ask(library) != right {
            return Err("the library salvages wrongly; run salvage-check".to_string());
        }
    }
    Ok(())
}

fn once(library: bool, name: &str) -> Result<bool, String> {
    let mut once = Once { library, name, found: false };
    rows::each(&mut once);
    if once.found {
        Ok(true)
    } else {
        Err(format!("no call is named {name}; the table has the names"))
    }
}

/// Makes one row's call over and over.
struct Once<'name> {
    library: bool,
    name: &'name str,
    found: bool,
}

impl Taker for Once<'_> {
    fn take<Lent: Clone>(
        &mut self,
        name: &'static str,
        start: &Lent,
        again: impl Fn(&mut Lent),
        library: impl Fn(&mut Lent),
        plain: impl Fn(&mut Lent),
    ) {
        if name != self.name {
            return;
        }
        self.found = true;
        let mut lent = start.clone();
        for _ in 0..rows::times(name) {
            again(&mut lent);
            if self.library {
                library(&mut lent);
            } else {
                plain(&mut lent);
            }
        }
    }
}

fn replay_plainly(file: &str) -> Result<bool, String> {
    let log = std::fs::read(file).map_err(|error| format!("can't read {file}: {error}"))?;
    let output = replay(&log, &mut plain::Plain::new());
    std::io::stdout()
        .write_all(output.as_bytes())
        .map_err(|error| format!("can't write the output: {error}"))?;
    Ok(true)
}

fn time_replays(table: &Table, program: &str) -> Result<(), String> {
    let peer = std::env::var("NATAQVOJU_PEER").unwrap_or_else(|_| {
        concat!(env!("CARGO_MANIFEST_DIR"), "/../peer/target/release/peer").to_string()
    });
    let own = std::env::current_exe().map_err(|error| format!("can't find itself: {error}"))?;
    let own = own.to_string_lossy();
    let file = std::env::temp_dir().join(format!("bench-{}.log", std::process::id()));
    let path = file.to_string_lossy();
    for (name, log) in [("deliveries", deliveries()), ("mixed", mixed())] {
        std::fs::write(&file, log).map_err(|error| format!("can't write {path}: {error}"))?;
        for (side, plain) in [("plain Rust", &*own), ("the second program", &*peer)] {
            let pair = time::programs(&[program], &[plain, "replay"], &path)?;
            table.print(&format!("replay, 64 KiB, {name}, beside {side}"), pair);
        }
    }
    std::fs::remove_file(&file).map_err(|error| format!("can't remove {path}: {error}"))
}

/// As many delivery steps as a log can have: 21,845.
fn deliveries() -> Vec<u8> {
    let mut log = Vec::new();
    while log.len() + 3 <= LONGEST {
        Record::Deliver.append_to(&mut log);
    }
    log
}

/// A random log of all kinds of records, nearly as long.
fn mixed() -> Vec<u8> {
    (0..)
        .map(|number| generate::log(Profile::Valid, 7, number))
        .find(|log| log.len() > LONGEST - 5_000)
        .expect("some logs are long")
}
