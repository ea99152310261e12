//! `salvage-check`: the library's lent entry for salvage against the second model, call by call: the answer,
//! every byte of the log and of both buffers, and the bytes around them.

mod counts;

use std::process::ExitCode;

use counts::Counts;
use lent::check::Tally;
use lent::guarded::Guarded;
use peer::abi::salvage::Salvaged;
use peer::sequence::salvage::{Lending, Maker, Returned};

/// How many calls are compared, unless told otherwise.
const CALLS: u64 = 200_000;

const HELP: &str = "\
salvage-check [--seed N] [--calls N]

Compares the library's lent entry for salvage with the second model: damaged logs of every sort, with
buffers that are just long enough, longer, one too short, empty, and of an odd length. The answer,
every byte of the log and of both buffers and the bytes around them have to agree, and everything
that is counted has to come. The last line is `N passed, M failed`, in calls.
";

fn main() -> ExitCode {
    lent::check::run("salvage-check", HELP, CALLS, check)
}

fn check(seed: u64, calls: u64) -> ExitCode {
    let (mut tally, mut counts) = (Tally::default(), Counts::new());
    let mut maker = Maker::new(seed);
    while tally.goes_on(calls) {
        for (number, lending) in maker.round().iter().enumerate() {
            let right = lending.right();
            counts.note(lending, &right);
            compare(lending, &right, number, &mut tally);
        }
    }
    tally.report(&counts.rows())
}

/// Makes one call. Its number decides where the bytes lie.
fn compare(lending: &Lending, right: &Returned, number: usize, tally: &mut Tally) {
    let mut log = Guarded::new(&lending.log, 0xA5, number % 8);
    let mut kept = Guarded::new(&lending.kept, 0x5A, number / 8 % 8);
    let mut list = Guarded::new(&lending.list, 0xA5A5_5A5A_C3C3_3C3C, 0);
    let answer = lent::salvage(log.lent(), kept.lent(), list.lent());
    let differences = [
        ("the log", log.difference(&lending.log)),
        ("the records", kept.difference(&right.kept)),
        ("the list", list.difference(&right.list)),
    ];
    let agrees = answer == right.answer && differences.iter().all(|(_, place)| place.is_none());
    tally.judge(agrees, || show(lending, right, answer, &differences));
}

fn show(
    lending: &Lending,
    right: &Returned,
    answer: Salvaged,
    differences: &[(&str, Option<String>)],
) {
    let Lending { damage, room, log, kept, list } = lending;
    println!("{damage:?} log of {} bytes, {}:", log.len(), room.text());
    println!("  room for {} bytes and {} numbers", kept.len(), list.len());
    if log.len() <= 400 {
        println!("  {log:02X?}");
    }
    println!("  wanted {:?}", right.answer);
    println!("  given  {answer:?}");
    for (what, place) in differences {
        place.iter().for_each(|place| println!("  {what}: {place}"));
    }
}
