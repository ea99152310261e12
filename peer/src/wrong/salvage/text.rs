//! The program with a mistake.

use super::{Found, Mistake};
use crate::log::LONGEST as LONGEST_REPLAY;
use crate::salvage::{Output, HEADING, LONGEST};

/// What the program prints and makes of a log.
pub fn output(log: &[u8], mistake: Mistake) -> Output {
    let longest = match mistake {
        Mistake::LimitOfReplay => LONGEST_REPLAY,
        Mistake::LimitTooLow => LONGEST - 1,
        Mistake::LimitTooHigh => LONGEST + 1,
        _ => LONGEST,
    };
    if log.len() > longest {
        return too_long(log, mistake);
    }
    let found = Found::new(log, mistake);
    let none = found.records.is_empty();
    let skipped: String = found.stretches.iter().map(line).collect();
    let counted =
        if mistake == Mistake::RecordsAreBytes { found.bytes.len() } else { found.records.len() };
    let (heading, kept) = (format!("{HEADING}\n"), format!("kept {counted}\n"));
    let text = match mistake {
        Mistake::SoundNoHeading if skipped.is_empty() => kept,
        Mistake::NoneNoHeading if none => skipped + &kept,
        Mistake::NoneNotCounted if none => heading + &skipped,
        Mistake::KeptFirst => heading + &kept + &skipped,
        _ => heading + &skipped + &kept,
    };
    let made = (mistake != Mistake::NoneNotMade || !none).then_some(found.bytes);
    Output { text, made }
}

fn too_long(log: &[u8], mistake: Mistake) -> Output {
    match mistake {
        Mistake::TooLongCut => output(&log[..LONGEST], mistake),
        _ => {
            let made = (mistake == Mistake::TooLongMakes).then(Vec::new);
            Output { text: "too long\n".to_string(), made }
        }
    }
}

fn line([offset, length]: &[u64; 2]) -> String {
    format!("skipped {length} at {offset}\n")
}
