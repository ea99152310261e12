//! Mistakes in reading a log.

use super::{Mistake, Wrong};
use crate::log::{self, chosen_settings, records_of, Record, LONGEST, MARK};
use crate::settings::Settings;

/// The whole output of a replay with a mistake, with a settings record if there is one.
pub fn replay(record: Option<&[u8]>, log: &[u8], mistake: Mistake) -> String {
    if mistake == Mistake::TooLongBeforeSettings && log.len() > LONGEST {
        return "too long\n".to_string();
    }
    let record = record.filter(|_| mistake != Mistake::SettingsIgnored);
    match (chosen_settings(record), mistake) {
        (Ok(settings), _) => replay_with(&settings, log, mistake),
        (Err(_), Mistake::SettingsRefusedGoesOn) => replay_with(&Settings::USUAL, log, mistake),
        (Err(line), Mistake::SettingsRefusedAlone) => line.replace("settings ", ""),
        (Err(line), Mistake::SettingsRefusedReplays) => {
            line + &replay_with(&Settings::USUAL, log, mistake)
        }
        (Err(line), _) => line,
    }
}

fn replay_with(settings: &Settings, log: &[u8], mistake: Mistake) -> String {
    let mut model = Wrong::new(mistake, settings);
    let output = log::replay(&wrong_log(log, mistake), &mut model);
    damage_output(log, output, mistake)
}

/// The log as the wrong reader sees it.
fn wrong_log(log: &[u8], mistake: Mistake) -> Vec<u8> {
    match mistake {
        Mistake::BadRecordSkipped => without_bad_records(log),
        Mistake::BigEndianTicks => with_swapped_ticks(log),
        Mistake::LimitTooHigh if log.len() == LONGEST + 1 => log[..LONGEST].to_vec(),
        _ => log.to_vec(),
    }
}

fn without_bad_records(log: &[u8]) -> Vec<u8> {
    let (_, Some((_, place))) = records_of(log) else { return log.to_vec() };
    let next = (place + 1..log.len()).find(|&at| log[at..].starts_with(&MARK));
    let rest = next.map_or(&[][..], |at| &log[at..]);
    [&log[..place], rest].concat()
}

fn with_swapped_ticks(log: &[u8]) -> Vec<u8> {
    let (records, stop) = records_of(log);
    let mut swapped = Vec::new();
    for record in records {
        match record {
            Record::Advance { ticks } => Record::Advance { ticks: ticks.swap_bytes() },
            other => other,
        }
        .append_to(&mut swapped);
    }
    swapped.extend(stop.map_or(&[][..], |(_, place)| &log[place..]));
    swapped
}

/// What the wrong reader prints in another way.
fn damage_output(log: &[u8], output: String, mistake: Mistake) -> String {
    let stop = if log.len() > LONGEST { None } else { records_of(log).1 };
    let left = stop.map_or(0, |(_, place)| log.len() - place);
    let place = stop.map_or(0, |(_, place)| place);
    match mistake {
        Mistake::StrayByteIsMark if matches!(left, 1 | 2) && !MARK.starts_with(&log[place..]) => {
            output.replace("stopped 8", "stopped 6")
        }
        Mistake::KindIsShort if left == 3 => output.replace("stopped 7", "stopped 8"),
        Mistake::PlaceBehindMark if stop.is_some() => {
            output.replace(&format!(" at {place}\n"), &format!(" at {}\n", place + 2))
        }
        Mistake::EndAfterStop if stop.is_some() => {
            let records = records_of(log).0.len();
            format!("{output}end {records}\n")
        }
        Mistake::RefusalStops => up_to_refusal(&output),
        Mistake::LimitTooLow if log.len() == LONGEST => "too long\n".to_string(),
        _ => output,
    }
}

fn up_to_refusal(output: &str) -> String {
    let mut kept = String::new();
    for line in output.split_inclusive('\n') {
        kept.push_str(line);
        if line.contains("refused") {
            break;
        }
    }
    kept
}
