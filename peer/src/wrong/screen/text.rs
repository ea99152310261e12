//! The program `screen` with a mistake.

use super::{Mistake, WrongMill};
use crate::board::Board;
use crate::log::{chosen_settings, replay_from, LONGEST};
use crate::mill::Mill;
use crate::screen::{pin_of, screen};
use crate::settings::Settings;

/// The whole output for a pin and a log, with a settings record if there is one.
pub fn output(record: Option<&[u8]>, pin: &str, log: &[u8], mistake: Mistake) -> String {
    let number = wrong_pin(pin, mistake);
    let settings = match (chosen_settings(record), mistake) {
        (Ok(settings), _) => settings,
        (Err(_), Mistake::PinBeforeSettings) if number > 23 => return "refused 3\n".to_string(),
        (Err(_), Mistake::TooLongBeforeSettings) if log.len() > LONGEST => {
            return "too long\n".to_string();
        }
        (Err(_), Mistake::RefusedSettingsGoOn) => Settings::USUAL,
        (Err(line), _) => return line,
    };
    if mistake == Mistake::TooLongFirst && log.len() > LONGEST {
        return "too long\n".to_string();
    }
    let board = Board::reset_to(&settings);
    let mut mill = WrongMill::new(mistake, Mill { board, screen: None });
    let right = screen(number, log, &mut mill);
    match mistake {
        Mistake::RefusedGoesOn if right == "refused 3\n" => replay_from(record, log),
        Mistake::TellingSilent => match right.split_once('\n') {
            Some((first, rest)) if first.starts_with("screen") => rest.to_string(),
            _ => right,
        },
        Mistake::WordBefore => words_before(&right),
        Mistake::WordAfterEach => words_after_each(&right),
        _ => right,
    }
}

fn wrong_pin(pin: &str, mistake: Mistake) -> u64 {
    let number = pin_of(pin).expect("every case has a number for its pin");
    match mistake {
        Mistake::PinWraps => pin.bytes().fold(0, |number: u64, digit| {
            number.wrapping_mul(10).wrapping_add(u64::from(digit - b'0'))
        }),
        Mistake::ZerosRefused if pin.len() > number.to_string().len() => 24,
        _ => number,
    }
}

/// Each word but the first changes its place with the line before it.
fn words_before(right: &str) -> String {
    let mut lines: Vec<&str> = right.split_inclusive('\n').collect();
    for place in 2..lines.len() {
        if lines[place].starts_with("screen") {
            lines.swap(place - 1, place);
        }
    }
    lines.concat()
}

/// The word after every record, changed or not.
fn words_after_each(right: &str) -> String {
    let mut lines = String::new();
    let mut word = "";
    for line in right.split_inclusive('\n') {
        if line.starts_with("screen") {
            word = line;
        } else {
            lines.push_str(word);
            lines.push_str(line);
        }
    }
    lines
}
