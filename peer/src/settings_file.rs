//! The program `settings_file`: settings records shown and made.

use std::fmt::Write;

use crate::board::Refusal;
use crate::settings::{Settings, FORM};

/// What the program leaves behind.
#[derive(Clone, PartialEq, Eq, Debug)]
pub struct Output {
    /// What it prints.
    pub text: String,
    /// What the new file has, if one is made.
    pub made: Option<Vec<u8>>,
}

/// `show [FILE]`: what is printed of a record.
pub fn show(record: &[u8]) -> String {
    match Settings::of_record(record) {
        Ok(settings) => lines_of(&settings),
        Err(refusal) => refused(refusal),
    }
}

fn lines_of(settings: &Settings) -> String {
    let Settings { vendor, period, masks, id } = settings;
    let mut text = format!("form {FORM}\nvendor 0x{vendor:04x}\nperiod {period}\n");
    for (timer, mask) in masks.iter().enumerate() {
        writeln!(text, "mask {timer} 0x{mask:08x}").expect("a string takes every line");
    }
    writeln!(text, "id {id}").expect("a string takes every line");
    text
}

fn refused(refusal: Refusal) -> String {
    format!("refused {}\n", refusal.number())
}

/// The numbers of `make`, in their order: vendor, period, three masks, id.
pub const NUMBERS: usize = 6;

/// `make VENDOR PERIOD MASK0 MASK1 MASK2 ID OUT`: no output if a word is no number at all.
pub fn make(words: &[impl AsRef<str>; NUMBERS]) -> Option<Output> {
    let mut numbers = [0; NUMBERS];
    for (number, word) in numbers.iter_mut().zip(words) {
        *number = number_of(word.as_ref())?;
    }
    Some(match settings_of(numbers) {
        Ok(settings) => {
            let record = settings.record().to_vec();
            Output { text: show(&record), made: Some(record) }
        }
        Err(refusal) => Output { text: refused(refusal), made: None },
    })
}

/// A number that is too large for its field is out of range too.
fn settings_of(
    [vendor, period, first, second, third, id]: [u64; NUMBERS],
) -> Result<Settings, Refusal> {
    let word = |number: u64| u32::try_from(number).map_err(|_| Refusal::Range);
    let settings = Settings {
        vendor: u16::try_from(vendor).map_err(|_| Refusal::Range)?,
        period: word(period)?,
        masks: [word(first)?, word(second)?, word(third)?],
        id: u8::try_from(id).map_err(|_| Refusal::Range)?,
    };
    settings.check_range()?;
    Ok(settings)
}

/// The number that decimal digits say, or hexadecimal ones behind `0x`, however many there are. Those that don't fit
/// are all the same: too large for every field.
pub fn number_of(word: &str) -> Option<u64> {
    let (digits, base) = match word.strip_prefix("0x") {
        Some(digits) => (digits, 16),
        None => (word, 10),
    };
    let is_number = !digits.is_empty() && digits.chars().all(|digit| digit.is_digit(base));
    is_number.then(|| u64::from_str_radix(digits, base).unwrap_or(u64::MAX))
}
