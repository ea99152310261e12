//! The program `settings_file` with a mistake.

use super::{are_in_range, read, record_of, Mistake};
use crate::board::Refusal;
use crate::settings::{Settings, FORM};
use crate::settings_file::{self, number_of, Output, NUMBERS};

/// What `show` prints of a record.
pub fn show(record: &[u8], mistake: Mistake) -> String {
    match read(record, mistake) {
        Ok(settings) => lines_of(&settings, mistake),
        Err(refusal) => {
            let line = format!("refused {}\n", refusal.number());
            match mistake {
                Mistake::RefusedShows => line + &lines_of(&Settings::USUAL, mistake),
                Mistake::SettingsRefused => format!("settings {line}"),
                _ => line,
            }
        }
    }
}

fn lines_of(settings: &Settings, mistake: Mistake) -> String {
    let Settings { vendor, period, masks, id } = settings;
    let form = format!("form {FORM}\n");
    let vendor = match mistake {
        Mistake::VendorDecimal => format!("vendor {vendor}\n"),
        Mistake::VendorUnpadded => format!("vendor 0x{vendor:x}\n"),
        _ => format!("vendor 0x{vendor:04x}\n"),
    };
    let period = match mistake {
        Mistake::PeriodHexadecimal => format!("period 0x{period:08x}\n"),
        _ => format!("period {period}\n"),
    };
    let masks = masks.iter().enumerate().map(|(n, mask)| match mistake {
        Mistake::MaskSixDigits => format!("mask {n} 0x{mask:06x}\n"),
        Mistake::MaskLargeDigits => format!("mask {n} 0x{mask:08X}\n"),
        Mistake::MasksFromOne => format!("mask {} 0x{mask:08x}\n", n + 1),
        _ => format!("mask {n} 0x{mask:08x}\n"),
    });
    let masks: String = masks.collect();
    let id = match mistake {
        Mistake::IdHexadecimal => format!("id 0x{id:02x}\n"),
        _ => format!("id {id}\n"),
    };
    match mistake {
        Mistake::FormLast => vendor + &period + &masks + &id + &form,
        _ => form + &vendor + &period + &masks + &id,
    }
}

/// What `make` prints and makes.
pub fn make(words: &[String; NUMBERS], mistake: Mistake) -> Output {
    let numbers = words.each_ref().map(|word| wrong_number(word, mistake));
    let settings = settings_of(numbers, mistake).filter(|settings| are_in_range(settings, mistake));
    let Some(settings) = settings else {
        let made = match mistake {
            Mistake::RefusedMakes => Some(Settings::USUAL.record().to_vec()),
            Mistake::RefusedMakesEmpty => Some(Vec::new()),
            _ => None,
        };
        return Output { text: format!("refused {}\n", Refusal::Range.number()), made };
    };
    let mut made = record_of(&settings, mistake).to_vec();
    // What `show` says of it, with the right reader: the record is what is wrong.
    let mut text = match settings_file::show(&made) {
        text if text.starts_with("refused") => text,
        _ => lines_of(&swapped_back(&made), mistake),
    };
    match mistake {
        Mistake::MakeSilent => text.clear(),
        Mistake::MakeOthers => made = Settings::USUAL.record().to_vec(),
        Mistake::MakeLonger => made.push(0),
        _ => {}
    }
    Output { text, made: Some(made) }
}

fn swapped_back(made: &[u8]) -> Settings {
    Settings::of_record(made).expect("the record is shown")
}

fn wrong_number(word: &str, mistake: Mistake) -> u64 {
    let hexadecimal = word.strip_prefix("0x");
    let (digits, base) = (hexadecimal.unwrap_or(word), if hexadecimal.is_some() { 16 } else { 10 });
    let wrapped = |base: u64| {
        digits.chars().fold(0, |number: u64, digit| {
            let digit = digit.to_digit(16).expect("every word is a number");
            number.wrapping_mul(base).wrapping_add(digit.into())
        })
    };
    let has_large = digits.chars().any(|digit| digit.is_ascii_uppercase());
    match mistake {
        Mistake::HugeWraps => wrapped(base),
        Mistake::ZerosOctal if base == 10 && digits.len() > 1 && digits.starts_with('0') => {
            wrapped(8)
        }
        Mistake::LargeDigitsRefused if has_large => u64::MAX,
        _ => number_of(word).expect("every word is a number"),
    }
}

fn settings_of(numbers: [u64; NUMBERS], mistake: Mistake) -> Option<Settings> {
    let [vendor, period, first, second, third, id] = numbers;
    let all = mistake == Mistake::TooLargeCut;
    let word = |number: u64| if all { Some(number as u32) } else { u32::try_from(number).ok() };
    let cuts_vendor = all || mistake == Mistake::VendorCut;
    let cuts_id = all || mistake == Mistake::IdCut;
    Some(Settings {
        vendor: if cuts_vendor { vendor as u16 } else { u16::try_from(vendor).ok()? },
        period: word(period)?,
        masks: [word(first)?, word(second)?, word(third)?],
        id: if cuts_id { id as u8 } else { u8::try_from(id).ok()? },
    })
}
