//! Settings with a deliberate mistake: in the reader, the writer, a lent reset, or the program `settings_file`.

mod entry;
mod mistake;
mod text;

pub use entry::{reset_board, reset_mill, write};
pub use mistake::SettingsMistake;
pub use text::{make, show};

use crate::board::{refuse_unless, Refusal};
use crate::log::{replay_from, replay_from_reset};
use crate::settings::{is_mask, is_period, Settings, FORM, LENGTH, LONGEST_PERIOD, MARK};
use SettingsMistake as Mistake;

/// The whole output of a replay whose reader has a mistake.
pub fn replay(record: &[u8], log: &[u8], mistake: Mistake) -> String {
    match read(record, mistake) {
        Ok(settings) if settings.are_in_range() => replay_from(Some(&settings.record()), log),
        // What follows from such a board nobody says.
        Ok(_) => replay_from_reset(log),
        Err(refusal) => format!("settings refused {}\n", refusal.number()),
    }
}

/// A record as a wrong reader takes it apart. What isn't there is 0.
struct Parts {
    length: bool,
    mark: bool,
    form: bool,
    range: bool,
    settings: Settings,
}

/// The reader with a mistake.
pub(super) fn read(record: &[u8], mistake: Mistake) -> Result<Settings, Refusal> {
    let parts = Parts::of(record, mistake);
    let tests = [
        (parts.length, Refusal::Short),
        (parts.mark, Refusal::Mark),
        (parts.form, Refusal::Form),
        (parts.range, Refusal::Range),
    ];
    let [length, mark, form, range] = tests;
    let order = match mistake {
        Mistake::MarkBeforeLength => [mark, length, form, range],
        Mistake::FormBeforeLength => [form, length, mark, range],
        Mistake::RangeBeforeLength => [range, length, mark, form],
        Mistake::LengthLast => [mark, form, range, length],
        Mistake::FormBeforeMark => [length, form, mark, range],
        Mistake::RangeBeforeMark => [length, range, mark, form],
        Mistake::RangeBeforeForm => [length, mark, range, form],
        _ => tests,
    };
    for (is_good, refusal) in order {
        refuse_unless(is_good, refusal)?;
    }
    Ok(parts.settings)
}

impl Parts {
    fn of(record: &[u8], mistake: Mistake) -> Parts {
        let length = match mistake {
            Mistake::LongerTaken => record.len() >= LENGTH,
            Mistake::ShorterFilled => record.len() <= LENGTH,
            Mistake::LengthEightBits => record.len() % 256 == LENGTH,
            _ => record.len() == LENGTH,
        };
        let mut bytes = [0; LENGTH];
        let there = record.len().min(LENGTH);
        bytes[..there].copy_from_slice(&record[..there]);
        let mark = match mistake {
            Mistake::FirstByteUntested => bytes[1] == MARK[1],
            Mistake::SecondByteUntested => bytes[0] == MARK[0],
            _ => bytes.starts_with(&MARK),
        };
        let form = match mistake {
            Mistake::FormUntested => true,
            Mistake::FormZeroTaken => matches!(bytes[2], 0 | FORM),
            Mistake::FormTwoTaken => matches!(bytes[2], 2 | FORM),
            _ => bytes[2] == FORM,
        };
        let settings = fields(&bytes, mistake);
        let range = mistake == Mistake::RangeUntested || are_in_range(&settings, mistake);
        Parts { length, mark, form, range, settings }
    }
}

/// The numbers of a record, in the places where the mistake has them.
fn fields(record: &[u8; LENGTH], mistake: Mistake) -> Settings {
    let body = record.last_chunk::<19>().expect("a record is longer");
    let mut moved = *record;
    match mistake {
        Mistake::PeriodFirst => {
            moved[3..5].copy_from_slice(&body[4..6]);
            moved[5..9].copy_from_slice(&body[..4]);
        }
        Mistake::IdFirst => {
            moved[21] = body[6];
            moved[9..21].copy_from_slice(&body[7..]);
        }
        _ => {}
    }
    swapped(Settings::of_body(&moved), mistake)
}

/// What a wrong order of bytes or masks makes of settings, and back.
fn swapped(mut settings: Settings, mistake: Mistake) -> Settings {
    match mistake {
        Mistake::BigEndianVendor => settings.vendor = settings.vendor.swap_bytes(),
        Mistake::BigEndianPeriod => settings.period = settings.period.swap_bytes(),
        Mistake::BigEndianMasks => settings.masks = settings.masks.map(u32::swap_bytes),
        Mistake::MasksReversed => settings.masks.reverse(),
        _ => {}
    }
    settings
}

/// The record that a wrong order of fields makes.
fn record_of(settings: &Settings, mistake: Mistake) -> [u8; LENGTH] {
    let right = swapped(*settings, mistake).record();
    let mut record = right;
    match mistake {
        Mistake::PeriodFirst => {
            record[3..7].copy_from_slice(&right[5..9]);
            record[7..9].copy_from_slice(&right[3..5]);
        }
        Mistake::IdFirst => {
            record[9] = right[21];
            record[10..].copy_from_slice(&right[9..21]);
        }
        _ => {}
    }
    record
}

fn are_in_range(settings: &Settings, mistake: Mistake) -> bool {
    let Settings { vendor, period, masks, id } = *settings;
    let good_period = match mistake {
        Mistake::PeriodZeroTaken => period <= LONGEST_PERIOD,
        Mistake::PeriodPastTaken => is_period(period) || period == LONGEST_PERIOD + 1,
        Mistake::PeriodOneRefused => is_period(period) && period != 1,
        Mistake::LongestPeriodRefused => is_period(period) && period != LONGEST_PERIOD,
        _ => is_period(period),
    };
    let good_mask = |&mask: &u32| match mistake {
        Mistake::MaskZeroTaken => mask == 0 || is_mask(mask),
        Mistake::MaskPastTaken => mask == 1 << 24 || is_mask(mask),
        Mistake::HighMaskTaken => mask != 0,
        Mistake::LastPinRefused => is_mask(mask) && mask >> 23 == 0,
        _ => is_mask(mask),
    };
    let tested = if mistake == Mistake::FirstMaskTested { &masks[..1] } else { &masks[..] };
    let good_id = match mistake {
        Mistake::IdSixteenTaken => id <= 16,
        Mistake::IdFifteenRefused => id < 15,
        _ => id <= 15,
    };
    let good_vendor = match mistake {
        Mistake::VendorZeroRefused => vendor != 0,
        Mistake::VendorTested => vendor == Settings::USUAL.vendor,
        _ => true,
    };
    good_period && tested.iter().all(good_mask) && good_id && good_vendor
}
