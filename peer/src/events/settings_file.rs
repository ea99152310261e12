//! What can happen when settings records are shown and made.

use super::list::events;
use super::Counts;
use crate::generate::Given;
use crate::settings::{is_period, Settings, ALL_PINS, FORM, LENGTH, LONGEST_PERIOD, MARK};
use crate::settings_file::{number_of, NUMBERS};

events! {
    SettingsEvent, Given;
    Shown: "a record is shown", "r";
    ShownUsual: "document 01's settings are shown", "r";
    PeriodOne: "a period of 1 is shown or made", "rn";
    PeriodLongest: "a period of 100,000,000 is shown or made", "rn";
    OnePin: "a mask with a single pin is shown or made", "rn";
    LastPin: "a mask with pin 23 is shown or made", "rn";
    AllPins: "a mask with all pins is shown or made", "rn";
    IdFifteen: "id 15 is shown or made", "rn";
    VendorLast: "vendor 0xffff is shown or made", "rn";
    Empty: "8: an empty file", "b";
    OneShort: "8: a byte too few", "b";
    OneLong: "8: a byte too many", "b";
    LongCut: "8: a length that would be 22 with fewer bits", "b";
    Twice: "8: a record twice", "b";
    LengthAlone: "8, else good", "b";
    LengthMark: "8, and a wrong mark", "b";
    LengthForm: "8, and an unknown form", "b";
    LengthRange: "8, and a number out of range", "b";
    FirstByte: "6: the first byte alone", "b";
    SecondByte: "6: the second byte alone", "b";
    MarkForm: "6, and an unknown form", "b";
    MarkRange: "6, and a number out of range", "b";
    FormZero: "9: form 0", "b";
    FormTwo: "9: form 2", "b";
    FormRange: "9, and a number out of range", "b";
    PeriodZero: "10: a period of 0", "bn";
    PeriodPast: "10: a period of 100,000,001", "bn";
    FirstMaskZero: "10: mask 0 is 0", "bn";
    SecondMaskZero: "10: mask 1 is 0", "bn";
    ThirdMaskZero: "10: mask 2 is 0", "bn";
    FirstMaskPast: "10: mask 0 has bit 24 or above", "bn";
    SecondMaskPast: "10: mask 1 has bit 24 or above", "bn";
    ThirdMaskPast: "10: mask 2 has bit 24 or above", "bn";
    IdSixteen: "10: id 16", "bn";
    Made: "a record is made", "n";
    VendorWide: "10: a vendor of more than 16 bits", "n";
    PeriodWide: "10: a period of more than 32 bits", "n";
    MaskWide: "10: a mask of more than 32 bits", "n";
    IdWide: "10: an id of more than 8 bits", "n";
    Huge: "10: a number of more than 64 bits", "n";
    Decimal: "a decimal number", "n";
    Hexadecimal: "a hexadecimal number", "n";
    LargeDigits: "a hexadecimal number with large digits", "n";
    Zeros: "a number with zeros in front", "n";
    ManyZeros: "a number with more than 20 zeros in front", "n";
}

use SettingsEvent as Event;

impl Counts<Event> {
    /// Counts what a record that is shown has.
    pub fn watch_shown(&mut self, record: &[u8]) {
        match Settings::of_record(record) {
            Ok(settings) => {
                self.note(Event::Shown);
                self.note_if(settings == Settings::USUAL, Event::ShownUsual);
                self.watch_good(&settings);
            }
            Err(_) => self.watch_broken(record),
        }
    }

    fn watch_good(&mut self, settings: &Settings) {
        let any = |is_it: fn(u32) -> bool| settings.masks.iter().any(|&mask| is_it(mask));
        self.note_if(settings.period == 1, Event::PeriodOne);
        self.note_if(settings.period == LONGEST_PERIOD, Event::PeriodLongest);
        self.note_if(any(|mask| mask.is_power_of_two()), Event::OnePin);
        self.note_if(any(|mask| mask >> 23 != 0), Event::LastPin);
        self.note_if(any(|mask| mask == ALL_PINS), Event::AllPins);
        self.note_if(settings.id == 15, Event::IdFifteen);
        self.note_if(settings.vendor == 0xFFFF, Event::VendorLast);
    }

    fn watch_broken(&mut self, record: &[u8]) {
        let length = record.len() != LENGTH;
        let marks = record.get(..2).map(|mark| [mark[0] != MARK[0], mark[1] != MARK[1]]);
        let mark = marks.is_some_and(|marks| marks != [false; 2]);
        let form = record.get(2).is_some_and(|&form| form != FORM);
        let numbers = record.first_chunk().map(Settings::of_body);
        let range = numbers.is_some_and(|settings| !settings.are_in_range());
        if length {
            self.watch_length(record);
            self.note_if(!mark && !form && !range, Event::LengthAlone);
            self.note_if(mark, Event::LengthMark);
            self.note_if(form, Event::LengthForm);
            self.note_if(range, Event::LengthRange);
        } else if mark {
            self.note_if(marks == Some([true, false]) && !form && !range, Event::FirstByte);
            self.note_if(marks == Some([false, true]) && !form && !range, Event::SecondByte);
            self.note_if(form, Event::MarkForm);
            self.note_if(range, Event::MarkRange);
        } else if form {
            self.note_if(record[2] == 0 && !range, Event::FormZero);
            self.note_if(record[2] == 2 && !range, Event::FormTwo);
            self.note_if(range, Event::FormRange);
        } else if let Some(Settings { period, masks, id, .. }) = numbers {
            let number = |number: u32| u64::from(number);
            self.watch_out(number(period), masks.map(number), id.into());
        }
    }

    fn watch_length(&mut self, record: &[u8]) {
        self.note_if(record.is_empty(), Event::Empty);
        self.note_if(record.len() == LENGTH - 1, Event::OneShort);
        self.note_if(record.len() == LENGTH + 1, Event::OneLong);
        self.note_if(record.len() > 255 && record.len() % 256 == LENGTH, Event::LongCut);
        let (first, rest) = record.split_at(record.len() / 2);
        self.note_if(record.len() == 2 * LENGTH && first == rest, Event::Twice);
    }

    /// Numbers of which one at least is out of its range. What is counted is the only one.
    fn watch_out(&mut self, period: u64, masks: [u64; 3], id: u64) {
        let good_period = u32::try_from(period).is_ok_and(is_period);
        let bad = masks.map(|mask| mask == 0 || mask > ALL_PINS.into());
        let bad_masks = bad.iter().filter(|&&bad| bad).count();
        if bad_masks == 0 && id <= 15 {
            self.note_if(period == 0, Event::PeriodZero);
            self.note_if(period == u64::from(LONGEST_PERIOD) + 1, Event::PeriodPast);
        }
        self.note_if(id == 16 && good_period && bad_masks == 0, Event::IdSixteen);
        if bad_masks != 1 || !good_period || id > 15 {
            return;
        }
        let events = [
            [Event::FirstMaskZero, Event::FirstMaskPast],
            [Event::SecondMaskZero, Event::SecondMaskPast],
            [Event::ThirdMaskZero, Event::ThirdMaskPast],
        ];
        for (n, [zero, past]) in events.into_iter().enumerate() {
            self.note_if(masks[n] == 0, zero);
            self.note_if(masks[n] > ALL_PINS.into(), past);
        }
    }

    /// Counts what the words of a `make` have.
    pub fn watch_made(&mut self, words: &[String; NUMBERS]) {
        for word in words {
            let digits = word.strip_prefix("0x");
            self.note(if digits.is_some() { Event::Hexadecimal } else { Event::Decimal });
            let digits = digits.unwrap_or(word);
            self.note_if(
                digits.chars().any(|digit| digit.is_ascii_uppercase()),
                Event::LargeDigits,
            );
            let zeros = digits.len() - digits.trim_start_matches('0').len();
            self.note_if(zeros > 1, Event::Zeros);
            self.note_if(zeros > 20, Event::ManyZeros);
        }
        let numbers = words.each_ref().map(|word| number_of(word).expect("every word is a number"));
        self.note_if(numbers.contains(&u64::MAX), Event::Huge);
        let [vendor, period, first, second, third, id] = numbers;
        let masks = [first, second, third];
        let are_narrow = masks.iter().chain([&period]).all(|&number| u32::try_from(number).is_ok());
        let settings = Settings {
            vendor: vendor as u16,
            period: period as u32,
            masks: masks.map(|mask| mask as u32),
            id: id as u8,
        };
        if are_narrow && vendor <= 0xFFFF && id <= 0xFF && settings.are_in_range() {
            self.note(Event::Made);
            self.watch_good(&settings);
        } else {
            self.note_if(vendor > 0xFFFF, Event::VendorWide);
            self.note_if(period >> 32 != 0, Event::PeriodWide);
            self.note_if(masks.iter().any(|mask| mask >> 32 != 0), Event::MaskWide);
            self.note_if(id > 0xFF, Event::IdWide);
            if vendor <= 0xFFFF {
                self.watch_out(period, masks, id);
            }
        }
    }
}
