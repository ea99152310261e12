//! The settings of a mill, and the record in which they are stored.

use crate::board::{refuse_unless, Refusal};
use crate::pin::PINS;
use crate::timers::TIMERS;

/// The two bytes that a record starts with.
pub const MARK: [u8; 2] = [0x5A, 0xC3];
/// The form that there is.
pub const FORM: u8 = 1;
/// How many bytes a record has.
pub const LENGTH: usize = 22;

/// The longest tick period, in femtoseconds.
pub const LONGEST_PERIOD: u32 = 100_000_000;
/// A route mask with every pin.
pub const ALL_PINS: u32 = (1 << PINS) - 1;
/// The greatest controller id.
pub const GREATEST_ID: u8 = 15;

/// What a mill's board is set to.
#[derive(Clone, Copy, PartialEq, Eq, Debug)]
pub struct Settings {
    /// The vendor that the capability register shows.
    pub vendor: u16,
    /// The tick period that it shows, in femtoseconds.
    pub period: u32,
    /// For each timer the pins that it can be routed to.
    pub masks: [u32; TIMERS],
    /// The controller's id after a reset.
    pub id: u8,
}

/// A tick period that a board can have.
pub fn is_period(period: u32) -> bool {
    (1..=LONGEST_PERIOD).contains(&period)
}

/// A route mask that a timer can have.
pub fn is_mask(mask: u32) -> bool {
    mask != 0 && mask & !ALL_PINS == 0
}

impl Settings {
    /// Document 01's.
    pub const USUAL: Settings =
        Settings { vendor: 0x8086, period: LONGEST_PERIOD, masks: [ALL_PINS; TIMERS], id: 0 };

    /// Every number is in its range; any vendor is.
    pub fn are_in_range(&self) -> bool {
        is_period(self.period)
            && self.masks.iter().all(|&mask| is_mask(mask))
            && self.id <= GREATEST_ID
    }

    /// Refused with 10 if some number isn't.
    pub fn check_range(&self) -> Result<(), Refusal> {
        refuse_unless(self.are_in_range(), Refusal::Range)
    }

    /// Takes a record apart. Its length is tested first, then mark, form and numbers.
    pub fn of_record(record: &[u8]) -> Result<Settings, Refusal> {
        let record: &[u8; LENGTH] = record.try_into().map_err(|_| Refusal::Short)?;
        refuse_unless(record.starts_with(&MARK), Refusal::Mark)?;
        refuse_unless(record[2] == FORM, Refusal::Form)?;
        let settings = Settings::of_body(record);
        settings.check_range()?;
        Ok(settings)
    }

    /// The numbers of a record, whatever they are.
    pub fn of_body(record: &[u8; LENGTH]) -> Settings {
        let word = |place: usize| u32::from_le_bytes([0, 1, 2, 3].map(|byte| record[place + byte]));
        Settings {
            vendor: u16::from_le_bytes([record[3], record[4]]),
            period: word(5),
            masks: [word(9), word(13), word(17)],
            id: record[21],
        }
    }

    /// The reader: what it answers, and settings in every case. Refused, they are document 01's.
    pub fn read(record: &[u8]) -> (Result<(), Refusal>, Settings) {
        match Settings::of_record(record) {
            Ok(settings) => (Ok(()), settings),
            Err(refusal) => (Err(refusal), Settings::USUAL),
        }
    }

    /// The record, whether or not the numbers are in range.
    pub fn record(&self) -> [u8; LENGTH] {
        let mut record = Vec::with_capacity(LENGTH);
        record.extend(MARK);
        record.push(FORM);
        record.extend(self.vendor.to_le_bytes());
        record.extend(self.period.to_le_bytes());
        for mask in self.masks {
            record.extend(mask.to_le_bytes());
        }
        record.push(self.id);
        record.try_into().expect("the fields have 22 bytes")
    }

    /// The writer: fills a lent buffer of exactly a record's length. Refused, the buffer stays.
    pub fn write(&self, buffer: &mut [u8]) -> Result<(), Refusal> {
        self.check_range()?;
        refuse_unless(buffer.len() == LENGTH, Refusal::Short)?;
        buffer.copy_from_slice(&self.record());
        Ok(())
    }
}
