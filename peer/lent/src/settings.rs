//! What has to come of settings (K6): calls on boards that have some, boards that are refused with 5 for theirs alone,
//! and resets with a record.

use peer::abi::mill::Mill;
use peer::abi::settings::Resettable;
use peer::abi::{Board, Call};
use peer::board::TIMER_BLOCK;
use peer::sequence::settings::Resetting;
use peer::sequence::{broken, SETTINGS_CLAUSES};
use peer::settings::{Settings, ALL_PINS, LENGTH};

/// A done call on a well-formed board, with that board before and after it.
struct Done<'step> {
    call: Call,
    before: &'step Board,
    after: &'step Board,
}

/// What a done call is, in words, and whether it is that.
type Sort = (&'static str, fn(&Done) -> bool);

const SORTS: [Sort; 9] = [
    ("reset of a board with settings", |done| {
        done.call == Call::Reset && has_settings(done.before)
    }),
    ("advance of a board with settings, with firings", |done| {
        let comparators = |board: &Board| board.timers.timer.map(|timer| timer.comparator);
        has_settings(done.before) && comparators(done.before) != comparators(done.after)
    }),
    ("read: the capability register, with settings", |done| {
        matches!(done.call, Call::Read { window: TIMER_BLOCK, offset: 0x000 | 0x004, .. })
            && has_settings(done.before)
    }),
    ("read: a configuration with a mask, whole", |done| done.masked_at(8, 0, false).is_some()),
    ("read: a mask as a high half", |done| done.masked_at(4, 4, false).is_some()),
    ("write: a route inside the mask", |done| {
        done.route().is_some_and(|(route, mask, old)| route != old && allows(mask, route))
    }),
    ("write: a route outside the mask, below 24", |done| {
        done.route().is_some_and(|(route, mask, _)| route <= 23 && !allows(mask, route))
    }),
    ("write: a route above 23 beside a mask", |done| {
        done.route().is_some_and(|(route, ..)| route > 23)
    }),
    ("write: a high half of a configuration with a mask", |done| {
        done.masked_at(4, 4, true).is_some()
    }),
];

fn allows(mask: u32, route: u64) -> bool {
    route <= 23 && mask >> route & 1 != 0
}

/// The board shows other settings than document 01's.
fn has_settings(board: &Board) -> bool {
    let Settings { vendor, period, masks, .. } = Settings::USUAL;
    let timers = &board.timers;
    (timers.vendor, timers.tick_period, timers.masks) != (vendor.into(), period, masks)
}

impl Done<'_> {
    /// The timer with a mask of its own whose configuration is read or written, with this width and at this offset in
    /// it.
    fn masked_at(&self, wanted: u64, place: u64, writes: bool) -> Option<usize> {
        let (window, width, offset) = match self.call {
            Call::Read { window, width, offset } if !writes => (window, width, offset),
            Call::Write { window, width, offset, .. } if writes => (window, width, offset),
            _ => return None,
        };
        let timer = |n: &usize| {
            offset == 0x100 + 0x20 * *n as u64 + place && self.before.timers.masks[*n] != ALL_PINS
        };
        (0..3).find(timer).filter(|_| (window, width) == (TIMER_BLOCK, wanted))
    }

    /// The route that is written to such a timer, its mask, and the route before.
    fn route(&self) -> Option<(u64, u32, u64)> {
        let n = self.masked_at(8, 0, true).or_else(|| self.masked_at(4, 0, true))?;
        let Call::Write { value, .. } = self.call else { return None };
        let timers = &self.before.timers;
        Some((value >> 9 & 0x1F, timers.masks[n], timers.timer[n].route.into()))
    }
}

/// Counts of calls.
#[derive(Default)]
pub struct Counts {
    with_settings: u64,
    clauses: [u64; SETTINGS_CLAUSES.len()],
    sorts: [u64; SORTS.len()],
}

impl Counts {
    /// Counts a call of the board: what it asks, the board before it and after it, and the number that it answers.
    pub fn note(&mut self, call: Option<Call>, (before, after): (&Board, &Board), number: u32) {
        match (number, call) {
            (5, _) => {
                if let [name] = broken(before)[..] {
                    let counts = self.clauses.iter_mut().zip(SETTINGS_CLAUSES);
                    counts.for_each(|(count, clause)| *count += u64::from(clause == name));
                }
            }
            (0, Some(call)) if before.is_well_formed() => {
                self.with_settings += u64::from(has_settings(before));
                let done = Done { call, before, after };
                for (count, (_, is_it)) in self.sorts.iter_mut().zip(SORTS) {
                    *count += u64::from(is_it(&done));
                }
            }
            _ => {}
        }
    }

    /// What was counted, in words; all of it has to come.
    pub fn rows(&self) -> Vec<(String, u64)> {
        let mut rows = vec![("done calls on boards with settings".to_string(), self.with_settings)];
        let clauses = SETTINGS_CLAUSES.iter().zip(self.clauses);
        rows.extend(clauses.map(|(clause, count)| (format!("5 for this alone: {clause}"), count)));
        let sorts = SORTS.iter().zip(self.sorts);
        rows.extend(sorts.map(|((text, _), count)| (text.to_string(), count)));
        rows
    }
}

/// Memory that a reset with a record is made on.
pub trait Known: Resettable {
    /// "Well formed", for any memory.
    fn is_whole(&self) -> bool;
}

impl Known for Board {
    fn is_whole(&self) -> bool {
        self.is_well_formed()
    }
}

impl Known for Mill {
    fn is_whole(&self) -> bool {
        self.is_well_formed()
    }
}

/// The numbers that a reset with a record can answer.
const NUMBERS: [u32; 5] = [0, 8, 6, 9, 10];

/// What a record is, in words, and whether it is that.
type Record = (&'static str, fn(&[u8]) -> bool);

const RECORDS: [Record; 9] = [
    ("an empty record", |record| record.is_empty()),
    ("a record with a byte too few", |record| record.len() == LENGTH - 1),
    ("a record with a byte too many", |record| record.len() == LENGTH + 1),
    ("a record whose length has 22 in its low bits", |record| {
        record.len() > 255 && record.len() % 256 == LENGTH
    }),
    ("a record that is refused for several things", |record| {
        record.len() == LENGTH && record[..2] != [0x5A, 0xC3] && record[2] != 1
    }),
    ("a good record with masks of one pin", |record| {
        good(record).is_some_and(|it| it.masks.iter().any(|mask| mask.is_power_of_two()))
    }),
    ("a good record with a mask without pin 0", |record| {
        good(record).is_some_and(|it| it.masks.iter().any(|mask| mask & 1 == 0))
    }),
    ("a good record with a period of 1", |record| good(record).is_some_and(|it| it.period == 1)),
    ("a good record with id 15", |record| good(record).is_some_and(|it| it.id == 15)),
];

fn good(record: &[u8]) -> Option<Settings> {
    Settings::of_record(record).ok()
}

/// Counts of resets with a record: for each answer, of whole and of ill-formed memory.
#[derive(Default)]
pub struct Resets {
    numbers: [[u64; 2]; NUMBERS.len()],
    records: [u64; RECORDS.len()],
}

impl Resets {
    /// Counts a reset.
    pub fn note<Lent: Known>(&mut self, call: &Resetting<Lent>) {
        let number = call.right().0.number;
        let side = usize::from(!call.before.is_whole());
        for (counts, wanted) in self.numbers.iter_mut().zip(NUMBERS) {
            counts[side] += u64::from(number == wanted);
        }
        for (count, (_, is_it)) in self.records.iter_mut().zip(RECORDS) {
            *count += u64::from(is_it(&call.record));
        }
    }

    /// What was counted, in words; all of it has to come.
    pub fn rows(&self) -> Vec<(String, u64)> {
        let mut rows = Vec::new();
        for (number, [whole, ill]) in NUMBERS.iter().zip(self.numbers) {
            rows.push((format!("reset with settings answered {number}"), whole));
            rows.push((format!("reset with settings answered {number}, ill-formed"), ill));
        }
        let records = RECORDS.iter().zip(self.records);
        rows.extend(records.map(|((text, _), count)| (format!("reset with {text}"), count)));
        rows
    }
}
