//! Logs for an engine that walks every tick: their advances are short.

use super::maker::Maker;
use crate::log::{Reader, Record};
use crate::part::Part;
use crate::timer::bits;
use crate::timers::{comparator_of, configuration_of, ENABLE};

/// The ticks of all advances of a short log together are at most so many.
pub const MOST_TICKS: u64 = 200_000;

/// A timer that is due later than this isn't waited for.
const PATIENCE: u64 = 2_000;

impl Maker {
    /// From reset: a timer that fires at every tick, for half of the ticks that there are.
    pub(super) fn set_walk_scene(&mut self) {
        let n = self.timer();
        let pin = u64::from(self.pin()) << bits::ROUTE_SHIFT;
        let kind = bits::PERIODIC | bits::SET_COMPARATOR | bits::INTERRUPT;
        for (register, number) in [
            (configuration_of(n), kind | pin),
            (comparator_of(n), 1),
            (comparator_of(n), 1),
            (ENABLE, 1),
        ] {
            self.write_part(register, Part::Whole, number);
        }
        self.push(Record::Advance { ticks: (MOST_TICKS / 2) as u32 });
        self.look();
    }

    /// Ticks for an advance that is walked: few, but once in a thousand times many.
    pub(super) fn short_ticks(&mut self) -> u32 {
        let ticks = match self.random.below(1_000) {
            0..40 => 0,
            40..290 => 1,
            290..600 => 2 + self.random.below(12),
            600..760 => self.due_in(),
            760..830 => self.due_in() - 1,
            830..880 => self.due_in().saturating_add(1),
            880..985 => self.random.below(100),
            985..999 => self.random.below(PATIENCE),
            _ => {
                let most = MOST_TICKS >> self.random.below(5);
                return self.random.below(most) as u32;
            }
        };
        if ticks > PATIENCE {
            self.random.below(20) as u32
        } else {
            ticks as u32
        }
    }
}

/// Makes the advances of a log short that was damaged: a record's ticks may have become any number.
pub(super) fn shorten(log: &mut [u8]) {
    let mut left = MOST_TICKS;
    for (end, ticks) in advances(log) {
        let fewer = u64::from(ticks).min(left) as u32;
        left -= u64::from(fewer);
        log[end - 4..end].copy_from_slice(&fewer.to_le_bytes());
    }
}

/// The ticks of a log's advances together.
pub fn ticks_of(log: &[u8]) -> u64 {
    advances(log).iter().map(|&(_, ticks)| u64::from(ticks)).sum()
}

/// Where the log's advances end, each with its ticks, which are its last four bytes.
fn advances(log: &[u8]) -> Vec<(usize, u32)> {
    let mut reader = Reader::new(log);
    let mut advances = Vec::new();
    while let Some(Ok(record)) = reader.take() {
        if let Record::Advance { ticks } = record {
            advances.push((reader.place(), ticks));
        }
    }
    advances
}
