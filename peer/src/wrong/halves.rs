//! Mistakes in reading and writing timer registers in halves.

use super::writes::{is_configuration, UPPER};
use super::{Mistake, Wrong};
use crate::board::{Board, Refusal, CONTROLLER, TIMER_BLOCK};
use crate::controller::Controller;
use crate::part::{register_at, Part, PartWrite};
use crate::timers::{
    comparator_of, configuration_of, Timers, CAPABILITY, COUNTER, ENABLE, STATUS, TIMERS,
    WINDOW_END,
};

/// The last half in the window.
const LAST_HALF: u64 = WINDOW_END - 4;

impl Wrong {
    /// Where a write goes that takes one half for the other.
    pub(super) fn wrong_half(&self, window: u64, width: u64, offset: u64) -> u64 {
        if self.has(Mistake::HalfWritesSwapped) && (window, width) == (TIMER_BLOCK, 4) {
            offset ^ 4
        } else {
            offset
        }
    }

    /// Refusals of accesses to the timers in a wrong order, or ones that shouldn't be.
    pub(super) fn wrong_timer_refusal(
        &self,
        width: u64,
        offset: u64,
        value: u64,
    ) -> Result<(), Refusal> {
        let big = value > u64::from(u32::MAX);
        let big_half = big && width == 4;
        let (aligned, exists) = (Timers::allows(width, offset), Timers::has_offset(offset));
        match self.mistake {
            Mistake::HalvesRefused if width == 4 => Err(Refusal::Width),
            Mistake::TimerOffsetBeforeWidth if !exists => Err(Refusal::Place),
            Mistake::TimerValueBeforeOffset if big_half && aligned => Err(Refusal::Value),
            Mistake::TimerValueBeforeWidth if big_half && exists => Err(Refusal::Value),
            Mistake::WholeValueRefused if big && aligned && exists => Err(Refusal::Value),
            Mistake::LastHalfRefused if (width, offset) == (4, LAST_HALF) => Err(Refusal::Place),
            _ => Ok(()),
        }
    }

    /// An access that K1 refuses, but is done and does nothing.
    pub(super) fn ignores_width(&self, window: u64, width: u64, offset: u64, value: u64) -> bool {
        if window == CONTROLLER {
            let taken = width == 8 && Controller::has_offset(offset);
            return taken && self.has(Mistake::ControllerTakesEight);
        }
        let big_half = width == 4 && Timers::allows(4, offset) && value > u64::from(u32::MAX);
        let exists = window == TIMER_BLOCK && Timers::has_offset(offset);
        match self.mistake {
            Mistake::WidthZeroTaken => exists && width == 0,
            Mistake::WidthOneTaken => exists && width == 1,
            Mistake::WidthTwoTaken => exists && width == 2 && offset.is_multiple_of(2),
            Mistake::WidthSixteenTaken => exists && width == 16 && offset.is_multiple_of(16),
            Mistake::EndHalfTaken => (window, width, offset) == (TIMER_BLOCK, 4, WINDOW_END),
            Mistake::BigHalfAtReadOnly => exists && big_half && register_at(offset) == CAPABILITY,
            Mistake::BigHalfAtUnlisted => {
                exists && big_half && !Timers::is_listed(register_at(offset))
            }
            _ => false,
        }
    }

    /// What a read gives of a register.
    pub(super) fn wrong_part(&self, part: Part, whole: u64) -> u64 {
        match (self.mistake, part) {
            (Mistake::HalfReadsSwapped, _) => part.other().of(whole),
            (Mistake::HalfReadsWhole, _) => whole,
            (Mistake::HighReadsLow, Part::High) => Part::Low.of(whole),
            (Mistake::HighReadUnshifted, Part::High) => whole & UPPER,
            _ => part.of(whole),
        }
    }

    /// Half writes that the wrong model doesn't hand on; answers whether it was one.
    pub(super) fn goes_its_own_half_way(&mut self, write: &PartWrite) -> bool {
        let &PartWrite { register, part, value, replaced } = write;
        if !part.is_half() {
            return false;
        }
        let alone = write.alone();
        let whole = match self.mistake {
            Mistake::HalfConfigurationZeroes if is_configuration(register) => alone,
            Mistake::HalfEnableZeroes if register == ENABLE => alone,
            Mistake::StatusHalfFromRegister if register == STATUS => replaced,
            Mistake::HighStatusClears if register == STATUS => value,
            Mistake::CounterHalfZeroes if register == COUNTER => alone,
            Mistake::CounterHalfTaken if register == COUNTER => {
                self.board.timers.counter = replaced;
                return true;
            }
            Mistake::GlitchingHalf if is_configuration(register) => {
                self.write_in_two_steps(write);
                return true;
            }
            _ => return false,
        };
        self.write_register(register, whole);
        true
    }

    /// Mistakes that a half write alone makes.
    pub(super) fn damage_half_write(&mut self, before: &Board, write: &PartWrite) {
        if self.has(Mistake::SilentHalfWrite) {
            self.restore_held(before);
        }
        for n in 0..TIMERS {
            if write.register == configuration_of(n) && write.part == Part::High {
                self.damage_high_configuration(n);
            } else if write.register == comparator_of(n) {
                self.damage_half_comparator(before, n, write);
            }
        }
    }

    fn damage_high_configuration(&mut self, n: usize) {
        let timer = &mut self.board.timers.timer[n];
        match self.mistake {
            Mistake::HighConfigurationDropsBitSix => timer.set_comparator = false,
            Mistake::HighConfigurationClearsStatus => {
                timer.status = false;
                self.board.settle();
            }
            _ => {}
        }
    }

    fn damage_half_comparator(&mut self, before: &Board, n: usize, write: &PartWrite) {
        let &PartWrite { part, value, .. } = write;
        let old = before.timers.timer[n];
        let timer = &mut self.board.timers.timer[n];
        let first = &mut self.memory.first_half[n];
        let alone = write.alone();
        let (high, wide, both) = (part == Part::High, !old.narrow, old.set_comparator);
        let sets_comparator = both || !old.periodic;
        match self.mistake {
            Mistake::BitSixUntilBoth => {
                timer.set_comparator = both && *first != Some(part.other());
                *first = timer.set_comparator.then_some(part);
            }
            Mistake::LowHalfClearsBitSix if high => timer.set_comparator = both,
            Mistake::NarrowHighIgnored if high && old.narrow => timer.set_comparator = both,
            Mistake::BitSixHalfFromComparator if both => timer.period = timer.comparator,
            Mistake::BitSixHalfZeroes if both && wide => {
                (timer.comparator, timer.period) = (alone, alone);
            }
            Mistake::BitSixHalfComparatorOnly if both => timer.period = old.period,
            Mistake::BitSixHalfPeriodOnly if both => timer.comparator = old.comparator,
            Mistake::HalfZeroesComparator if wide && !old.periodic => timer.comparator = alone,
            Mistake::HalfZeroesPeriod if wide && old.periodic && !both => timer.period = alone,
            Mistake::HalfPeriodSetsComparator if old.periodic => {
                timer.comparator = timer.reduce(part.replace(old.comparator, value));
            }
            Mistake::HalfPeriodInComparator if old.periodic && !both => {
                timer.comparator = timer.reduce(part.replace(old.comparator, value));
                timer.period = old.period;
            }
            Mistake::NarrowHighClears if high && old.narrow && sets_comparator => {
                timer.comparator = 0;
            }
            Mistake::NarrowHighClearsPeriod if high && old.narrow && old.periodic => {
                timer.period = 0;
            }
            Mistake::NarrowHighStored if high && old.narrow && sets_comparator => {
                timer.comparator |= alone;
            }
            _ => {}
        }
    }
}
