//! Mistakes in what an access is refused for, and in what a read gives.

use super::{Mistake, Wrong};
use crate::board::{Refusal, CONTROLLER, TIMER_BLOCK};
use crate::controller::{Controller, DATA};
use crate::part::{register_at, Part};
use crate::pin::{DELIVERY_STATUS, MASK, REMOTE_IRR};
use crate::timer::bits;
use crate::timers::{comparator_of, configuration_of, STATUS, TIMERS, WINDOW_END};

impl Wrong {
    /// Where an access goes: somewhere else, or to where it would be aligned.
    pub(super) fn wrong_offset(&self, window: u64, width: u64, offset: u64) -> u64 {
        match (self.mistake, window, width) {
            (Mistake::DataWindowAtFour, CONTROLLER, 4) if offset == 0x04 => DATA,
            (Mistake::WholeAtFour, TIMER_BLOCK, 8) => offset & !4,
            (Mistake::HalfAnywhere, TIMER_BLOCK, 4) => offset & !3,
            _ => offset,
        }
    }

    /// Refusals in a wrong order, or refusals that shouldn't be.
    pub(super) fn wrong_refusal(
        &self,
        window: u64,
        width: u64,
        offset: u64,
        value: u64,
    ) -> Result<(), Refusal> {
        let bad_offset = match window {
            CONTROLLER => !Controller::has_offset(offset),
            TIMER_BLOCK => offset >= WINDOW_END,
            _ => true,
        };
        let big = window == CONTROLLER && width == 4 && value > u64::from(u32::MAX);
        match self.mistake {
            Mistake::AlwaysRefuses => Err(Refusal::State),
            Mistake::WidthBeforeWindow if width != 4 && width != 8 => Err(Refusal::Width),
            Mistake::OffsetBeforeWidth if bad_offset => Err(Refusal::Place),
            Mistake::ValueBeforeOffset if big => Err(Refusal::Value),
            Mistake::ControllerAlignment if window == CONTROLLER && !offset.is_multiple_of(4) => {
                Err(Refusal::Width)
            }
            _ if window == TIMER_BLOCK => self.wrong_timer_refusal(width, offset, value),
            _ => Ok(()),
        }
    }

    /// An access that should be refused, but is done and does nothing.
    pub(super) fn ignores(&self, window: u64, width: u64, offset: u64, value: u64) -> bool {
        let timers = window == TIMER_BLOCK && width == 8;
        match self.mistake {
            Mistake::AlignmentIgnored => timers && !offset.is_multiple_of(8) && offset < WINDOW_END,
            Mistake::WindowEndTaken => timers && offset == WINDOW_END,
            _ => self.ignores_width(window, width, offset, value),
        }
    }

    pub(super) fn wrong_read(&self, window: u64, width: u64, offset: u64, value: u64) -> u64 {
        if window == TIMER_BLOCK {
            let (register, part) = (register_at(offset), Part::reached_by(width, offset));
            let whole = self.wrong_register(register);
            return self.damage_shown_half(register, part, self.wrong_part(part, whole));
        }
        let index = self.board.controller.index;
        if offset != DATA {
            return value;
        }
        match self.low_word_pin() {
            None => self.wrong_id(index, value),
            Some(number) => self.wrong_low(number, value),
        }
    }

    fn wrong_low(&self, number: usize, value: u64) -> u64 {
        let mut pin = self.board.controller.pins[number];
        match self.mistake {
            Mistake::StatusBitZero => value & !u64::from(DELIVERY_STATUS),
            Mistake::StatusBitUnmasked => {
                pin.low &= !MASK;
                value | u64::from(pin.read_low() & DELIVERY_STATUS)
            }
            _ if self.shows_stray_irr(number) => value | u64::from(REMOTE_IRR),
            _ => value,
        }
    }

    /// What a timer register reads as a whole.
    fn wrong_register(&self, register: u64) -> u64 {
        let value = self.damage_shown_settings(register, self.board.timers.read_register(register));
        let remembers = matches!(
            self.mistake,
            Mistake::EdgeTypeKeepsStatus
                | Mistake::RouteAboveKeepsStatus
                | Mistake::RouteOutsideKeepsStatus
                | Mistake::EdgeSetsStatus
        );
        if register == STATUS && remembers {
            return (0..TIMERS).fold(value, |all, n| all | u64::from(self.memory.bits[n]) << n);
        }
        for n in 0..TIMERS {
            let timer = &self.board.timers.timer[n];
            if register == configuration_of(n) {
                return match self.mistake {
                    Mistake::BitSixHidden => value & !bits::SET_COMPARATOR,
                    Mistake::BitSixKept if self.memory.bits[n] => value | bits::SET_COMPARATOR,
                    _ => value,
                };
            }
            if register == comparator_of(n) && self.has(Mistake::PeriodReads) && timer.periodic {
                return timer.period;
            }
        }
        value
    }

    /// The pin whose low word the data window shows.
    pub(super) fn low_word_pin(&self) -> Option<usize> {
        let index = self.board.controller.index as usize;
        (matches!(index, 0x10..0x40) && index.is_multiple_of(2)).then(|| (index - 0x10) / 2)
    }
}
