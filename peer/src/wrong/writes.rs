//! Mistakes in register writes.

use super::{Mistake, Wrong};
use crate::board::{check_access, check_value, Board, Calls, Refusal, CONTROLLER, TIMER_BLOCK};
use crate::controller::{DATA, INDEX};
use crate::part::PartWrite;
use crate::pin::{ACTIVE_LOW, MASK, REMOTE_IRR};
use crate::timer::bits;
use crate::timers::{comparator_of, configuration_of, COUNTER, ENABLE, STATUS, TIMERS};

/// The upper half of a number.
pub(super) const UPPER: u64 = 0xFFFF_FFFF_0000_0000;

impl Wrong {
    pub(super) fn wrong_write(
        &mut self,
        window: u64,
        width: u64,
        offset: u64,
        value: u64,
    ) -> Result<(), Refusal> {
        let value = match self.mistake {
            Mistake::BigValueTaken if window == CONTROLLER => value & !UPPER,
            Mistake::BigHalfTaken if window == TIMER_BLOCK && width == 4 => value & !UPPER,
            Mistake::IndexSixBits if window == CONTROLLER && offset == INDEX => {
                value & (UPPER | 0x3F)
            }
            _ => value,
        };
        if window == TIMER_BLOCK {
            return self.wrong_timer_write(width, offset, value);
        }
        let before = self.board;
        self.board.write(window, width, offset, value)?;
        if offset == DATA {
            self.damage_data_write(&before, value as u32);
        }
        Ok(())
    }

    fn wrong_timer_write(&mut self, width: u64, offset: u64, value: u64) -> Result<(), Refusal> {
        check_access(TIMER_BLOCK, width, offset)?;
        check_value(width, value)?;
        let before = self.board;
        let write = before.timers.part_write(width, offset, value);
        if self.routes_its_own_way(&write)?
            || self.goes_its_own_way(&write)
            || self.goes_its_own_half_way(&write)
        {
            return Ok(());
        }
        self.board.write(TIMER_BLOCK, width, offset, value)?;
        self.damage_timer_write(&before, &write);
        if write.part.is_half() {
            self.damage_half_write(&before, &write);
        }
        self.damage_step(&before);
        Ok(())
    }

    fn damage_data_write(&mut self, before: &Board, value: u32) {
        let index = self.board.controller.index;
        if let Some(number) = self.low_word_pin() {
            return self.damage_low_write(before, number, value);
        }
        if index == 0 && self.has(Mistake::IdEightBits) {
            self.board.controller.id = value >> 24 & 0xF | value >> 20 & 0xF;
        }
        if matches!(index, 0x10..0x40) {
            let pin = &mut self.board.controller.pins[(index as usize - 0x10) / 2];
            match self.mistake {
                Mistake::DestinationFourBits => pin.destination &= 0x0F,
                Mistake::IrrLostOnHighWrite => pin.low &= !REMOTE_IRR,
                _ => {}
            }
        }
    }

    fn damage_low_write(&mut self, before: &Board, number: usize, value: u32) {
        let old = before.controller.pins[number];
        self.damage_irr(number, &old, value);
        let edges = &mut self.memory.edges[number];
        let pin = &mut self.board.controller.pins[number];
        let edge = !pin.is_level();
        match self.mistake {
            Mistake::MaskingDropsEdge if pin.is_masked() => pin.held = false,
            Mistake::PolarityDropsEdge if (old.low ^ pin.low) & ACTIVE_LOW != 0 => {
                pin.held = false;
            }
            Mistake::PolarityWriteEdge if edge && !pin.is_masked() => {
                pin.held |= !old.is_asserted() && pin.is_asserted();
            }
            Mistake::UnmaskMakesEdge if edge && old.is_masked() && !pin.is_masked() => {
                pin.held |= pin.is_asserted();
            }
            Mistake::EdgeWriteMakesEdge if edge && old.is_level() && !pin.is_masked() => {
                pin.held |= pin.is_asserted();
            }
            Mistake::LevelWriteKeepsEdge if edge => pin.held |= std::mem::take(edges),
            Mistake::LevelWriteKeepsEdge => *edges |= old.held,
            Mistake::EdgeWriteDropsEdge if edge => pin.held = false,
            Mistake::ReservedKept if value >> 17 != 0 => pin.low |= MASK,
            _ => {}
        }
    }

    /// Writes that the wrong model doesn't hand on; answers whether it was one.
    fn goes_its_own_way(&mut self, write: &PartWrite) -> bool {
        let route = write.replaced >> bits::ROUTE_SHIFT & bits::ROUTE_MASK;
        match self.mistake {
            Mistake::RouteAboveIgnoresAll => is_configuration(write.register) && route > 23,
            Mistake::CounterNeverWritten => write.register == COUNTER,
            Mistake::CounterWriteTaken if write.register == COUNTER => {
                self.board.timers.counter = write.replaced;
                true
            }
            Mistake::StatusZeroClears if write.register == STATUS => {
                self.write_register(STATUS, !write.alone());
                true
            }
            Mistake::GlitchingWrite if is_configuration(write.register) => {
                self.write_in_two_steps(write);
                true
            }
            _ => false,
        }
    }

    /// A step in which a whole register is written.
    pub(super) fn write_register(&mut self, register: u64, value: u64) {
        self.board.timers.write(8, register, value);
        self.board.settle();
    }

    /// A configuration write that turns the interrupt off first.
    pub(super) fn write_in_two_steps(&mut self, write: &PartWrite) {
        self.write_register(write.register, write.replaced & !bits::INTERRUPT);
        self.write_register(write.register, write.replaced);
    }

    fn damage_timer_write(&mut self, before: &Board, write: &PartWrite) {
        let register = write.register;
        let silent = match self.mistake {
            Mistake::SilentRegisterWrite => true,
            Mistake::SilentEnable => register == ENABLE,
            Mistake::SilentDisable => register == ENABLE && !self.board.timers.enabled,
            Mistake::SilentStatusClear => register == STATUS,
            _ => false,
        };
        if silent {
            self.restore_held(before);
        }
        if register == ENABLE {
            self.damage_enable(before);
        }
        if register == STATUS {
            let cleared = write.alone();
            (0..TIMERS).for_each(|n| self.memory.bits[n] &= cleared >> n & 1 == 0);
        }
        for n in 0..TIMERS {
            if register == configuration_of(n) {
                self.damage_configuration(before, n, write.replaced);
            } else if register == comparator_of(n) {
                self.damage_comparator(before, n);
            }
        }
    }

    fn damage_enable(&mut self, before: &Board) {
        let enabled = self.board.timers.enabled;
        match self.mistake {
            Mistake::DisableClears if !enabled => self.write_register(STATUS, 7),
            Mistake::EnableResetsCounter if enabled && !before.timers.enabled => {
                self.board.timers.counter = 0;
            }
            _ => {}
        }
    }

    fn damage_configuration(&mut self, before: &Board, n: usize, value: u64) {
        let old = before.timers.timer[n];
        self.memory.first_half[n] = None;
        let timer = &mut self.board.timers.timer[n];
        let route = value >> bits::ROUTE_SHIFT & bits::ROUTE_MASK;
        match self.mistake {
            Mistake::LateInterruptSilent if timer.interrupt && !old.interrupt => {
                self.restore_held(before);
            }
            Mistake::SilentRoute if timer.route != old.route => self.restore_held(before),
            Mistake::SilentFall => {
                let pins = self.board.controller.pins.iter_mut().zip(&before.controller.pins);
                let fallen = pins.filter(|(pin, old)| old.wire && !pin.wire);
                fallen.for_each(|(pin, old)| pin.held = old.held);
            }
            Mistake::BitSixKept => {
                self.memory.bits[n] = value & bits::SET_COMPARATOR != 0;
            }
            Mistake::RouteModulo if route > 23 => {
                timer.route = (route % 24) as u16;
                timer.mask |= 1 << timer.route;
                self.board.settle();
            }
            Mistake::RouteAboveKeepsStatus if route <= 23 => self.memory.bits[n] = false,
            Mistake::RouteOutsideKeepsStatus if route > 23 || timer.allows(route as u16) => {
                self.memory.bits[n] = false;
            }
            Mistake::EdgeTypeKeepsStatus
            | Mistake::RouteAboveKeepsStatus
            | Mistake::RouteOutsideKeepsStatus => {
                self.memory.bits[n] = !timer.level_type && (old.status || self.memory.bits[n]);
            }
            Mistake::InterruptOffClears if !timer.interrupt => timer.status = false,
            Mistake::NarrowKeepsPeriod | Mistake::NarrowKeepsComparator => {
                let period = self.has(Mistake::NarrowKeepsPeriod);
                self.keep_wide(n, if period { old.period } else { old.comparator });
            }
            _ => {}
        }
    }

    /// Remembers a number when 32-bit mode is entered and gives it back when it is left.
    fn keep_wide(&mut self, n: usize, old: u64) {
        let timer = &mut self.board.timers.timer[n];
        if timer.narrow {
            self.memory.wide[n].get_or_insert(old & UPPER);
            return;
        }
        let upper = self.memory.wide[n].take().unwrap_or(0);
        if self.mistake == Mistake::NarrowKeepsPeriod {
            timer.period |= upper;
        } else {
            timer.comparator |= upper;
        }
    }

    fn damage_comparator(&mut self, before: &Board, n: usize) {
        let old = before.timers.timer[n];
        self.memory.fired[n] = false;
        self.memory.wide[n] = None;
        let timer = &mut self.board.timers.timer[n];
        match self.mistake {
            Mistake::BitSixStays => timer.set_comparator = old.set_comparator,
            Mistake::BitSixKept | Mistake::ComparatorStuck => self.memory.bits[n] = false,
            Mistake::BitSixComparatorOnly if old.set_comparator => timer.period = old.period,
            Mistake::OneShotSetsPeriod if !timer.periodic => timer.period = timer.comparator,
            Mistake::PeriodSetsComparator if timer.periodic => timer.comparator = timer.period,
            Mistake::EqualWriteFires
                if before.timers.enabled && timer.matches(before.timers.counter) =>
            {
                self.board.fire(n);
            }
            _ => {}
        }
    }
}

/// It is some timer's configuration.
pub(super) fn is_configuration(register: u64) -> bool {
    (0..TIMERS).any(|n| register == configuration_of(n))
}
