//! Mistakes in the passing of time.

use super::{Mistake, Wrong};
use crate::board::{Board, Calls, Refusal};
use crate::timers::TIMERS;

/// So many ticks of an advance are walked wrongly; the right model does the rest. The mistake
/// is only rarer for that, and no difference comes from anything else.
const WALKED: u32 = 2_000;

impl Wrong {
    pub(super) fn wrong_advance(&mut self, ticks: u32) -> Result<[u32; TIMERS], Refusal> {
        let before = self.board;
        match self.mistake {
            Mistake::AdvanceNothing => Ok([0; TIMERS]),
            Mistake::ShortAdvance => self.board.advance(ticks & 0x7FFF_FFFF),
            Mistake::DisabledCounts if !before.timers.enabled => {
                let counter = &mut self.board.timers.counter;
                *counter = counter.wrapping_add(u64::from(ticks));
                Ok([0; TIMERS])
            }
            Mistake::PeriodOnce | Mistake::FirstMatchOnly | Mistake::MadeUpCount => {
                let fired = self.board.advance(ticks)?;
                Ok(self.damage_firings(&before, ticks, fired))
            }
            Mistake::RaiseEdgeOnly | Mistake::LevelRiseEdgeActiveLow => {
                let fired = self.board.advance(ticks)?;
                self.damage_active_low(&before);
                Ok(fired)
            }
            Mistake::PulseByStart | Mistake::PulseByEnd => {
                let fired = self.board.advance(ticks)?;
                self.judge_pulses(&before, fired);
                Ok(fired)
            }
            Mistake::EqualStartFires if ticks > 0 && before.timers.enabled => {
                let matching = |n: &usize| before.timers.timer[*n].matches(before.timers.counter);
                let equal: Vec<usize> = (0..TIMERS).filter(matching).collect();
                equal.iter().for_each(|&n| self.board.fire(n));
                let mut fired = self.board.advance(ticks)?;
                equal.iter().for_each(|&n| fired[n] = fired[n].saturating_add(1));
                Ok(fired)
            }
            Mistake::AtOrAbove
            | Mistake::ComparatorStuck
            | Mistake::PeriodZeroOnce
            | Mistake::WideComparesNarrow
            | Mistake::LevelRiseSilent
            | Mistake::PulseThrough
            | Mistake::PulseWithoutInterrupt
            | Mistake::EdgeSetsStatus
            | Mistake::OrderSwapped
            | Mistake::LevelsFirst
            | Mistake::PulsesFirst
            | Mistake::OneFiringPerTick
            | Mistake::OneShotDisarmed
            | Mistake::PeriodZeroNever
            | Mistake::PeriodZeroAlways
            | Mistake::NarrowComparesWide
            | Mistake::NarrowWrapFires
            | Mistake::SilentUncounted
            | Mistake::SilentNoStatus => self.walk_wrongly(ticks),
            _ => self.board.advance(ticks),
        }
    }

    fn damage_firings(
        &mut self,
        before: &Board,
        ticks: u32,
        mut fired: [u32; TIMERS],
    ) -> [u32; TIMERS] {
        for (n, count) in fired.iter_mut().enumerate().filter(|(_, count)| **count > 1) {
            let mut once = before.timers.timer[n];
            once.fire();
            let timer = &mut self.board.timers.timer[n];
            match self.mistake {
                Mistake::PeriodOnce => timer.comparator = once.comparator,
                Mistake::FirstMatchOnly => {
                    timer.comparator = once.comparator;
                    *count = 1;
                }
                _ => *count = (u64::from(ticks) / once.period.max(1)) as u32,
            }
        }
        fired
    }

    /// Within an advance a wire only ever rises, or pulses: an edge on an active-low pin is one
    /// at the drop of a pulse.
    fn damage_active_low(&mut self, before: &Board) {
        let pins = self.board.controller.pins.iter_mut().zip(&before.controller.pins);
        for (pin, old) in pins.filter(|(pin, _)| pin.is_active_low()) {
            if self.mistake == Mistake::RaiseEdgeOnly {
                pin.held = old.held;
            } else {
                let rises = !old.wire && pin.wire;
                pin.held |= rises && !pin.is_level() && !pin.is_masked();
            }
        }
    }

    /// Pulses that are seen or hidden for the whole advance, as the wire is at one of its ends.
    fn judge_pulses(&mut self, before: &Board, fired: [u32; TIMERS]) {
        for (n, timer) in before.timers.timer.iter().enumerate() {
            let route = usize::from(timer.route);
            let old = before.controller.pins[route];
            let pin = &mut self.board.controller.pins[route];
            if fired[n] == 0 || !timer.pulses() || pin.is_level() || pin.is_masked() {
                continue;
            }
            let wire = if self.mistake == Mistake::PulseByStart { old.wire } else { pin.wire };
            let rises = !old.is_asserted() && pin.is_asserted();
            pin.held = old.held || rises || !wire;
        }
    }

    fn walk_wrongly(&mut self, ticks: u32) -> Result<[u32; TIMERS], Refusal> {
        let walked = ticks.min(WALKED);
        let mut fired = [0; TIMERS];
        for _ in 0..walked {
            self.wrong_tick(&mut fired);
        }
        let rest = self.board.advance(ticks - walked)?;
        Ok([0, 1, 2].map(|n| fired[n] + rest[n]))
    }

    fn wrong_tick(&mut self, fired: &mut [u32; TIMERS]) {
        if !self.board.timers.enabled {
            return;
        }
        self.board.timers.counter = self.board.timers.counter.wrapping_add(1);
        for n in self.order() {
            if self.wrongly_matches(n) {
                self.fire_wrongly(n);
                let silent = !self.board.timers.timer[n].interrupt;
                fired[n] += u32::from(!(silent && self.has(Mistake::SilentUncounted)));
                if self.has(Mistake::OneFiringPerTick) {
                    return;
                }
            }
        }
    }

    fn order(&self) -> [usize; TIMERS] {
        let mut order = [0, 1, 2];
        match self.mistake {
            Mistake::OrderSwapped => order.reverse(),
            Mistake::LevelsFirst => {
                order.sort_by_key(|&n| !self.board.timers.timer[n].level_type);
            }
            Mistake::PulsesFirst => {
                order.sort_by_key(|&n| self.board.timers.timer[n].level_type);
            }
            _ => {}
        }
        order
    }

    fn wrongly_matches(&self, n: usize) -> bool {
        let counter = self.board.timers.counter;
        let timer = &self.board.timers.timer[n];
        let seen = if timer.narrow { counter & 0xFFFF_FFFF } else { counter };
        let matches = timer.matches(counter);
        let period_zero = timer.periodic && timer.period == 0;
        match self.mistake {
            Mistake::AtOrAbove => seen >= timer.comparator,
            Mistake::OneShotDisarmed => matches && (timer.periodic || !self.memory.fired[n]),
            Mistake::PeriodZeroNever => matches && !period_zero,
            Mistake::PeriodZeroAlways => matches || period_zero && self.memory.fired[n],
            Mistake::PeriodZeroOnce => matches && !(period_zero && self.memory.fired[n]),
            Mistake::ComparatorStuck => matches && !self.memory.bits[n],
            Mistake::WideComparesNarrow => (counter ^ timer.comparator) & 0xFFFF_FFFF == 0,
            Mistake::NarrowComparesWide => counter == timer.comparator,
            Mistake::NarrowWrapFires => matches || timer.narrow && seen == 0,
            _ => matches,
        }
    }

    fn fire_wrongly(&mut self, n: usize) {
        self.memory.fired[n] = true;
        let old = self.board.timers.timer[n];
        let pin = self.board.controller.pins[usize::from(old.route)];
        self.board.fire(n);
        let timer = &mut self.board.timers.timer[n];
        let held = &mut self.board.controller.pins[usize::from(old.route)].held;
        match self.mistake {
            Mistake::ComparatorStuck if timer.comparator < old.comparator => {
                self.memory.bits[n] = true;
            }
            Mistake::SilentNoStatus if !timer.interrupt => timer.status = old.status,
            Mistake::LevelRiseSilent if timer.level_type => *held = pin.held,
            Mistake::EdgeSetsStatus if !timer.level_type => self.memory.bits[n] = true,
            Mistake::PulseWithoutInterrupt if !timer.level_type && !pin.wire => {
                *held |= !pin.is_level() && !pin.is_masked();
            }
            Mistake::PulseThrough if timer.pulses() && pin.wire => {
                *held |= !pin.is_level() && !pin.is_masked();
            }
            _ => {}
        }
    }
}
