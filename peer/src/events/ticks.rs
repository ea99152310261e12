//! What happens in an advance, due tick by due tick.

use super::watch::Watcher;
use super::Event;
use crate::board::Board;
use crate::pin::Pin;
use crate::timer::Timer;
use crate::timers::TIMERS;

/// Only so many due ticks of an advance are looked at one by one.
const WATCHED_TICKS: usize = 24;

/// An advance so far.
struct Passed {
    /// The counter at its start.
    start: u64,
    /// The timer has fired.
    fired: [bool; TIMERS],
    /// The timer has pulsed on a low wire.
    seen: [bool; TIMERS],
}

/// A firing, with its pin before and after.
struct Firing {
    timer: Timer,
    old: Pin,
    new: Pin,
    /// The timer's first one in the advance.
    first: bool,
}

impl Firing {
    fn rises(&self) -> bool {
        self.timer.level_type && !self.old.wire && self.new.wire
    }

    /// It is the timer's first one, and may make an edge.
    fn matters(&self) -> bool {
        self.first && self.timer.interrupt && self.old.holds_edges()
    }
}

impl Watcher<'_> {
    pub(super) fn watch_advance(&mut self, mut board: Board, ticks: u32) {
        self.counts.note_if(ticks == 0, Event::AdvanceZero);
        if !board.timers.enabled {
            return self.counts.note_if(ticks > 0, Event::AdvanceDisabled);
        }
        self.watch_counts(&board, ticks);
        let start = board.timers.counter;
        let mut passed = Passed { start, fired: [false; TIMERS], seen: [false; TIMERS] };
        let mut left = u128::from(ticks);
        for _ in 0..WATCHED_TICKS {
            let due = board.timers.timer.iter().map(|timer| timer.due_in(board.timers.counter));
            let due = due.min().unwrap_or(u128::MAX);
            if due > left {
                return;
            }
            left -= due;
            board.timers.counter = board.timers.counter.wrapping_add((due - 1) as u64);
            self.watch_tick(&mut board, &mut passed);
        }
    }

    fn watch_counts(&mut self, before: &Board, ticks: u32) {
        let mut timers = before.timers.timer;
        let counter = before.timers.counter;
        let fired = timers.each_mut().map(|timer| timer.fire_over(counter, u64::from(ticks)));
        let counts = &mut *self.counts;
        counts.note_if(fired.iter().any(|&count| count > 1), Event::ManyFirings);
        counts.note_if(ticks >= 1_000 && fired != [0; TIMERS], Event::ThousandTicks);
        counts.note_if(fired.iter().any(|&count| count >= 100), Event::HundredFirings);
        let thousands = fired.iter().any(|&count| count >= 100_000);
        counts.note_if(thousands, Event::ManyThousandFirings);
        for (count, timer) in fired.into_iter().zip([Event::Timer0, Event::Timer1, Event::Timer2]) {
            counts.note_if(count > 0, timer);
        }
        counts.note_if(!fired.contains(&0), Event::AllTimers);
        let due = before.timers.timer.map(|timer| timer.due_in(counter));
        counts.note_if(due.contains(&u128::from(ticks)), Event::FirstAtEnd);
        counts.note_if(due.contains(&(u128::from(ticks) + 1)), Event::FirstPastEnd);
        if ticks == u32::MAX {
            let idle = fired == [0; TIMERS];
            counts.note(if idle { Event::FullIdle } else { Event::FullFires });
            counts.note_if(fired.contains(&u32::MAX), Event::FullEveryTick);
        }
    }

    fn watch_tick(&mut self, board: &mut Board, passed: &mut Passed) {
        board.timers.counter = board.timers.counter.wrapping_add(1);
        let counter = board.timers.counter;
        let due: Vec<usize> =
            (0..TIMERS).filter(|&n| board.timers.timer[n].matches(counter)).collect();
        let mut reversed = *board;
        due.iter().rev().for_each(|&n| reversed.fire(n));
        let firings: Vec<Firing> =
            due.iter().map(|&n| self.watch_firing(board, n, passed)).collect();
        self.counts.note_if(due.len() > 1, Event::SameTick);
        self.counts.note_if(reversed != *board, Event::OrderMatters);
        self.watch_together(&firings);
    }

    /// Timers that fire in the same tick.
    fn watch_together(&mut self, firings: &[Firing]) {
        let counts = &mut *self.counts;
        let narrow = firings.iter().filter(|firing| firing.timer.narrow).count();
        counts.note_if(narrow > 0 && narrow < firings.len(), Event::MixedWidths);
        for (n, one) in firings.iter().enumerate() {
            let same_pin = |other: &&Firing| other.timer.route == one.timer.route;
            let later: Vec<&Firing> = firings[n + 1..].iter().filter(same_pin).collect();
            let first = later.iter().filter(|other| one.matters() && other.matters()).count();
            counts.note_if(first > 0, Event::SamePin);
            counts.note_if(first > 0 && one.old.is_active_low(), Event::SamePinActiveLow);
            counts.note_if(first > 1, Event::SamePinThree);
            for other in later {
                let pulse = one.timer.pulses() && !one.old.wire && one.old.holds_edges();
                let low = one.old.holds_edges() && one.old.is_active_low();
                counts.note_if(pulse && other.timer.pulses(), Event::PulseThenPulse);
                counts.note_if(pulse && low && other.rises(), Event::PulseThenRise);
                let hidden = one.rises() && other.timer.pulses();
                counts.note_if(hidden && low, Event::RiseThenPulse);
            }
        }
    }

    fn watch_firing(&mut self, board: &mut Board, n: usize, passed: &mut Passed) -> Firing {
        self.watch_match(board, n, passed.start);
        let before = *board;
        board.fire(n);
        let timer = board.timers.timer[n];
        let route = usize::from(timer.route);
        let (old, new) = (before.controller.pins[route], board.controller.pins[route]);
        let first = !std::mem::replace(&mut passed.fired[n], true);
        self.watch_pin(&before, n, &Firing { timer, old, new, first });
        if old != new {
            self.watch_reset_route(n);
        }
        if timer.pulses() && old.holds_edges() {
            self.counts.note_if(old.wire && passed.seen[n], Event::PulseThenHidden);
            passed.seen[n] |= !old.wire;
        }
        Firing { timer, old, new, first }
    }

    /// What a firing does to its pin.
    fn watch_pin(&mut self, before: &Board, n: usize, firing: &Firing) {
        let Firing { timer, old, new, .. } = firing;
        let counts = &mut *self.counts;
        let edge = !old.held && new.held;
        if timer.pulses() {
            counts.note_if(edge && !new.is_active_low(), Event::PulseAtRaise);
            counts.note_if(edge && new.is_active_low(), Event::PulseAtDrop);
            counts.note_if(old.wire, Event::PulseHidden);
            let hidden = old.wire && old.holds_edges() && old.is_active_low();
            counts.note_if(hidden, Event::PulseHiddenActiveLow);
            counts.note_if(new.is_level(), Event::PulseOnLevel);
            counts.note_if(new.is_masked() && !new.is_level(), Event::PulseMasked);
        } else if timer.level_type {
            counts.note_if(edge, Event::LevelRise);
            let low = new.holds_edges() && new.is_active_low();
            counts.note_if(firing.rises() && low, Event::LevelRiseActiveLow);
            counts.note_if(before.timers.timer[n].status, Event::LevelAgain);
            counts.note_if(!timer.interrupt, Event::LevelSilent);
        }
    }

    /// What kind of match it is, before the firing.
    fn watch_match(&mut self, board: &Board, n: usize, start: u64) {
        let timer = board.timers.timer[n];
        let counter = board.timers.counter;
        let counts = &mut *self.counts;
        let passed = counter.wrapping_sub(start);
        if timer.narrow {
            counts.note_if((start & 0xFFFF_FFFF) + passed >= 1 << 32, Event::NarrowWrap);
            counts.note_if(counter >= 1 << 32, Event::NarrowMatchAbove);
        } else {
            counts.note_if(counter < start, Event::WideWrap);
        }
        if timer.periodic {
            counts.note_if(timer.period == 0, Event::PeriodZero);
            counts.note_if(timer.period == 1, Event::PeriodOne);
            counts.note_if(timer.period >= 1 << 31, Event::PeriodHuge);
            counts.note_if(self.halved[n], Event::HalfPeriodShows);
            let next = u128::from(timer.comparator) + u128::from(timer.period);
            counts.note_if(timer.narrow && next >= 1 << 32, Event::ComparatorWrapNarrow);
            counts.note_if(!timer.narrow && next >= 1 << 64, Event::ComparatorWrapWide);
        } else {
            counts.note_if(self.fired[n], Event::OneShotAgain);
            counts.note_if(self.fired[n] && timer.narrow && passed > 1 << 31, Event::FullTurn);
        }
        self.fired[n] = true;
    }
}
