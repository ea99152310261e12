//! What happens in accesses to halves of timer registers, and what is refused at the timers.

use super::registers::{moved_wires, new_edges};
use super::watch::Watcher;
use super::Event;
use crate::board::Board;
use crate::part::{register_at, Part, PartWrite};
use crate::timer::Timer;
use crate::timers::{
    comparator_of, configuration_of, Timers, CAPABILITY, COUNTER, ENABLE, STATUS, TIMERS,
    WINDOW_END,
};

impl Watcher<'_> {
    pub(super) fn watch_half_read(&mut self, offset: u64) {
        let register = register_at(offset);
        let whole = self.board.timers.read_register(register);
        let unlike = Part::Low.of(whole) != Part::High.of(whole);
        let event = if offset == register { Event::HalfReadLow } else { Event::HalfReadHigh };
        self.counts.note_if(unlike, event);
        self.watch_half_place(offset);
    }

    fn watch_half_place(&mut self, offset: u64) {
        self.counts.note_if(!Timers::is_listed(register_at(offset)), Event::HalfUnlisted);
        self.counts.note_if(offset == WINDOW_END - 4, Event::LastHalf);
    }

    pub(super) fn watch_half_write(&mut self, before: &Board, write: &PartWrite) {
        self.watch_half_place(write.part.offset_in(write.register));
        match write.register {
            CAPABILITY => self.counts.note(Event::HalfReadOnly),
            ENABLE => self.watch_half_enable(before, write.part),
            STATUS => self.watch_half_status(before, write),
            COUNTER => self.watch_half_counter(before, write),
            _ => {}
        }
        for n in 0..TIMERS {
            if write.register == configuration_of(n) {
                self.watch_half_configuration(before, n, write.part);
            } else if write.register == comparator_of(n) {
                self.watch_half_comparator(before, n, write);
            }
        }
    }

    fn watch_half_enable(&mut self, before: &Board, part: Part) {
        let counts = &mut *self.counts;
        let turned = before.timers.enabled != self.board.timers.enabled;
        counts.note_if(turned, Event::HalfEnable);
        counts.note_if(part == Part::High && before.timers.enabled, Event::HalfEnableHigh);
        let edge = !new_edges(before, &self.board).is_empty();
        counts.note_if(edge, Event::EdgeByHalfEnable);
    }

    fn watch_half_status(&mut self, before: &Board, write: &PartWrite) {
        let statuses = before.timers.read_register(STATUS);
        let counts = &mut *self.counts;
        let meets = write.value & statuses != 0;
        let event = if write.part == Part::Low { Event::HalfStatus } else { Event::HalfStatusHigh };
        counts.note_if(meets, event);
        let edge = !new_edges(before, &self.board).is_empty();
        counts.note_if(edge, Event::EdgeByHalfStatus);
    }

    fn watch_half_counter(&mut self, before: &Board, write: &PartWrite) {
        let other = write.replaced != before.timers.counter;
        let event = match (before.timers.enabled, write.part) {
            (false, Part::High) => Event::HalfCounterHigh,
            (false, _) => Event::HalfCounterLow,
            (true, Part::High) => Event::HalfCounterHighIgnored,
            (true, _) => Event::HalfCounterLowIgnored,
        };
        self.counts.note_if(other, event);
        let meets = |timer: &Timer| timer.matches(self.board.timers.counter);
        let equal = self.board.timers.timer.iter().any(meets);
        let changed = before.timers.counter != self.board.timers.counter;
        self.counts.note_if(changed && equal, Event::HalfMakesEqual);
    }

    fn watch_half_configuration(&mut self, before: &Board, n: usize, part: Part) {
        let (old, new) = (before.timers.timer[n], self.board.timers.timer[n]);
        let counts = &mut *self.counts;
        counts.note_if(old != new, Event::HalfConfiguration);
        if part == Part::High {
            counts.note_if(old.set_comparator, Event::HalfConfigurationBitSix);
            counts.note_if(old.status, Event::HalfConfigurationStatus);
        }
        let edge = !new_edges(before, &self.board).is_empty();
        counts.note_if(edge, Event::EdgeByHalfConfiguration);
        let rewritten = before.timers.enabled && old.drives() && new.drives() && old != new;
        counts.note_if(rewritten && old.route == new.route, Event::HalfRewrittenHigh);
        let moved = moved_wires(before, &self.board) > 1;
        counts.note_if(rewritten && moved, Event::HalfMovedWire);
    }

    fn watch_half_comparator(&mut self, before: &Board, n: usize, write: &PartWrite) {
        let old = before.timers.timer[n];
        let new = self.board.timers.timer[n];
        let high = write.part == Part::High;
        let counts = &mut *self.counts;
        if old.narrow {
            if let Some(event) = narrow_half(&old, high) {
                counts.note_if(!high || write.value != 0, event);
            }
        } else {
            let rest = write.part.other();
            let (event, tells) = wide_half(&old, rest, high);
            counts.note_if(tells, event);
        }
        match self.first_half[n] {
            Some(Part::High) if !high => counts.note(Event::HalfSecondLow),
            Some(Part::Low) if high => counts.note(Event::HalfSecondHigh),
            _ => {}
        }
        let equal = new.comparator != old.comparator && new.matches(before.timers.counter);
        counts.note_if(equal, Event::HalfMakesEqual);
    }

    /// What an access to the timers was refused for, and what for besides.
    pub(super) fn watch_bad_timer_access(&mut self, width: u64, offset: u64, value: u64) {
        let counts = &mut *self.counts;
        let (allowed, exists) = (Timers::allows(width, offset), Timers::has_offset(offset));
        let (half, whole) = (width == 4, width == 8);
        let big = half && value > u64::from(u32::MAX);
        counts.note_if(whole && exists && offset % 8 == 4, Event::WholeAtFour);
        counts.note_if(half && exists && !allowed, Event::HalfUnaligned);
        counts.note_if(width == 0 && exists, Event::WidthZero);
        let other = !half && !whole && width > 0 && offset.is_multiple_of(width);
        counts.note_if(other && exists, Event::OtherWidth);
        counts.note_if(half && offset == WINDOW_END, Event::HalfAtEnd);
        counts.note_if(!allowed && !exists, Event::TimerWidthBeforeOffset);
        counts.note_if(big && !allowed && exists, Event::TimerWidthBeforeValue);
        counts.note_if(big && allowed && !exists, Event::TimerOffsetBeforeValue);
        if big && allowed && exists {
            counts.note(match register_at(offset) {
                CAPABILITY => Event::BigHalfReadOnly,
                register if !Timers::is_listed(register) => Event::BigHalfUnlisted,
                _ => Event::BigHalf,
            });
        }
    }
}

/// A half of a 32-bit timer's comparator, unless it is like a whole write.
fn narrow_half(old: &Timer, high: bool) -> Option<Event> {
    match (old.periodic, old.set_comparator, high) {
        (false, _, true) => Some(Event::HalfNarrowOneShot),
        (true, false, true) => Some(Event::HalfNarrowPeriod),
        (true, true, false) => Some(Event::HalfNarrowBothLow),
        (true, true, true) => Some(Event::HalfNarrowBothHigh),
        (_, false, false) | (false, true, false) => None,
    }
}

/// A half of a 64-bit timer's comparator, and whether the rest tells which number it is.
fn wide_half(old: &Timer, rest: Part, high: bool) -> (Event, bool) {
    let (comparator, period) = (rest.of(old.comparator), rest.of(old.period));
    match (old.periodic, old.set_comparator, high) {
        (false, _, false) => (Event::HalfOneShotLow, comparator != 0),
        (false, _, true) => (Event::HalfOneShotHigh, comparator != 0),
        (true, false, false) => (Event::HalfPeriodLow, period != 0),
        (true, false, true) => (Event::HalfPeriodHigh, period != 0),
        (true, true, false) => (Event::HalfBothLow, comparator != period),
        (true, true, true) => (Event::HalfBothHigh, comparator != period),
    }
}
