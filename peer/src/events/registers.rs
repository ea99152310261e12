//! What happens in a write to a timer register: it is one step, and may move wires.

use super::watch::Watcher;
use super::Event;
use crate::board::Board;
use crate::part::PartWrite;
use crate::pin::PINS;
use crate::timer::{bits, Timer};
use crate::timers::{comparator_of, configuration_of, COUNTER, ENABLE, STATUS, TIMERS};

impl Watcher<'_> {
    pub(super) fn watch_timer_write(&mut self, before: &Board, write: &PartWrite) {
        if write.part.is_half() {
            self.watch_half_write(before, write);
        }
        match write.register {
            ENABLE => self.watch_enable(before),
            STATUS => self.watch_status(before),
            COUNTER => {
                let enabled = before.timers.enabled;
                let event = if enabled { Event::CounterIgnored } else { Event::CounterTaken };
                self.counts.note(event);
                let meets = |timer: &Timer| timer.matches(write.replaced);
                let equal = self.board.timers.timer.iter().any(meets);
                self.counts.note_if(!enabled && equal, Event::MadeEqual);
            }
            _ => {}
        }
        for n in 0..TIMERS {
            if write.register == configuration_of(n) {
                self.watch_configuration(before, n, write.replaced);
                self.watch_route(before, n, write);
                self.watch_configured_wires(before, n);
            } else if write.register == comparator_of(n) {
                self.watch_comparator(before, n, write);
            }
        }
    }

    fn watch_enable(&mut self, before: &Board) {
        let edge = !new_edges(before, &self.board).is_empty();
        let event =
            if self.board.timers.enabled { Event::EdgeByEnable } else { Event::EdgeByDisable };
        self.counts.note_if(edge, event);
        let several = moved_wires(before, &self.board) > 1;
        self.counts.note_if(several, Event::EnableMovesSeveral);
    }

    fn watch_status(&mut self, before: &Board) {
        let edge = !new_edges(before, &self.board).is_empty();
        self.counts.note_if(edge, Event::EdgeByStatus);
        let several = moved_wires(before, &self.board) > 1;
        self.counts.note_if(several, Event::StatusDropsSeveral);
        let stays_high = |n: usize| {
            let (old, new) = (&before.timers.timer[n], &self.board.timers.timer[n]);
            let pin = &self.board.controller.pins[usize::from(new.route)];
            old.drives() && !new.drives() && pin.wire && pin.holds_edges() && pin.is_active_low()
        };
        let hidden = before.timers.enabled && (0..TIMERS).any(stays_high);
        self.counts.note_if(hidden, Event::StatusHidden);
    }

    /// Which wires a configuration write moved, and where that made an edge.
    fn watch_configured_wires(&mut self, before: &Board, n: usize) {
        let (old, new) = (before.timers.timer[n], self.board.timers.timer[n]);
        let edges = new_edges(before, &self.board);
        let counts = &mut *self.counts;
        counts.note_if(!edges.is_empty(), Event::EdgeByConfiguration);
        let high = |board: &Board, route: u16| board.controller.pins[usize::from(route)].wire;
        let driven = before.timers.enabled && old.drives();
        let rewritten = driven && new.drives() && old != new;
        counts.note_if(rewritten && old.route == new.route, Event::RewrittenHigh);
        let moved = rewritten
            && old.route != new.route
            && !high(&self.board, old.route)
            && !high(before, new.route);
        counts.note_if(moved, Event::MovedWire);
        for pin in edges {
            let rises = self.board.controller.pins[pin].wire;
            counts.note(if rises { rise(old, new) } else { fall(new) });
        }
    }

    fn watch_configuration(&mut self, before: &Board, n: usize, value: u64) {
        let (old, new) = (before.timers.timer[n], self.board.timers.timer[n]);
        let counts = &mut *self.counts;
        let alone = value & bits::SET_COMPARATOR != 0 && value & bits::PERIODIC == 0;
        counts.note_if(alone, Event::BitSixAlone);
        let above = (value >> bits::ROUTE_SHIFT & bits::ROUTE_MASK) as usize >= PINS;
        counts.note_if(above && old != new, Event::RouteAbove);
        let cleared = old.status && !new.status;
        counts.note_if(above && cleared, Event::RouteAboveStatus);
        counts.note_if(cleared, Event::StatusByEdgeType);
        counts.note_if(old.comparator != new.comparator, Event::NarrowReduces);
        counts.note_if(old.period != new.period, Event::NarrowReducesPeriod);
        self.fired[n] = false;
    }

    fn watch_comparator(&mut self, before: &Board, n: usize, write: &PartWrite) {
        let (old, new) = (before.timers.timer[n], self.board.timers.timer[n]);
        let counts = &mut *self.counts;
        counts.note_if(old.set_comparator, Event::BitSix);
        counts.note_if(old.periodic && !old.set_comparator, Event::PeriodOnly);
        counts.note_if(!old.periodic && old.period != 0, Event::OneShotKeepsPeriod);
        let reduced = old.narrow && !write.part.is_half() && write.value >> 32 != 0;
        counts.note_if(reduced, Event::NarrowWriteReduces);
        let equal = new.comparator != old.comparator && new.matches(before.timers.counter);
        counts.note_if(equal, Event::MadeEqual);
        self.fired[n] = false;
        self.halved[n] = write.part.is_half() && old.periodic;
        self.first_half[n] = Some(write.part).filter(|part| part.is_half() && old.set_comparator);
    }
}

/// What let a timer's wire fall.
fn fall(new: Timer) -> Event {
    match (new.level_type, new.interrupt) {
        (false, _) => Event::EdgeByEdgeType,
        (true, false) => Event::EdgeByInterruptOff,
        (true, true) => Event::EdgeByRouteAway,
    }
}

/// What made a timer's wire rise.
fn rise(old: Timer, new: Timer) -> Event {
    if old.route == new.route {
        Event::EdgeByInterruptOn
    } else {
        Event::EdgeByRouteOn
    }
}

/// The pins that hold an edge since the write.
pub(super) fn new_edges(before: &Board, after: &Board) -> Vec<usize> {
    let (old, new) = (&before.controller.pins, &after.controller.pins);
    (0..PINS).filter(|&pin| !old[pin].held && new[pin].held).collect()
}

/// How many wires changed.
pub(super) fn moved_wires(before: &Board, after: &Board) -> usize {
    let pins = before.controller.pins.iter().zip(&after.controller.pins);
    pins.filter(|(old, new)| old.wire != new.wire).count()
}
