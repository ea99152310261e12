//! What happens on a board with settings: what is read of them, and where routes go.

use super::watch::Watcher;
use super::Event;
use crate::board::{Board, Refusal, CONTROLLER};
use crate::controller::DATA;
use crate::part::{register_at, Part, PartWrite};
use crate::settings::{Settings, ALL_PINS};
use crate::timer::bits;
use crate::timers::{configuration_of, CAPABILITY, TIMERS};

impl Watcher<'_> {
    /// A done read. What reads the same with document 01's settings isn't counted.
    pub(super) fn watch_settings_read(&mut self, window: u64, width: u64, offset: u64) {
        if window == CONTROLLER {
            if offset == DATA {
                self.watch_id_read();
            }
            return;
        }
        let (register, part) = (register_at(offset), Part::reached_by(width, offset));
        let whole = self.board.timers.read_register(register);
        if register == CAPABILITY {
            let usual = Board::RESET.timers.read_register(CAPABILITY);
            let event = match part {
                Part::Whole => Event::CapabilityRead,
                Part::Low => Event::CapabilityReadLow,
                Part::High => Event::CapabilityReadHigh,
            };
            self.counts.note_if(part.of(whole) != part.of(usual), event);
        }
        for n in (0..TIMERS).filter(|&n| register == configuration_of(n)) {
            if self.board.timers.timer[n].mask != ALL_PINS {
                self.counts.note_if(part == Part::Whole, Event::MaskRead);
                self.counts.note_if(part == Part::High, Event::MaskReadHigh);
            }
        }
    }

    fn watch_id_read(&mut self) {
        let id = self.board.controller.id;
        let usual = self.settings.id == Settings::USUAL.id;
        let changed = id != u32::from(self.settings.id);
        let events = match self.board.controller.index {
            0 => [Event::IdRead, Event::IdReadWritten],
            2 => [Event::ArbitrationRead, Event::ArbitrationReadWritten],
            _ => return,
        };
        self.counts.note_if(!usual && !changed, events[0]);
        self.counts.note_if(!usual && changed, events[1]);
    }

    /// A configuration write to a timer whose mask lacks some pin.
    pub(super) fn watch_route(&mut self, before: &Board, n: usize, write: &PartWrite) {
        let (old, new) = (before.timers.timer[n], self.board.timers.timer[n]);
        self.routed[n] |= old.route != new.route;
        if old.mask == ALL_PINS {
            return;
        }
        let counts = &mut *self.counts;
        let high = write.replaced >> bits::MASK_SHIFT != u64::from(old.mask);
        counts.note_if(high && write.part == Part::Whole, Event::MaskWritten);
        counts.note_if(high && write.part == Part::High, Event::MaskHalfWritten);
        let route = (write.replaced >> bits::ROUTE_SHIFT & bits::ROUTE_MASK) as u16;
        let changed = old != new;
        if old.allows(route) {
            counts.note_if(old.route != route, Event::RouteInside);
        } else if route > 23 {
            counts.note_if(changed, Event::RouteAboveMask);
        } else {
            counts.note(if changed { Event::RouteOutside } else { Event::RouteOutsideAlone });
            counts.note_if(old.status && !new.status, Event::RouteOutsideStatus);
            let others = before.timers.timer.iter().any(|timer| timer.allows(route));
            counts.note_if(others, Event::RouteOfAnother);
            counts.note_if(write.part == Part::Low, Event::RouteOutsideHalf);
        }
    }

    /// A firing of timer n that moved its pin's wire, or made an edge there.
    pub(super) fn watch_reset_route(&mut self, n: usize) {
        let timer = &self.board.timers.timer[n];
        let is_reset_route = !self.routed[n] && timer.route != 0;
        let event = if timer.level_type { Event::ResetRouteLevel } else { Event::ResetRoutePulse };
        self.counts.note_if(is_reset_route, event);
    }
}

/// A program's settings record that was refused.
pub(super) fn refused_record(refusal: Refusal) -> Event {
    match refusal {
        Refusal::Short => Event::Settings8,
        Refusal::Mark => Event::Settings6,
        Refusal::Form => Event::Settings9,
        _ => Event::Settings10,
    }
}
