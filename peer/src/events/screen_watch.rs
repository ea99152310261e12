//! Follows a pause screen through a log, record by record.

use super::screen::ScreenEvent::{self as Event, *};
use super::Counts;
use crate::board::TIMER_BLOCK;
use crate::controller::Delivery;
use crate::log::Record;
use crate::mill::{Mill, Screen, Stage};
use crate::pin::{Pin, PINS};
use crate::timers::TIMERS;

/// Follows one log.
pub(super) struct ScreenWatcher<'counts> {
    counts: &'counts mut Counts<Event>,
    mill: Mill,
    key: u8,
    /// The vector of the last delivery while taken.
    second: Option<u8>,
    /// An edge write cleared the key's remote IRR while taken.
    freed: bool,
    /// The timers' routes after the reset.
    routes: [u16; TIMERS],
}

/// A done record, with the key's pin around it and the stage after it.
struct Step<'step> {
    before: &'step Mill,
    record: &'step Record,
    old: Pin,
    new: Pin,
    to: Stage,
    delivered: Option<Delivery>,
}

impl<'counts> ScreenWatcher<'counts> {
    pub(super) fn new(counts: &'counts mut Counts<Event>, mill: Mill, key: u8) -> Self {
        let routes = mill.board.timers.timer.map(|timer| timer.route);
        ScreenWatcher { counts, mill, key, second: None, freed: false, routes }
    }

    fn stage(&self) -> Stage {
        self.mill.screen.map_or(Stage::Running, |Screen { stage, .. }| stage)
    }

    fn key_pin(&self) -> Pin {
        self.mill.board.controller.pins[usize::from(self.key)]
    }

    pub(super) fn watch(&mut self, record: &Record) {
        let (before, old, from) = (self.mill, self.key_pin(), self.stage());
        if record.play(&mut self.mill).starts_with("refused") {
            self.counts.note_if(from == Stage::Asked, RefusedAsked);
            self.counts.note_if(matches!(from, Stage::Taken { .. }), RefusedTaken);
            return;
        }
        let (new, to) = (self.key_pin(), self.stage());
        let delivered = match record {
            Record::Deliver => before.board.controller.clone().deliver(),
            _ => None,
        };
        let step = Step { before: &before, record, old, new, to, delivered };
        match from {
            Stage::Running => self.watch_running(&step),
            Stage::Asked => self.watch_asked(&step),
            Stage::Taken { vector } => self.watch_taken(&step, vector),
            Stage::Paused { vector } => self.watch_paused(&step, vector),
        }
    }

    pub(super) fn finish(self, stopped: bool, with_settings: bool) {
        let is_paused = matches!(self.stage(), Stage::Paused { .. });
        self.counts.note_if(with_settings && is_paused, SettingsPaused);
        let event = match (self.stage(), stopped) {
            (Stage::Running, false) => EndsRunning,
            (Stage::Asked, false) => EndsAsked,
            (Stage::Taken { .. }, false) => EndsTaken,
            (Stage::Paused { .. }, false) => EndsPaused,
            (Stage::Running, true) => return,
            (Stage::Asked, true) => StopsAsked,
            (Stage::Taken { .. }, true) => StopsTaken,
            (Stage::Paused { .. }, true) => StopsPaused,
        };
        self.counts.note(event);
    }

    fn watch_running(&mut self, step: &Step) {
        let newly_held = |pin: usize| {
            let old = &step.before.board.controller.pins[pin];
            !old.held && self.mill.board.controller.pins[pin].held
        };
        let other = (0..PINS).any(|pin| pin != usize::from(self.key) && newly_held(pin));
        let at_reset_route = (0..TIMERS).any(|n| {
            let route = self.mill.board.timers.timer[n].route;
            route == self.key.into() && route == self.routes[n] && route != 0
        });
        let counts = &mut *self.counts;
        if step.to == Stage::Asked {
            let advances = matches!(step.record, Record::Advance { .. });
            counts.note_if(advances && at_reset_route, SettingsByTimer);
            counts.note(match *step.record {
                Record::Wire { .. } => AskedByWire,
                Record::Advance { .. } => AskedByAdvance,
                Record::Write { window, .. } if u64::from(window) == TIMER_BLOCK => AskedByRegister,
                _ => unreachable!("no other record makes an edge"),
            });
        }
        counts.note_if(step.is_press() && step.new.is_masked(), RunningMasked);
        counts.note_if(step.gives_key(self.key), RunningLevel);
        counts.note_if(other, RunningOther);
        counts.note_if(step.gives_other(self.key), RunningOtherDelivered);
        counts.note_if(step.ends(step.old.vector()), RunningEnd);
    }

    fn watch_asked(&mut self, step: &Step) {
        let (key, counts) = (self.key, &mut *self.counts);
        let Step { old, new, .. } = *step;
        if step.gives_key(key) {
            counts.note(if old.is_level() { TakenByLevel } else { TakenByEdge });
            (self.second, self.freed) = (None, false);
            return;
        }
        let delivers = *step.record == Record::Deliver;
        counts.note_if(old.held && !new.held, AskedDropped);
        counts.note_if(old.is_level() && !new.is_level() && !new.held, AskedDroppedEdge);
        counts.note_if(new.held && !old.is_masked() && new.is_masked(), AskedMasked);
        counts.note_if(new.held && old.is_masked() && !new.is_masked(), AskedUnmasked);
        counts.note_if(delivers && old.held && old.is_masked(), AskedPassed);
        counts.note_if(delivers && old.held && !old.is_fixed_mode(), AskedMode);
        counts.note_if(delivers && step.delivered.is_none(), AskedNone);
        counts.note_if(step.gives_other(key), AskedOther);
        let same_vector = step.delivered.is_some_and(|to| to.vector == old.vector());
        counts.note_if(step.gives_other(key) && same_vector, AskedOtherVector);
        counts.note_if(step.ends(old.vector()), AskedEnd);
        counts.note_if(step.is_press() && new.holds_edges(), AskedPress);
        counts.note_if(old.vector() != new.vector(), AskedVector);
    }

    fn watch_taken(&mut self, step: &Step, vector: u8) {
        let (key, counts) = (self.key, &mut *self.counts);
        let Step { old, new, .. } = *step;
        if step.ends(vector) {
            counts.note(PausedByEnd);
            counts.note_if(old.vector() != vector, PausedRewritten);
            counts.note_if(self.second.is_some(), PausedAfterSecond);
            counts.note_if(self.freed, PausedFreed);
            return;
        }
        if let Some(to) = step.delivered.filter(|to| to.pin == key) {
            counts.note(TakenAgain);
            counts.note_if(to.vector != vector, TakenAgainVector);
            counts.note_if(old.is_level(), TakenAgainLevel);
            self.second = Some(to.vector);
        }
        counts.note_if(step.gives_other(key), TakenOther);
        counts.note_if(matches!(step.record, Record::End { .. }), TakenEndOther);
        counts.note_if(step.ends(old.vector()), TakenEndPresent);
        counts.note_if(self.second.is_some_and(|second| step.ends(second)), TakenEndSecond);
        counts.note_if(step.is_press() && new.holds_edges(), TakenPress);
        counts.note_if(old.vector() != new.vector(), TakenVector);
        let freed = old.remote_irr() && !new.is_level();
        counts.note_if(freed, TakenFreed);
        self.freed |= freed;
        counts.note_if(!old.is_level() && new.is_level(), TakenToLevel);
    }

    fn watch_paused(&mut self, step: &Step, vector: u8) {
        let counts = &mut *self.counts;
        counts.note_if(step.is_press() && step.new.holds_edges(), PausedPress);
        counts.note_if(step.gives_key(self.key), PausedDelivery);
        counts.note_if(step.ends(vector), PausedEnd);
        counts.note_if(!step.old.is_level() && step.new.is_level(), PausedToLevel);
    }
}

impl Step<'_> {
    fn ends(&self, vector: u8) -> bool {
        *self.record == Record::End { vector }
    }

    fn gives_key(&self, key: u8) -> bool {
        self.delivered.is_some_and(|to| to.pin == key)
    }

    fn gives_other(&self, key: u8) -> bool {
        self.delivered.is_some_and(|to| to.pin != key)
    }

    /// The key's wire went from not asserted to asserted.
    fn is_press(&self) -> bool {
        self.old.low == self.new.low && !self.old.is_asserted() && self.new.is_asserted()
    }
}
