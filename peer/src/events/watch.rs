//! Follows a log record by record; advances are in [`super::ticks`], timer register writes in
//! [`super::registers`] and [`super::halves`], what becomes of remote IRR in [`super::irr`], what settings show in
//! [`super::settings`].

use super::irr::Freed;
use super::{Counts, Event};
use crate::board::{Board, CONTROLLER, TIMER_BLOCK};
use crate::controller::{Controller, DATA};
use crate::log::Record;
use crate::part::Part;
use crate::pin::{Pin, PINS};
use crate::settings::Settings;
use crate::timers::{configuration_of, TIMERS};

/// Follows one log.
pub(super) struct Watcher<'counts> {
    pub(super) counts: &'counts mut Counts<Event>,
    pub(super) board: Board,
    /// What it was reset with.
    pub(super) settings: Settings,
    /// The timer's route isn't its reset route any more.
    pub(super) routed: [bool; TIMERS],
    /// The timer fired, and its comparator wasn't written since.
    pub(super) fired: [bool; TIMERS],
    /// The last write to the timer's period was one of a half.
    pub(super) halved: [bool; TIMERS],
    /// The half that took bit 6, if its comparator wasn't written since.
    pub(super) first_half: [Option<Part>; TIMERS],
    /// The vector that the pin was last delivered with as a level pin.
    pub(super) level_vectors: [u8; PINS],
    /// An edge write cleared the pin's remote IRR, and it wasn't delivered since.
    pub(super) freed: [Option<Freed>; PINS],
}

impl<'counts> Watcher<'counts> {
    pub(super) fn new(counts: &'counts mut Counts<Event>, settings: Settings) -> Self {
        Watcher {
            counts,
            board: Board::reset_to(&settings),
            settings,
            routed: [false; TIMERS],
            fired: [false; TIMERS],
            halved: [false; TIMERS],
            first_half: [None; TIMERS],
            level_vectors: [0; PINS],
            freed: [None; PINS],
        }
    }
}

impl Watcher<'_> {
    pub(super) fn watch(&mut self, record: &Record) {
        let before = self.board;
        let line = record.play(&mut self.board);
        if let Some(number) = line.strip_prefix("refused ") {
            return self.watch_refusal(record, number);
        }
        match *record {
            Record::Read { window, width, offset } => {
                self.watch_read(u64::from(window), width, u64::from(offset));
            }
            Record::Write { window, width, offset, value } => {
                if u64::from(window) == CONTROLLER {
                    self.watch_controller_write(&before, u64::from(offset));
                } else {
                    let write = before.timers.part_write(width.into(), offset.into(), value);
                    self.watch_timer_write(&before, &write);
                }
            }
            Record::Wire { pin, level } => self.watch_wire(&before, usize::from(pin), level == 1),
            Record::End { vector } => {
                self.watch_end(&before);
                self.watch_freed_end(vector);
            }
            Record::Advance { ticks } => self.watch_advance(before, ticks),
            Record::Deliver => self.watch_delivery(&before),
        }
        self.watch_modes(&before);
    }

    fn watch_refusal(&mut self, record: &Record, number: &str) {
        let event = match number {
            "1" => Event::Refused1,
            "2" => Event::Refused2,
            "3" => Event::Refused3,
            _ => Event::Refused4,
        };
        self.counts.note(event);
        match *record {
            Record::Wire { pin, level } => {
                let both = usize::from(pin) >= PINS && level > 1;
                self.counts.note_if(both, Event::PinBeforeLevel);
            }
            Record::Read { window, width, offset } => {
                self.watch_bad_access(u64::from(window), width, u64::from(offset), 0);
            }
            Record::Write { window, width, offset, value } => {
                self.watch_bad_access(u64::from(window), width, u64::from(offset), value);
            }
            _ => {}
        }
    }

    fn watch_bad_access(&mut self, window: u64, width: u8, offset: u64, value: u64) {
        let bad_width = width != 4 && width != 8;
        self.counts.note_if(window > TIMER_BLOCK && bad_width, Event::WindowBeforeWidth);
        if window == CONTROLLER && !Controller::has_offset(offset) {
            self.counts.note_if(width != 4, Event::WidthBeforeOffset);
            let big = width == 4 && value > u64::from(u32::MAX);
            self.counts.note_if(big, Event::OffsetBeforeValue);
        }
        if window == TIMER_BLOCK {
            self.watch_bad_timer_access(u64::from(width), offset, value);
        }
    }

    fn watch_read(&mut self, window: u64, width: u8, offset: u64) {
        self.watch_settings_read(window, width.into(), offset);
        if window == CONTROLLER && offset == DATA {
            let index = self.board.controller.index as usize;
            self.counts.note_if(matches!(index, 3..0x10 | 0x40..), Event::Unlisted);
            if let Some(number) = low_word_pin(&self.board) {
                let pin = &self.board.controller.pins[number];
                self.counts.note_if(pin.is_eligible(), Event::StatusBitRead);
                self.counts.note_if(pin.remote_irr(), Event::IrrRead);
                self.watch_freed_read(number);
            }
        } else if window == TIMER_BLOCK {
            for n in 0..TIMERS {
                let set = self.board.timers.timer[n].set_comparator;
                let read = offset == configuration_of(n) && set;
                self.counts.note_if(read, Event::BitSixRead);
            }
            self.counts.note_if(offset >= 0x160, Event::Unlisted);
            if width == 4 {
                self.watch_half_read(offset);
            }
        }
    }

    fn watch_controller_write(&mut self, before: &Board, offset: u64) {
        let Some(number) = low_word_pin(before).filter(|_| offset == DATA) else { return };
        let (old, new) = (&before.controller.pins[number], &self.board.controller.pins[number]);
        let counts = &mut *self.counts;
        counts.note_if(old.held && !new.held, Event::HeldDropped);
        counts.note_if(new.held && new.is_masked() && !old.is_masked(), Event::HeldMasked);
        counts.note_if(new.held && old.is_masked() && !new.is_masked(), Event::HeldUnmasked);
        let edge = !new.is_level() && !new.is_masked();
        let asserts = !old.is_asserted() && new.is_asserted();
        counts.note_if(edge && asserts, Event::PolarityAsserts);
        self.watch_irr(before, number);
    }

    fn watch_wire(&mut self, before: &Board, number: usize, level: bool) {
        let (old, new) = (&before.controller.pins[number], &self.board.controller.pins[number]);
        let counts = &mut *self.counts;
        let edge = !old.held && new.held;
        counts.note_if(edge && level, Event::WireEdge);
        counts.note_if(edge && !level, Event::WireEdgeActiveLow);
        let asserts = !old.is_asserted() && new.is_asserted();
        counts.note_if(asserts && new.is_masked() && !new.is_level(), Event::WireMasked);
        let changed = before.outside[number] != level;
        counts.note_if(changed && old.wire == new.wire, Event::WireHidden);
        counts.note_if(!changed, Event::WireSame);
    }

    fn watch_end(&mut self, before: &Board) {
        let freed = before
            .controller
            .pins
            .iter()
            .zip(&self.board.controller.pins)
            .filter(|(old, new)| old.remote_irr() && !new.remote_irr())
            .count();
        let event = match freed {
            0 => Event::EndNothing,
            1 => Event::EndOne,
            _ => Event::EndSeveral,
        };
        self.counts.note(event);
    }

    fn watch_delivery(&mut self, before: &Board) {
        let pins = &before.controller.pins;
        let counts = &mut *self.counts;
        let Some(number) = pins.iter().position(Pin::is_eligible) else {
            return counts.note(Event::DeliverNone);
        };
        let pin = &pins[number];
        counts.note(if pin.is_level() { Event::DeliverLevel } else { Event::DeliverEdge });
        let several = pins.iter().filter(|pin| pin.is_eligible()).count() > 1;
        counts.note_if(several, Event::DeliverLowest);
        let other_mode = |pin: &Pin| Pin { low: pin.low & !0x700, ..*pin }.is_eligible();
        counts.note_if(pins[..number].iter().any(other_mode), Event::DeliverPastMode);
        let waits = pins.iter().any(|pin| pin.is_level() && pin.remote_irr());
        counts.note_if(pin.is_level() && waits, Event::DeliverBesideIrr);
        counts.note_if(!pin.is_level() && waits, Event::DeliverEdgeBesideIrr);
        self.watch_freed_delivery(number, pin);
    }

    /// Edges held on pins with another mode, whatever made them.
    fn watch_modes(&mut self, before: &Board) {
        let held = before
            .controller
            .pins
            .iter()
            .zip(&self.board.controller.pins)
            .any(|(old, new)| !old.held && new.held && !new.is_fixed_mode());
        self.counts.note_if(held, Event::OtherModeHolds);
    }
}

/// The pin whose low word the data window shows.
fn low_word_pin(board: &Board) -> Option<usize> {
    let index = board.controller.index as usize;
    let low = index >= 0x10 && index.is_multiple_of(2) && index < 0x10 + 2 * PINS;
    low.then(|| (index - 0x10) / 2)
}
