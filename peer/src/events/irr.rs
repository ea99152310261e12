//! What becomes of remote IRR in low-word writes, and of a pin that an edge write has freed.

use super::watch::Watcher;
use super::Event;
use crate::board::Board;
use crate::pin::{Pin, PINS};

/// A pin whose remote IRR an edge write cleared, until it is delivered again.
#[derive(Clone, Copy)]
pub(super) struct Freed {
    /// The vector that it was delivered with.
    vector: u8,
    /// That vector was ended since.
    ended: bool,
    /// It wasn't asserted when it was written back as level.
    idle: bool,
}

impl Watcher<'_> {
    /// A low-word write to this pin's entry.
    pub(super) fn watch_irr(&mut self, before: &Board, number: usize) {
        let (old, new) = (before.controller.pins[number], self.board.controller.pins[number]);
        let other_vector = old.vector() != new.vector();
        let counts = &mut *self.counts;
        if old.remote_irr() && new.remote_irr() {
            counts.note(Event::LevelWriteKeeps);
            counts.note_if(other_vector, Event::LevelWriteKeepsVector);
            counts.note_if(new.is_masked(), Event::LevelWriteKeepsMasked);
        } else if old.remote_irr() {
            let masked = new.is_masked();
            counts.note(if masked { Event::EdgeWriteFreesMasked } else { Event::EdgeWriteFrees });
            counts.note_if(!new.is_fixed_mode(), Event::EdgeWriteFreesMode);
            counts.note_if(other_vector, Event::EdgeWriteFreesVector);
            let same_vector = |pin: &Pin| pin.remote_irr() && pin.vector() == old.vector();
            let beside = self.board.controller.pins.iter().any(same_vector);
            counts.note_if(beside, Event::EdgeWriteFreesOne);
            let vector = self.level_vectors[number];
            self.freed[number] = Some(Freed { vector, ended: false, idle: false });
        }
        if let Some(freed) =
            self.freed[number].as_mut().filter(|_| new.is_level() && !old.is_level())
        {
            freed.idle = !new.is_asserted();
            counts.note_if(!freed.ended, Event::EdgeAndBack);
            counts.note_if(!freed.ended && freed.idle, Event::EdgeAndBackIdle);
        }
    }

    /// A read of this pin's low word.
    pub(super) fn watch_freed_read(&mut self, number: usize) {
        let edge = !self.board.controller.pins[number].is_level();
        self.counts.note_if(edge && self.freed[number].is_some(), Event::FreedRead);
    }

    /// A delivery of this pin, which was so before it.
    pub(super) fn watch_freed_delivery(&mut self, number: usize, pin: &Pin) {
        if pin.is_level() {
            self.level_vectors[number] = pin.vector();
        }
        let Some(freed) = self.freed[number].take().filter(|freed| !freed.ended) else { return };
        if pin.is_level() {
            self.counts.note(Event::FreedDelivered);
            self.counts.note_if(freed.idle, Event::FreedDeliveredLater);
        } else {
            self.counts.note(Event::FreedEdgeDelivered);
        }
    }

    /// An end of interrupt with this vector.
    pub(super) fn watch_freed_end(&mut self, vector: u8) {
        for number in 0..PINS {
            let Some(freed) = self.freed[number].as_mut().filter(|freed| freed.vector == vector)
            else {
                continue;
            };
            freed.ended = true;
            let edge = !self.board.controller.pins[number].is_level();
            self.counts.note(if edge { Event::EndFreed } else { Event::EndFreedLevel });
        }
    }
}
