//! Mistakes about remote IRR: what a low-word write makes of it, and boards that should be refused for it.
//!
//! The right model never has remote IRR on an edge entry, and refuses a board that has it. A wrong model that has it
//! there keeps it in its memory, so that the mistake shows and not a refusal 5 that gives it away.

use super::{Mistake, Wrong};
use crate::abi::{Board, Call, Reply};
use crate::pin::{Pin, LEVEL, MASK, REMOTE_IRR};
use crate::sequence::stray_irr;

impl Wrong {
    /// A low-word write, after the right model has made it.
    pub(super) fn damage_irr(&mut self, number: usize, old: &Pin, value: u32) {
        let stray = std::mem::take(&mut self.memory.irr[number]);
        let had = old.remote_irr() || stray;
        let pin = &mut self.board.controller.pins[number];
        if pin.is_level() {
            let has = match self.mistake {
                Mistake::IrrLostOnWrite => false,
                Mistake::IrrLostWithVector => had && pin.vector() == old.vector(),
                Mistake::IrrLostOnMasking => had && !pin.is_masked(),
                Mistake::IrrLostByZero => had && value & REMOTE_IRR != 0,
                Mistake::IrrWritable => value & REMOTE_IRR != 0,
                Mistake::IrrByOldTrigger => had && old.is_level(),
                Mistake::FreedEdgeWaits => old.remote_irr(),
                _ => had,
            };
            pin.low = pin.low & !REMOTE_IRR | if has { REMOTE_IRR } else { 0 };
            return;
        }
        self.memory.irr[number] = match self.mistake {
            Mistake::IrrSurvives | Mistake::IrrBackWithLevel | Mistake::FreedEdgeWaits => had,
            Mistake::IrrLostUnmasked => had && pin.is_masked(),
            Mistake::IrrLostMasked => had && !pin.is_masked(),
            Mistake::IrrLostFixedMode => had && !pin.is_fixed_mode(),
            Mistake::IrrLostSameVector => had && pin.vector() != old.vector(),
            Mistake::IrrLostAsserted => had && !old.is_asserted(),
            Mistake::IrrKeptByOne => had && value & REMOTE_IRR != 0,
            Mistake::IrrWritable => value & REMOTE_IRR != 0,
            Mistake::IrrByOldTrigger => had && old.is_level(),
            _ => false,
        };
        self.free_others(old);
    }

    /// An edge write that clears remote IRR elsewhere.
    fn free_others(&mut self, old: &Pin) {
        for pin in &mut self.board.controller.pins {
            let freed = match self.mistake {
                Mistake::EdgeWriteFreesAll => true,
                Mistake::EdgeWriteEnds => pin.vector() == old.vector(),
                _ => false,
            };
            if freed {
                pin.low &= !REMOTE_IRR;
            }
        }
    }

    /// Bit 14 of an edge entry reads 1, since the mistake has it there.
    pub(super) fn shows_stray_irr(&self, number: usize) -> bool {
        let hidden = matches!(self.mistake, Mistake::IrrBackWithLevel | Mistake::FreedEdgeWaits);
        self.memory.irr[number] && !hidden
    }

    /// A delivery step passes the pin, which the right model would deliver.
    pub(super) fn waits_as_edge(&self, number: usize) -> bool {
        self.memory.irr[number] && self.has(Mistake::FreedEdgeWaits)
    }

    /// An end of interrupt, after the right model has made it.
    pub(super) fn damage_end(&mut self, vector: u8) {
        let pins = self.board.controller.pins.iter_mut().zip(&mut self.memory.irr);
        for (pin, irr) in pins.filter(|(pin, _)| !pin.is_level() && pin.vector() == vector) {
            match self.mistake {
                Mistake::FreedEdgeWaits => *irr = false,
                Mistake::EndDropsEdge => pin.held = false,
                _ => {}
            }
        }
    }
}

impl Mistake {
    /// It is one in what becomes of remote IRR on an edge entry, which is refused with 5.
    pub(super) fn is_of_stray_irr(self) -> bool {
        matches!(
            self,
            Mistake::EdgeIrrTaken
                | Mistake::MaskedEdgeIrrTaken
                | Mistake::HeldEdgeIrrTaken
                | Mistake::LastEdgeIrrTaken
                | Mistake::EdgeIrrMended
        )
    }
}

/// What is answered to a call on a board with remote IRR on an edge entry that the mistake doesn't refuse. It is done
/// and does nothing, or goes on without these bits.
pub(super) fn answer_stray(call: Call, lent: &mut Board, mistake: Mistake) -> Option<Reply> {
    let stray = stray_irr(lent);
    let entries = &mut lent.controller.entries;
    let is_missed = |pin: usize| match mistake {
        Mistake::EdgeIrrTaken | Mistake::EdgeIrrMended => true,
        Mistake::MaskedEdgeIrrTaken => entries.low[pin] & MASK != 0,
        Mistake::HeldEdgeIrrTaken => entries.held[pin] != 0,
        Mistake::LastEdgeIrrTaken => pin == 23,
        _ => false,
    };
    if stray.is_empty() || !stray.iter().all(|&pin| is_missed(pin)) {
        return None;
    }
    if mistake != Mistake::EdgeIrrMended {
        return Some(Reply::default());
    }
    for low in entries.low.iter_mut().filter(|low| **low & LEVEL == 0) {
        *low &= !REMOTE_IRR;
    }
    Some(call.answer(lent))
}
