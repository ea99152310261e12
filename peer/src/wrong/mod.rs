//! Wrong models: the right one with one deliberate mistake.
//!
//! The right model stays free of hooks. A wrong one lets it answer, and then damages the answer
//! or the state; where that can't be done, it goes its own way for a while.

mod halves;
mod irr;
mod log;
mod mistake;
mod reads;
mod reset;
mod routes;
pub mod salvage;
pub mod screen;
pub mod settings;
mod time;
mod writes;

pub use log::replay;
pub use mistake::Mistake;
pub use reset::replies;

use crate::board::{Board, Calls, Refusal};
use crate::controller::Delivery;
use crate::part::Part;
use crate::pin::{Pin, DELIVERY_MODE, MASK, PINS, REMOTE_IRR};
use crate::settings::Settings;
use crate::timers::TIMERS;

/// A model with a mistake.
pub struct Wrong {
    mistake: Mistake,
    /// What the board was reset with.
    settings: Settings,
    board: Board,
    memory: Memory,
}

/// What a wrong model remembers beside the board.
#[derive(Default)]
struct Memory {
    /// Each pin's assertion after the last step.
    asserted: [bool; PINS],
    /// Held edges that the right model merged, or dropped.
    edges: [bool; PINS],
    /// The vector that each pin was delivered with.
    vectors: [u8; PINS],
    /// Remote IRR on an edge entry, which the right model never has.
    irr: [bool; PINS],
    /// The timer has fired since its comparator was written.
    fired: [bool; TIMERS],
    /// Bit 6, or a status, that the right model doesn't have.
    bits: [bool; TIMERS],
    /// The number before 32-bit mode reduced it.
    wide: [Option<u64>; TIMERS],
    /// The half of a comparator that came since bit 6 was written.
    first_half: [Option<Part>; TIMERS],
    /// A route above 23 that was written.
    above: [Option<u64>; TIMERS],
    /// The reset route isn't shown.
    hidden: [bool; TIMERS],
    /// The masks, if they can be written.
    masks: [u32; TIMERS],
}

impl Wrong {
    /// The wrong model after a reset with settings.
    pub fn new(mistake: Mistake, settings: &Settings) -> Wrong {
        let (board, memory) = (Board::reset_to(settings), Memory::default());
        let mut wrong = Wrong { mistake, settings: *settings, board, memory };
        wrong.damage_settings();
        wrong
    }

    fn has(&self, mistake: Mistake) -> bool {
        self.mistake == mistake
    }

    /// Mistakes about edges, after every step that isn't a low-word write.
    fn damage_step(&mut self, before: &Board) {
        for (number, old) in before.controller.pins.iter().enumerate() {
            let pin = &mut self.board.controller.pins[number];
            let rises = !old.is_asserted() && pin.is_asserted() && !pin.is_level();
            match self.mistake {
                Mistake::OtherModeDead if !pin.is_fixed_mode() => pin.held &= old.held,
                Mistake::MaskedEdgeHeld if pin.is_masked() => pin.held |= rises,
                Mistake::DeassertClearsIrr if pin.is_level() && !pin.is_asserted() => {
                    pin.low &= !REMOTE_IRR;
                }
                Mistake::EdgesCounted => self.memory.edges[number] |= rises && old.held,
                Mistake::StaleAssertion => {
                    let stale = !self.memory.asserted[number] && pin.is_asserted();
                    pin.held |= stale && !pin.is_level() && !pin.is_masked();
                    self.memory.asserted[number] = pin.is_asserted();
                }
                _ => {}
            }
        }
    }

    fn held(board: &Board) -> [bool; PINS] {
        board.controller.pins.map(|pin| pin.held)
    }

    fn restore_held(&mut self, before: &Board) {
        for (pin, held) in self.board.controller.pins.iter_mut().zip(Wrong::held(before)) {
            pin.held = held;
        }
    }

    /// The pin that this model's delivery step takes.
    fn chosen(&self) -> Option<usize> {
        let pins = &self.board.controller.pins;
        match self.mistake {
            Mistake::DeliversNone => None,
            Mistake::GlobalWait if pins.iter().any(|pin| pin.is_level() && pin.remote_irr()) => {
                None
            }
            Mistake::DeliversHighest => pins.iter().rposition(Pin::is_eligible),
            Mistake::OtherModeDelivered => pins.iter().position(|pin| without(pin, DELIVERY_MODE)),
            Mistake::MaskIgnored => pins.iter().position(|pin| without(pin, MASK)),
            _ => (0..PINS).find(|&pin| pins[pin].is_eligible() && !self.waits_as_edge(pin)),
        }
    }

    fn take(&mut self, number: usize) {
        let pin = &mut self.board.controller.pins[number];
        self.memory.vectors[number] = pin.vector();
        pin.take();
        if self.mistake == Mistake::NoIrr {
            pin.low &= !REMOTE_IRR;
        }
        if pin.is_level() {
            return;
        }
        match self.mistake {
            Mistake::EdgesCounted => pin.held = std::mem::take(&mut self.memory.edges[number]),
            Mistake::EdgeSetsIrr => self.memory.irr[number] = true,
            _ => {}
        }
    }
}

/// The pin would be eligible without these bits.
fn without(pin: &Pin, bits: u32) -> bool {
    Pin { low: pin.low & !bits, ..*pin }.is_eligible()
}

impl Calls for Wrong {
    fn reset(&mut self) -> Result<(), Refusal> {
        self.wrong_reset()
    }

    fn read(&mut self, window: u64, width: u64, offset: u64) -> Result<u64, Refusal> {
        let offset = self.wrong_offset(window, width, offset);
        self.wrong_refusal(window, width, offset, 0)?;
        if self.ignores(window, width, offset, 0) {
            return Ok(0);
        }
        let value = self.board.read(window, width, offset)?;
        Ok(self.wrong_read(window, width, offset, value))
    }

    fn write(&mut self, window: u64, width: u64, offset: u64, value: u64) -> Result<(), Refusal> {
        let offset = self.wrong_offset(window, width, offset);
        self.wrong_refusal(window, width, offset, value)?;
        if self.ignores(window, width, offset, value) {
            return Ok(());
        }
        let offset = self.wrong_half(window, width, offset);
        self.wrong_write(window, width, offset, value)
    }

    fn wire(&mut self, pin: u64, level: u64) -> Result<(), Refusal> {
        match self.mistake {
            Mistake::AlwaysRefuses => return Err(Refusal::State),
            Mistake::LevelBeforePin if level > 1 => return Err(Refusal::Value),
            Mistake::PinTwentyFour if pin == PINS as u64 && level <= 1 => return Ok(()),
            _ => {}
        }
        let level = if self.has(Mistake::LevelTwo) { level.min(1) } else { level };
        let before = self.board;
        self.board.wire(pin, level)?;
        self.damage_step(&before);
        Ok(())
    }

    fn end(&mut self, vector: u8) -> Result<(), Refusal> {
        let vectors = self.memory.vectors;
        let mut pins = self.board.controller.pins.iter_mut().enumerate();
        match self.mistake {
            Mistake::AlwaysRefuses => return Err(Refusal::State),
            Mistake::EndByPin => {
                if let Some((_, pin)) = pins.find(|(_, pin)| pin.is_level() && pin.remote_irr()) {
                    pin.low &= !REMOTE_IRR;
                }
            }
            Mistake::EndByOldVector => pins
                .filter(|(number, pin)| pin.is_level() && vectors[*number] == vector)
                .for_each(|(_, pin)| pin.low &= !REMOTE_IRR),
            _ => self.board.end(vector)?,
        }
        self.damage_end(vector);
        Ok(())
    }

    fn advance(&mut self, ticks: u32) -> Result<[u32; TIMERS], Refusal> {
        if self.has(Mistake::AlwaysRefuses) {
            return Err(Refusal::State);
        }
        let before = self.board;
        let fired = self.wrong_advance(ticks)?;
        self.damage_step(&before);
        Ok(fired)
    }

    fn deliver(&mut self) -> Result<Option<Delivery>, Refusal> {
        if self.has(Mistake::AlwaysRefuses) {
            return Err(Refusal::State);
        }
        let Some(number) = self.chosen() else { return Ok(None) };
        let pin = self.board.controller.pins[number];
        let delivery = Delivery {
            pin: number as u8,
            vector: pin.vector(),
            destination: pin.destination,
            logical: pin.is_logical() && !self.has(Mistake::LogicalZero),
        };
        self.take(number);
        Ok(Some(delivery))
    }
}
