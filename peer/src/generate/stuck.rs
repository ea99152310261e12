//! Remote IRR that is stuck at one: older system software writes the entry as edge and then back as level.

use super::maker::Maker;
use crate::controller::DATA;
use crate::log::Record;
use crate::pin::{Pin, ACTIVE_LOW, DELIVERY_MODE, LEVEL, MASK, REMOTE_IRR, VECTOR};

impl Maker {
    /// A pin that waits for its end is freed by an edge write, and mostly written back; on the way there is what
    /// shows whether it was freed, or what must not free it.
    pub(super) fn free_stuck_pin(&mut self) {
        let pin = self.stuck_pin();
        if self.random.percent(30) {
            self.rewrite_entry(pin, LEVEL);
            self.look_at_entry(pin);
        }
        if self.random.percent(25) {
            self.toggle_wire(pin);
        }
        for _ in 0..1 + self.random.below(6) / 5 {
            self.rewrite_entry(pin, 0);
            if self.random.percent(60) {
                self.read_controller(DATA);
            }
        }
        match self.random.below(10) {
            0..2 => self.end_of(pin),
            2..4 => {
                self.toggle_wire(pin);
                self.deliver(1);
            }
            _ => {}
        }
        if self.random.percent(80) {
            self.rewrite_entry(pin, LEVEL);
            self.look_at_entry(pin);
            if self.random.percent(30) {
                self.toggle_wire(pin);
                self.deliver(1);
            }
            if self.random.percent(20) {
                self.end_of(pin);
                self.deliver(1);
            }
        }
    }

    /// A pin that waits for its end, or one whose entry is written as level and asserted, and mostly delivered.
    fn stuck_pin(&mut self) -> u8 {
        let pins = &self.mill.board.controller.pins;
        let waiting: Vec<usize> = (0..pins.len()).filter(|&pin| pins[pin].remote_irr()).collect();
        if !waiting.is_empty() && self.random.percent(70) {
            return self.random.choose(&waiting) as u8;
        }
        let pin = self.pin();
        let polarity = if self.entry(pin).wire { 0 } else { ACTIVE_LOW };
        let word = LEVEL | polarity | u32::from(self.vector());
        self.write_index(0x10 + 2 * u64::from(pin), word.into());
        let times = 1 + self.random.below(3);
        self.deliver(times);
        pin
    }

    fn entry(&self, pin: u8) -> Pin {
        self.mill.board.controller.pins[usize::from(pin)]
    }

    /// The entry's word with this trigger, and sometimes another mask, mode, polarity or vector. Software that writes
    /// what it has read has a 1 in bit 14.
    fn rewrite_entry(&mut self, pin: u8, trigger: u32) {
        let mut word = self.entry(pin).low & !LEVEL | trigger;
        if self.random.percent(30) {
            word = word & !VECTOR | u32::from(self.vector());
        }
        word = match self.random.below(20) {
            0..5 => word | MASK,
            5..7 => word | 0x100 << self.random.below(3),
            7..9 => word ^ ACTIVE_LOW,
            9..12 => word,
            _ => word & !(MASK | DELIVERY_MODE),
        };
        if self.random.percent(40) {
            word ^= REMOTE_IRR;
        }
        self.write_index(0x10 + 2 * u64::from(pin), word.into());
    }

    /// A read of the entry, or a delivery step, or both.
    fn look_at_entry(&mut self, pin: u8) {
        if self.random.percent(60) {
            self.read_index(0x10 + 2 * u64::from(pin));
        }
        if self.random.percent(70) {
            self.deliver(1);
        }
    }

    fn end_of(&mut self, pin: u8) {
        let vector = self.entry(pin).vector();
        self.push(Record::End { vector });
    }
}
