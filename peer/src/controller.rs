//! The interrupt controller's registers, behind its index and data window.

use crate::pin::{Pin, PINS};
use crate::settings::Settings;

/// Offset of the index register.
pub const INDEX: u64 = 0x00;
/// Offset of the data window.
pub const DATA: u64 = 0x10;

/// What index 1 reads: 24 entries, version 0x11.
const VERSION: u32 = 0x0017_0011;

/// What a delivery step hands over.
#[derive(Clone, Copy, PartialEq, Eq, Debug)]
pub struct Delivery {
    /// The pin's number.
    pub pin: u8,
    /// The entry's vector.
    pub vector: u8,
    /// The entry's destination.
    pub destination: u8,
    /// Bit 11 of the entry.
    pub logical: bool,
}

/// A register behind the data window.
enum Register {
    Id,
    Version,
    Arbitration,
    Low(usize),
    High(usize),
    Unlisted,
}

impl Register {
    fn at(index: u32) -> Register {
        let entry = (index.wrapping_sub(0x10) / 2) as usize;
        match index {
            0x00 => Register::Id,
            0x01 => Register::Version,
            0x02 => Register::Arbitration,
            _ if entry >= PINS => Register::Unlisted,
            _ if index.is_multiple_of(2) => Register::Low(entry),
            _ => Register::High(entry),
        }
    }
}

/// The controller.
#[derive(Clone, Copy, PartialEq, Eq, Debug)]
pub struct Controller {
    /// The id, at most 15.
    pub id: u32,
    /// The index register, at most 255.
    pub index: u32,
    /// The pins.
    pub pins: [Pin; PINS],
}

impl Controller {
    /// The controller after a reset with settings: they say what its id starts at.
    pub const fn reset_to(settings: &Settings) -> Controller {
        Controller { id: settings.id as u32, index: 0, pins: [Pin::RESET; PINS] }
    }

    /// Whether the window has something at this offset.
    pub fn has_offset(offset: u64) -> bool {
        matches!(offset, INDEX | DATA)
    }

    /// A read at an offset that exists.
    pub fn read(&self, offset: u64) -> u32 {
        if offset == INDEX {
            self.index
        } else {
            self.read_data()
        }
    }

    /// A write at an offset that exists.
    pub fn write(&mut self, offset: u64, value: u32) {
        if offset == INDEX {
            self.index = value & 0xFF;
        } else {
            self.write_data(value);
        }
    }

    fn read_data(&self) -> u32 {
        match Register::at(self.index) {
            Register::Id | Register::Arbitration => self.id << 24,
            Register::Version => VERSION,
            Register::Low(pin) => self.pins[pin].read_low(),
            Register::High(pin) => self.pins[pin].read_high(),
            Register::Unlisted => 0,
        }
    }

    fn write_data(&mut self, value: u32) {
        match Register::at(self.index) {
            Register::Id => self.id = value >> 24 & 0xF,
            Register::Low(pin) => self.pins[pin].write_low(value),
            Register::High(pin) => self.pins[pin].write_high(value),
            Register::Version | Register::Arbitration | Register::Unlisted => {}
        }
    }

    /// The delivery step.
    pub fn deliver(&mut self) -> Option<Delivery> {
        let number = self.pins.iter().position(Pin::is_eligible)?;
        let pin = &mut self.pins[number];
        let delivery = Delivery {
            pin: number as u8,
            vector: pin.vector(),
            destination: pin.destination,
            logical: pin.is_logical(),
        };
        pin.take();
        Some(delivery)
    }

    /// End of interrupt.
    pub fn end(&mut self, vector: u8) {
        for pin in &mut self.pins {
            pin.end(vector);
        }
    }

    /// The controller's own part of "well formed".
    pub fn is_well_formed(&self) -> bool {
        self.id <= 15 && self.index <= 255 && self.pins.iter().all(Pin::is_well_formed)
    }
}
