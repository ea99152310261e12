//! One pin of the interrupt controller: its redirection entry, its wire and its held edge.

/// Number of pins.
pub const PINS: usize = 24;

/// Bits 7:0.
pub const VECTOR: u32 = 0x0000_00FF;
/// Bits 10:8; only mode 000 is ever eligible.
pub const DELIVERY_MODE: u32 = 0x0000_0700;
/// Bit 11.
pub const LOGICAL: u32 = 1 << 11;
/// Bit 12, read only and never stored: 1 exactly for an eligible pin.
pub const DELIVERY_STATUS: u32 = 1 << 12;
/// Bit 13.
pub const ACTIVE_LOW: u32 = 1 << 13;
/// Bit 14, read only, but stored: a level pin waits for its end. An edge entry has 0 there.
pub const REMOTE_IRR: u32 = 1 << 14;
/// Bit 15.
pub const LEVEL: u32 = 1 << 15;
/// Bit 16.
pub const MASK: u32 = 1 << 16;
/// What a write can change in a low word.
pub const WRITABLE: u32 = VECTOR | DELIVERY_MODE | LOGICAL | ACTIVE_LOW | LEVEL | MASK;

/// A pin with its entry.
#[derive(Clone, Copy, PartialEq, Eq, Debug)]
pub struct Pin {
    /// The stored low word: writable bits and remote IRR.
    pub low: u32,
    /// Bits 31:24 of the high word.
    pub destination: u8,
    /// The level of the pin's wire.
    pub wire: bool,
    /// An edge waits to be delivered.
    pub held: bool,
}

impl Pin {
    /// The pin after a reset.
    pub const RESET: Pin = Pin { low: MASK, destination: 0, wire: false, held: false };

    fn has(&self, bit: u32) -> bool {
        self.low & bit != 0
    }

    /// The vector that the entry has at present.
    pub fn vector(&self) -> u8 {
        (self.low & VECTOR) as u8
    }

    /// Bit 11.
    pub fn is_logical(&self) -> bool {
        self.has(LOGICAL)
    }

    /// Level entry; an edge entry otherwise.
    pub fn is_level(&self) -> bool {
        self.has(LEVEL)
    }

    /// Bit 16.
    pub fn is_masked(&self) -> bool {
        self.has(MASK)
    }

    /// Bit 13.
    pub fn is_active_low(&self) -> bool {
        self.has(ACTIVE_LOW)
    }

    /// Bit 14.
    pub fn remote_irr(&self) -> bool {
        self.has(REMOTE_IRR)
    }

    /// Delivery mode 000.
    pub fn is_fixed_mode(&self) -> bool {
        !self.has(DELIVERY_MODE)
    }

    /// Unmasked edge pin: an assertion makes an edge.
    pub fn holds_edges(&self) -> bool {
        !self.is_level() && !self.is_masked()
    }

    /// The wire differs from the active-low bit.
    pub fn is_asserted(&self) -> bool {
        self.wire != self.is_active_low()
    }

    /// A delivery step may take this pin.
    pub fn is_eligible(&self) -> bool {
        let pending =
            if self.is_level() { self.is_asserted() && !self.remote_irr() } else { self.held };
        !self.is_masked() && self.is_fixed_mode() && pending
    }

    /// The low word as it reads.
    pub fn read_low(&self) -> u32 {
        if self.is_eligible() {
            self.low | DELIVERY_STATUS
        } else {
            self.low
        }
    }

    /// A low-word write. It never makes an edge. One that leaves the entry edge sets remote IRR to 0; one that
    /// leaves it level keeps the bit, and drops a held edge. The value written decides which of the two it is.
    pub fn write_low(&mut self, value: u32) {
        let irr = self.low & REMOTE_IRR;
        self.low = value & WRITABLE;
        if self.is_level() {
            self.low |= irr;
            self.held = false;
        }
    }

    /// The high word as it reads.
    pub fn read_high(&self) -> u32 {
        u32::from(self.destination) << 24
    }

    /// A high-word write.
    pub fn write_high(&mut self, value: u32) {
        self.destination = (value >> 24) as u8;
    }

    /// One step of the wire. The assertion before it is taken under the present word, so an
    /// earlier change of polarity can't make an edge here.
    pub fn step_wire(&mut self, level: bool) {
        let before = self.is_asserted();
        self.wire = level;
        if !before && self.is_asserted() && self.holds_edges() {
            self.held = true;
        }
    }

    /// What a delivery of this pin changes.
    pub fn take(&mut self) {
        if self.is_level() {
            self.low |= REMOTE_IRR;
        } else {
            self.held = false;
        }
    }

    /// End of interrupt.
    pub fn end(&mut self, vector: u8) {
        if self.is_level() && self.vector() == vector {
            self.low &= !REMOTE_IRR;
        }
    }

    /// The pin's own part of "well formed"; the wire is the board's.
    pub fn is_well_formed(&self) -> bool {
        self.low & !(WRITABLE | REMOTE_IRR) == 0
            && !(self.is_level() && self.held)
            && (self.is_level() || !self.remote_irr())
    }
}
