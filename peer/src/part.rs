//! The part of a timer register that an access reaches: all eight bytes, or one half of them.

/// A part of a register.
#[derive(Clone, Copy, PartialEq, Eq, Debug)]
pub enum Part {
    /// All eight bytes.
    Whole,
    /// Bits 31:0, at the register's own offset.
    Low,
    /// Bits 63:32, four bytes further.
    High,
}

/// The offset of the register that has this offset in it.
pub const fn register_at(offset: u64) -> u64 {
    offset & !7
}

impl Part {
    /// The two halves.
    pub const HALVES: [Part; 2] = [Part::Low, Part::High];

    /// What an access of an allowed width reaches at an aligned offset.
    pub fn reached_by(width: u64, offset: u64) -> Part {
        match (width, offset == register_at(offset)) {
            (8, _) => Part::Whole,
            (_, true) => Part::Low,
            (_, false) => Part::High,
        }
    }

    /// How many bytes an access to it has.
    pub fn width(self) -> u64 {
        match self {
            Part::Whole => 8,
            Part::Low | Part::High => 4,
        }
    }

    /// Where it lies in a register.
    pub fn offset_in(self, register: u64) -> u64 {
        match self {
            Part::Whole | Part::Low => register,
            Part::High => register + 4,
        }
    }

    /// It is one of the halves.
    pub fn is_half(self) -> bool {
        self != Part::Whole
    }

    /// The other half; all of it has no other.
    pub fn other(self) -> Part {
        match self {
            Part::Whole => Part::Whole,
            Part::Low => Part::High,
            Part::High => Part::Low,
        }
    }

    fn mask(self) -> u64 {
        match self {
            Part::Whole => u64::MAX,
            Part::Low => 0x0000_0000_FFFF_FFFF,
            Part::High => 0xFFFF_FFFF_0000_0000,
        }
    }

    fn shift(self) -> u32 {
        match self {
            Part::Whole | Part::Low => 0,
            Part::High => 32,
        }
    }

    /// This part of a number.
    pub fn of(self, number: u64) -> u64 {
        (number & self.mask()) >> self.shift()
    }

    /// The number with this part replaced.
    pub fn replace(self, number: u64, value: u64) -> u64 {
        number & !self.mask() | value << self.shift() & self.mask()
    }
}

/// A write to a part of a register.
pub struct PartWrite {
    /// The register's offset.
    pub register: u64,
    /// What is written of it.
    pub part: Part,
    /// The number that is written there.
    pub value: u64,
    /// What the register reads now, with the part replaced.
    pub replaced: u64,
}

impl PartWrite {
    /// The value with the missing half as zeros.
    pub fn alone(&self) -> u64 {
        self.part.replace(0, self.value)
    }
}
