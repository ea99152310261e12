//! The timer block: three timers, the main counter, and their registers.

use crate::part::{register_at, Part, PartWrite};
use crate::settings::{is_period, Settings};
use crate::timer::Timer;

/// Number of timers.
pub const TIMERS: usize = 3;
/// The offsets end here.
pub const WINDOW_END: u64 = 0x400;

/// Offset of the capability register.
pub const CAPABILITY: u64 = 0x000;
/// Offset of the block's configuration: bit 0 enables it.
pub const ENABLE: u64 = 0x010;
/// Offset of the three status bits.
pub const STATUS: u64 = 0x020;
/// Offset of the main counter.
pub const COUNTER: u64 = 0x0F0;

/// Offset of timer n's configuration.
pub const fn configuration_of(timer: usize) -> u64 {
    0x100 + 0x20 * timer as u64
}

/// Offset of timer n's comparator.
pub const fn comparator_of(timer: usize) -> u64 {
    0x108 + 0x20 * timer as u64
}

/// What the capability register reads beside period and vendor: 64-bit counter, three timers, revision 1.
const CAPABILITIES: u64 = 0x2201;

/// The timer block.
#[derive(Clone, Copy, PartialEq, Eq, Debug)]
pub struct Timers {
    /// The main counter.
    pub counter: u64,
    /// The tick period in femtoseconds, which the capability register shows and nothing else looks at.
    pub tick_period: u32,
    /// The vendor, which it shows too.
    pub vendor: u16,
    /// The counter runs and level timers drive their wires.
    pub enabled: bool,
    /// The timers.
    pub timer: [Timer; TIMERS],
}

/// A register of the block.
enum Register {
    Capability,
    Enable,
    Status,
    Counter,
    Configuration(usize),
    Comparator(usize),
    Unlisted,
}

impl Register {
    fn at(offset: u64) -> Register {
        match offset {
            CAPABILITY => Register::Capability,
            ENABLE => Register::Enable,
            STATUS => Register::Status,
            COUNTER => Register::Counter,
            _ => (0..TIMERS)
                .find_map(|n| match offset {
                    _ if offset == configuration_of(n) => Some(Register::Configuration(n)),
                    _ if offset == comparator_of(n) => Some(Register::Comparator(n)),
                    _ => None,
                })
                .unwrap_or(Register::Unlisted),
        }
    }
}

impl Timers {
    /// The block after a reset with settings.
    pub const fn reset_to(settings: &Settings) -> Timers {
        let [first, second, third] = settings.masks;
        Timers {
            counter: 0,
            tick_period: settings.period,
            vendor: settings.vendor,
            enabled: false,
            timer: [Timer::reset_to(first), Timer::reset_to(second), Timer::reset_to(third)],
        }
    }

    /// Whether the window has something at this offset.
    pub fn has_offset(offset: u64) -> bool {
        offset < WINDOW_END
    }

    /// Whether the paper lists a register at this multiple of 8.
    pub fn is_listed(register: u64) -> bool {
        !matches!(Register::at(register), Register::Unlisted)
    }

    /// Whether the window allows this width at this offset.
    pub fn allows(width: u64, offset: u64) -> bool {
        matches!(width, 4 | 8) && offset.is_multiple_of(width)
    }

    /// A read of an allowed width at an offset that exists.
    pub fn read(&self, width: u64, offset: u64) -> u64 {
        let whole = self.read_register(register_at(offset));
        Part::reached_by(width, offset).of(whole)
    }

    /// The 8-byte value of the register at this offset.
    pub fn read_register(&self, register: u64) -> u64 {
        match Register::at(register) {
            Register::Capability => self.read_capability(),
            Register::Enable => u64::from(self.enabled),
            Register::Status => self.read_status(),
            Register::Counter => self.counter,
            Register::Configuration(n) => self.timer[n].read_configuration(),
            Register::Comparator(n) => self.timer[n].comparator,
            Register::Unlisted => 0,
        }
    }

    fn read_capability(&self) -> u64 {
        u64::from(self.tick_period) << 32 | u64::from(self.vendor) << 16 | CAPABILITIES
    }

    fn read_status(&self) -> u64 {
        (0..TIMERS).map(|n| u64::from(self.timer[n].status) << n).sum()
    }

    /// What a write of an allowed width at an offset that exists is about.
    pub fn part_write(&self, width: u64, offset: u64, value: u64) -> PartWrite {
        let (register, part) = (register_at(offset), Part::reached_by(width, offset));
        let replaced = part.replace(self.read_register(register), value);
        PartWrite { register, part, value, replaced }
    }

    /// A write of an allowed width at an offset that exists, with a value that fits the width.
    ///
    /// A half write replaces that half of what the register reads now and goes on as a write of
    /// the whole, with two exceptions: a status write takes the missing half as zeros, and a
    /// comparator write replaces the half in the numbers that it sets.
    pub fn write(&mut self, width: u64, offset: u64, value: u64) {
        let write = self.part_write(width, offset, value);
        match Register::at(write.register) {
            Register::Enable => self.enabled = write.replaced & 1 != 0,
            Register::Status => self.clear_status(write.alone()),
            Register::Counter if !self.enabled => self.counter = write.replaced,
            Register::Configuration(n) => self.timer[n].write_configuration(write.replaced),
            Register::Comparator(n) => self.timer[n].write_comparator(write.part, value),
            Register::Capability | Register::Counter | Register::Unlisted => {}
        }
    }

    fn clear_status(&mut self, value: u64) {
        for (n, timer) in self.timer.iter_mut().enumerate() {
            timer.status &= value >> n & 1 == 0;
        }
    }

    /// Some level timer holds this pin's wire high.
    pub fn drive(&self, pin: usize) -> bool {
        self.enabled
            && self.timer.iter().any(|timer| timer.drives() && usize::from(timer.route) == pin)
    }

    /// The block's part of "well formed".
    pub fn is_well_formed(&self) -> bool {
        is_period(self.tick_period) && self.timer.iter().all(Timer::is_well_formed)
    }
}
