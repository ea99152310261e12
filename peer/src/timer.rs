//! One timer: its numbers, its configuration and its firing.

use crate::part::Part;
use crate::settings::is_mask;

/// Bits of a timer's configuration.
pub mod bits {
    /// Level type.
    pub const LEVEL_TYPE: u64 = 1 << 1;
    /// Interrupt enable.
    pub const INTERRUPT: u64 = 1 << 2;
    /// Periodic.
    pub const PERIODIC: u64 = 1 << 3;
    /// Set-comparator.
    pub const SET_COMPARATOR: u64 = 1 << 6;
    /// 32-bit mode.
    pub const NARROW: u64 = 1 << 8;
    /// Lowest bit of the route, 13:9.
    pub const ROUTE_SHIFT: u32 = 9;
    /// The route's five bits, shifted down.
    pub const ROUTE_MASK: u64 = 0x1F;
    /// What always reads 1: bits 4 and 5.
    pub const FIXED: u64 = 0x30;
    /// Lowest bit of the route mask, 63:32, which is read only.
    pub const MASK_SHIFT: u32 = 32;
}

/// One timer.
#[derive(Clone, Copy, PartialEq, Eq, Debug)]
pub struct Timer {
    /// The counter value at which it fires.
    pub comparator: u64,
    /// What a periodic firing adds to the comparator.
    pub period: u64,
    /// The pins that it can be wired to, a bit for each; only a reset changes it.
    pub mask: u32,
    /// The pin it is wired to, one of them.
    pub route: u16,
    /// Level type; edge type otherwise.
    pub level_type: bool,
    /// Its interrupt is enabled.
    pub interrupt: bool,
    /// Periodic; one-shot otherwise.
    pub periodic: bool,
    /// The next comparator write sets the comparator too.
    pub set_comparator: bool,
    /// 32-bit mode.
    pub narrow: bool,
    /// It has fired as a level timer.
    pub status: bool,
}

impl Timer {
    /// The timer after a reset that gives it this mask: its route is the mask's lowest pin.
    pub const fn reset_to(mask: u32) -> Timer {
        Timer {
            comparator: u64::MAX,
            period: 0,
            mask,
            route: mask.trailing_zeros() as u16,
            level_type: false,
            interrupt: false,
            periodic: false,
            set_comparator: false,
            narrow: false,
            status: false,
        }
    }

    /// It can be wired to this pin.
    pub fn allows(&self, route: u16) -> bool {
        u64::from(self.mask).checked_shr(route.into()).is_some_and(|bits| bits & 1 != 0)
    }

    /// The number of ticks after which the counter looks the same to this timer.
    fn turn(&self) -> u128 {
        if self.narrow {
            1 << 32
        } else {
            1 << 64
        }
    }

    pub(crate) fn reduce(&self, value: u64) -> u64 {
        (u128::from(value) % self.turn()) as u64
    }

    /// It fires at this counter value.
    pub fn matches(&self, counter: u64) -> bool {
        self.reduce(counter) == self.comparator
    }

    /// Ticks until the counter matches, at least one: being equal already doesn't fire.
    pub fn due_in(&self, counter: u64) -> u128 {
        let ahead = self.reduce(self.comparator.wrapping_sub(counter));
        if ahead == 0 {
            self.turn()
        } else {
            u128::from(ahead)
        }
    }

    fn step(&self) -> u64 {
        if self.periodic {
            self.period
        } else {
            0
        }
    }

    /// What a firing does to the timer itself.
    pub fn fire(&mut self) {
        self.status |= self.level_type;
        self.comparator = self.reduce(self.comparator.wrapping_add(self.step()));
    }

    /// Fires as often as `ticks` ticks from `counter` make it, and says how often that is.
    ///
    /// After a firing the counter equals the old comparator, so the next one is a period away,
    /// or a whole turn if the comparator stays.
    pub fn fire_over(&mut self, counter: u64, ticks: u64) -> u32 {
        let first = self.due_in(counter);
        let ticks = u128::from(ticks);
        if first > ticks {
            return 0;
        }
        let gap = if self.step() == 0 { self.turn() } else { u128::from(self.step()) };
        let firings = 1 + (ticks - first) / gap;
        self.status |= self.level_type;
        let moved = u128::from(self.step()) * firings + u128::from(self.comparator);
        self.comparator = (moved % self.turn()) as u64;
        firings as u32
    }

    /// It holds its pin's wire high, if the block is enabled.
    pub fn drives(&self) -> bool {
        self.level_type && self.interrupt && self.status
    }

    /// A firing raises its pin's wire and drops it again.
    pub fn pulses(&self) -> bool {
        !self.level_type && self.interrupt
    }

    /// The configuration as it reads.
    pub fn read_configuration(&self) -> u64 {
        let flag = |set: bool, bit: u64| if set { bit } else { 0 };
        bits::FIXED
            | flag(self.level_type, bits::LEVEL_TYPE)
            | flag(self.interrupt, bits::INTERRUPT)
            | flag(self.periodic, bits::PERIODIC)
            | flag(self.set_comparator, bits::SET_COMPARATOR)
            | flag(self.narrow, bits::NARROW)
            | u64::from(self.route) << bits::ROUTE_SHIFT
            | u64::from(self.mask) << bits::MASK_SHIFT
    }

    /// A configuration write. A route outside the mask, as all above 23 are, keeps the old one.
    pub fn write_configuration(&mut self, value: u64) {
        let has = |bit: u64| value & bit != 0;
        self.level_type = has(bits::LEVEL_TYPE);
        self.interrupt = has(bits::INTERRUPT);
        self.periodic = has(bits::PERIODIC);
        self.set_comparator = has(bits::SET_COMPARATOR) && self.periodic;
        self.narrow = has(bits::NARROW);
        let route = (value >> bits::ROUTE_SHIFT & bits::ROUTE_MASK) as u16;
        if self.allows(route) {
            self.route = route;
        }
        self.status &= self.level_type;
        self.comparator = self.reduce(self.comparator);
        self.period = self.reduce(self.period);
    }

    /// A number that a comparator write sets: the part is replaced, at the timer's width. So a
    /// high half in 32-bit mode stores 0 and keeps the low half.
    fn rewritten(&self, number: u64, part: Part, value: u64) -> u64 {
        self.reduce(part.replace(number, value))
    }

    /// A comparator write, whole or of a half. Each number keeps its own other half, and the
    /// first half clears bit 6, whichever it is.
    pub fn write_comparator(&mut self, part: Part, value: u64) {
        if self.periodic {
            self.period = self.rewritten(self.period, part, value);
        }
        if !self.periodic || self.set_comparator {
            self.comparator = self.rewritten(self.comparator, part, value);
        }
        self.set_comparator = false;
    }

    /// The timer's part of "well formed".
    pub fn is_well_formed(&self) -> bool {
        (self.periodic || !self.set_comparator)
            && self.reduce(self.comparator) == self.comparator
            && self.reduce(self.period) == self.period
            && is_mask(self.mask)
            && self.allows(self.route)
            && (self.level_type || !self.status)
    }
}
