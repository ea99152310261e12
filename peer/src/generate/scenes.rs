//! Set-ups from which something is bound to happen, looks at everything in which a difference
//! would show, and records that are refused.

use super::choices::{configuration, landmark, low_word, near, period, sometimes};
use super::maker::Maker;
use super::Profile;
use crate::log::Record;
use crate::part::Part;
use crate::pin::{LEVEL, MASK};
use crate::timer::bits;
use crate::timers::{comparator_of, configuration_of, COUNTER, ENABLE, STATUS, TIMERS};

impl Maker {
    pub(super) fn set_scene(&mut self, profile: Profile) {
        if profile == Profile::Pause {
            return self.set_pause_scene();
        }
        for pin in self.pins.clone() {
            let word = self.low_word();
            self.write_index(0x10 + 2 * u64::from(pin), u64::from(word));
        }
        if profile == Profile::Timers || self.random.percent(50) {
            self.set_timer_scene();
        }
    }

    /// Timers that fire soon, often at the same tick and on the same pin, then look closely.
    pub(super) fn set_timer_scene(&mut self) {
        self.write_timers(ENABLE, 0);
        if self.random.percent(70) {
            self.calm();
        }
        let counter = landmark(&mut self.random);
        self.write_timers(COUNTER, counter);
        let shared_pin = self.shared_pin();
        let shared_due = counter.wrapping_add(1 + self.random.below(6));
        let (same_pin, same_due) = (self.random.percent(60), self.random.percent(50));
        for n in 0..TIMERS {
            let pin = if same_pin { shared_pin } else { self.route_pin(n) };
            let due = if same_due { shared_due } else { near(&mut self.random, counter) };
            let base = configuration(&mut self.random) & !bits::SET_COMPARATOR
                | u64::from(pin) << bits::ROUTE_SHIFT;
            let periodic = self.random.percent(60);
            let kind = if periodic { bits::PERIODIC | bits::SET_COMPARATOR } else { 0 };
            self.write_timers(configuration_of(n), base & !bits::PERIODIC | kind);
            self.write_timers(comparator_of(n), due);
            if periodic && self.random.percent(75) {
                let period = period(&mut self.random);
                self.write_timers(comparator_of(n), period);
            }
        }
        if self.random.percent(70) {
            let word = low_word(&mut self.random, self.vectors[0]) & !(MASK | 0x700);
            self.write_index(0x10 + 2 * u64::from(shared_pin), u64::from(word));
        }
        self.write_timers(ENABLE, 1);
        self.pass_time();
        self.look();
    }

    /// A level timer has fired on an edge pin; then writes that may move its wire, one by one.
    pub(super) fn set_level_scene(&mut self) {
        let pin = self.pin();
        self.set_level_scene_at(pin);
    }

    pub(super) fn set_level_scene_at(&mut self, pin: u8) {
        let n = self.timer_at(pin);
        self.write_timers(ENABLE, 0);
        self.calm();
        let word = low_word(&mut self.random, self.vectors[0]) & !(MASK | LEVEL | 0x700);
        self.write_index(0x10 + 2 * u64::from(pin), u64::from(word));
        let interrupt = if self.random.percent(50) { bits::INTERRUPT } else { 0 };
        let level = bits::LEVEL_TYPE | u64::from(pin) << bits::ROUTE_SHIFT;
        self.write_timers(configuration_of(n), level | interrupt);
        let due = self.mill.board.timers.counter.wrapping_add(1 + self.random.below(3));
        self.write_timers(comparator_of(n), due);
        self.write_timers(ENABLE, 1);
        self.push(Record::Advance { ticks: 4 });
        for _ in 0..2 + self.random.below(4) {
            self.move_wire(n);
            self.deliver(1);
        }
    }

    /// A write that may move the wire of timer n.
    fn move_wire(&mut self, n: usize) {
        let present = self.mill.board.timers.timer[n].read_configuration();
        let route = bits::ROUTE_MASK << bits::ROUTE_SHIFT;
        match self.random.below(9) {
            0..3 => self.write_timers(configuration_of(n), present ^ bits::INTERRUPT),
            3 => {
                let other = sometimes(&mut self.random, 70, bits::PERIODIC);
                let part = self.random.choose(&[Part::Whole, Part::Low]);
                self.write_part(configuration_of(n), part, present ^ other);
            }
            4 => {
                let pin = u64::from(self.route_pin(n));
                let moved = present & !route | pin << bits::ROUTE_SHIFT;
                self.write_timers(configuration_of(n), moved);
            }
            5 => self.write_timers(STATUS, 1 << n),
            6 => {
                let value = present & !(bits::LEVEL_TYPE & self.random.any()) | route;
                self.write_timers(configuration_of(n), value);
            }
            7 => self.write_idle_half(n),
            _ => {
                let on = u64::from(!self.mill.board.timers.enabled);
                self.write_timers(ENABLE, on);
            }
        }
    }

    /// A timer with big numbers enters 32-bit mode and leaves it again.
    pub(super) fn set_width_scene(&mut self) {
        let n = self.timer();
        let soon = 2 + self.random.below(4);
        let kind = bits::PERIODIC | bits::SET_COMPARATOR;
        self.write_timers(ENABLE, 0);
        let counter = self.random.below(1 << 33);
        self.write_timers(COUNTER, counter);
        self.write_timers(configuration_of(n), kind);
        self.write_timers(comparator_of(n), counter + soon);
        if self.random.percent(70) {
            let period = (1 << 32) * self.random.below(3) + self.random.below(5);
            self.write_timers(comparator_of(n), period);
        }
        for width in [bits::NARROW, 0] {
            let periodic = if self.random.percent(70) { bits::PERIODIC } else { 0 };
            self.write_timers(configuration_of(n), width | periodic);
            self.read_timers(comparator_of(n));
        }
        self.write_timers(configuration_of(n), bits::PERIODIC);
        self.write_timers(ENABLE, 1);
        let ticks = soon as u32 + self.random.below(4) as u32;
        self.push(Record::Advance { ticks });
        self.read_timers(comparator_of(n));
    }

    /// Takes down what would hide a pulse or a rise.
    pub(super) fn calm(&mut self) {
        self.write_timers(STATUS, 7);
        for pin in self.pins.clone() {
            if self.mill.board.outside[usize::from(pin)] {
                self.push(Record::Wire { pin, level: 0 });
            }
        }
    }

    pub(super) fn look(&mut self) {
        self.look_at_timers();
        self.look_at_entries();
    }

    pub(super) fn look_at_timers(&mut self) {
        self.read_timers(COUNTER);
        self.read_timers(STATUS);
        for n in 0..TIMERS {
            self.read_timers(comparator_of(n));
            if self.random.percent(50) {
                self.read_timers(configuration_of(n));
            }
        }
    }

    pub(super) fn look_at_entries(&mut self) {
        for pin in self.pins.clone() {
            self.read_index(0x10 + 2 * u64::from(pin));
        }
        let times = 1 + self.random.below(4);
        self.deliver(times);
    }

    /// Rarely: all entries and all timer registers.
    pub(super) fn sweep_some(&mut self) {
        if !self.random.percent(20) {
            return self.look();
        }
        for index in 0..0x42 {
            self.read_index(index);
        }
        for offset in (0..0x168).step_by(8) {
            self.read_timers(offset);
        }
        self.deliver(3);
    }

    // What is refused.

    pub(super) fn bad_move(&mut self) {
        if self.random.percent(25) {
            let pin = self.random.choose(&[23, 24, 25, 31, 32, 128, 255, self.pins[0]]);
            let level = self.random.choose(&[0, 1, 2, 3, 128, 255]);
            return self.push(Record::Wire { pin, level });
        }
        if self.random.percent(15) {
            return self.bad_half();
        }
        let window = self.random.choose(&[0, 0, 0, 1, 1, 1, 2, 3, 128, 255]);
        let width = self.random.choose(&[4, 4, 4, 8, 8, 8, 0, 1, 2, 3, 5, 16, 132, 255]);
        let offset = self.bad_offset();
        if self.random.percent(50) {
            return self.push(Record::Read { window, width, offset });
        }
        let value = self.bad_value();
        self.push(Record::Write { window, width, offset, value });
    }

    pub(super) fn bad_offset(&mut self) -> u16 {
        let listed = [
            0x00, 0x10, 0x10, 0x04, 0x08, 0x0F, 0x11, 0x14, 0x20, 0x40, 0xF0, 0xF4, 0x100, 0x108,
            0x120, 0x128, 0x140, 0x148, 0x3F8, 0x3FC, 0x3FF, 0x400, 0x401, 0x404, 0x408, 0x410,
            0x4F0, 0x508, 0x8000, 0xFFF8, 0xFFFF,
        ];
        if self.random.percent(80) {
            self.random.choose(&listed)
        } else {
            self.random.any() as u16
        }
    }

    pub(super) fn bad_value(&mut self) -> u64 {
        match self.random.below(4) {
            0 => self.random.choose(&[1 << 32, (1 << 32) - 1, u64::MAX, 1 << 63, (1 << 32) + 0x10]),
            1 => self.random.any(),
            2 => u64::from(self.low_word()),
            _ => self.random.below(0x40),
        }
    }
}
