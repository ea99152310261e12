//! Timer registers in halves: where a half is unlike the whole, and what is refused there.

use super::choices::sometimes;
use super::maker::Maker;
use crate::log::Record;
use crate::part::Part;
use crate::timer::bits;
use crate::timers::{comparator_of, configuration_of, CAPABILITY, COUNTER, ENABLE, STATUS};

impl Maker {
    /// A half of some register, and a look at what it left.
    pub(super) fn half_move(&mut self, n: usize) {
        let half = self.half();
        let register = match self.random.below(100) {
            0..35 => comparator_of(n),
            35..55 => configuration_of(n),
            55..65 => STATUS,
            65..72 => ENABLE,
            72..90 => COUNTER,
            90..93 => CAPABILITY,
            _ => 8 * self.random.below(0x80),
        };
        let number = self.number_for(register, n);
        self.write_part(register, half, number);
        if self.random.percent(40) {
            self.write_part(register, half.other(), number);
        }
        self.read_timers(register);
        if self.random.percent(30) {
            self.look_at_timers();
        }
    }

    /// A number whose halves both tell something at this register.
    fn number_for(&mut self, register: u64, n: usize) -> u64 {
        match register {
            STATUS => self.random.below(8) << 32 | self.random.below(8),
            COUNTER => self.count(),
            _ if register == comparator_of(n) => {
                let number = self.due_or_period(n);
                number ^ sometimes(&mut self.random, 40, 1 << 33)
            }
            _ if register == configuration_of(n) => {
                let stray = self.random.any() << 32;
                self.reconfiguration(n) & 0xFFFF_FFFF | stray
            }
            _ => self.random.any(),
        }
    }

    /// A high half that leaves everything as it is.
    pub(super) fn write_idle_half(&mut self, n: usize) {
        let register = self.random.choose(&[STATUS, STATUS, configuration_of(n), ENABLE]);
        let number = self.number_for(register, n);
        self.write_part(register, Part::High, number);
        self.read_timers(STATUS);
    }

    /// A timer whose numbers differ in every half; halves of its comparator; and a firing, in which
    /// the period shows. Then the counter goes back to where the other timers are due.
    pub(super) fn set_half_scene(&mut self) {
        let n = self.timer();
        let count = self.mill.board.timers.counter;
        let (configuration, comparator) = (configuration_of(n), comparator_of(n));
        let width = sometimes(&mut self.random, 40, bits::NARROW);
        self.write_timers(ENABLE, 0);
        let both = bits::PERIODIC | bits::SET_COMPARATOR;
        self.write_timers(configuration, width | both);
        for _ in 0..2 {
            let number = self.random.any();
            self.write_part(comparator, Part::Whole, number);
        }
        let kind = self.random.choose(&[0, bits::PERIODIC, both, both]);
        self.write_timers(configuration, width | kind);
        let half = self.half();
        self.rewrite_half(n, half);
        if self.random.percent(60) {
            self.rewrite_half(n, half.other());
        }
        let start = self.mill.board.timers.timer[n].comparator.wrapping_sub(1);
        self.write_part(COUNTER, Part::Whole, start);
        self.write_timers(ENABLE, 1);
        let ticks = 1 + self.random.below(3) as u32;
        self.push(Record::Advance { ticks });
        self.read_timers(comparator);
        self.write_timers(ENABLE, 0);
        self.write_part(COUNTER, Part::Whole, count);
        self.reconfigure(n);
        self.rewrite_comparator(n);
        self.write_timers(ENABLE, 1);
    }

    /// A new half of a comparator register, and what is left of bit 6.
    fn rewrite_half(&mut self, n: usize, half: Part) {
        if self.random.percent(20) {
            let number = self.random.any();
            self.write_part(configuration_of(n), Part::High, number);
        }
        let number = self.random.any();
        self.write_part(comparator_of(n), half, number);
        self.read_timers(comparator_of(n));
        if self.random.percent(60) {
            self.read_timers(configuration_of(n));
        }
    }

    /// An access to the timers at a border of what is allowed there.
    pub(super) fn bad_half(&mut self) {
        let width = self.random.choose(&[4, 4, 4, 4, 4, 4, 8, 8, 0, 1, 2, 3, 5, 16, 255]);
        let listed = [
            0x000, 0x004, 0x002, 0x00C, 0x010, 0x014, 0x016, 0x020, 0x024, 0x0F0, 0x0F4, 0x0F1,
            0x100, 0x104, 0x108, 0x10C, 0x12C, 0x14C, 0x150, 0x204, 0x3F8, 0x3FC, 0x3FC, 0x3FE,
            0x400, 0x402, 0x404, 0x40C,
        ];
        let offset = self.random.choose(&listed);
        if self.random.percent(30) {
            return self.push(Record::Read { window: 1, width, offset });
        }
        let value = self.bad_value();
        self.push(Record::Write { window: 1, width, offset, value });
    }
}
