//! Moves: a few records that belong together.

use super::choices::period;
use super::maker::Maker;
use super::Profile;
use crate::controller::DATA;
use crate::log::Record;
use crate::pin::{Pin, ACTIVE_LOW, LEVEL, MASK};
use crate::timers::{comparator_of, configuration_of, COUNTER, ENABLE, STATUS};

impl Maker {
    pub(super) fn move_by(&mut self, profile: Profile) {
        if !self.has_usual_settings() && self.random.percent(8) {
            return self.settings_move();
        }
        let roll = self.random.below(100);
        match profile {
            Profile::Valid => match roll {
                0..40 => self.controller_move(),
                40..80 => self.timer_move(),
                80..83 => self.set_scene(Profile::Timers),
                83..86 => self.set_level_scene(),
                86..87 => self.set_width_scene(),
                87..88 => self.set_half_scene(),
                88..94 => self.look(),
                _ => self.sweep_some(),
            },
            Profile::Controller => match roll {
                0..80 => self.controller_move(),
                80..88 => self.end_storm(),
                88..92 => self.timer_move(),
                92..97 => self.look_at_entries(),
                _ => self.sweep_some(),
            },
            Profile::Timers => match roll {
                0..65 => self.timer_move(),
                65..75 => self.controller_move(),
                75..80 => self.set_scene(Profile::Timers),
                80..84 => self.set_level_scene(),
                84..86 => self.set_width_scene(),
                86..88 => self.set_half_scene(),
                88..97 => self.look(),
                _ => self.sweep_some(),
            },
            Profile::Pause => self.pause_move(),
            Profile::Adversarial | Profile::Torn => match roll {
                0..50 => self.bad_move(),
                50..70 => self.controller_move(),
                70..90 => self.timer_move(),
                90..92 => self.set_scene(Profile::Timers),
                92..94 => self.set_level_scene(),
                94..95 => self.set_width_scene(),
                95..96 => self.set_half_scene(),
                _ => self.look(),
            },
        }
    }

    pub(super) fn controller_move(&mut self) {
        let pin = u64::from(self.pin());
        match self.random.below(104) {
            0..22 => self.rewrite_low(pin),
            22..48 => self.toggle_wire(pin as u8),
            48..64 => {
                let times = 1 + self.random.below(3);
                self.deliver(times);
            }
            64..78 => self.end(),
            78..86 => self.read_index(0x10 + 2 * pin),
            86..90 => {
                let value = self.random.any() & 0xFFFF_FFFF;
                self.write_index(0x11 + 2 * pin, value);
            }
            90..93 => self.read_index(0x11 + 2 * pin),
            93..96 => self.id_move(),
            96..100 => self.free_stuck_pin(),
            _ => {
                let index = self.random.below(0x100);
                let value = self.random.any() & 0xFFFF_FFFF;
                if self.random.percent(50) {
                    self.write_index(index, value);
                }
                self.read_index(index);
            }
        }
    }

    /// A new low word, or the present one with a single thing changed.
    pub(super) fn rewrite_low(&mut self, pin: u64) {
        let present = self.mill.board.controller.pins[pin as usize].low;
        let word = match self.random.below(100) {
            0..35 => self.low_word(),
            35..50 => present ^ MASK,
            50..62 => present ^ ACTIVE_LOW,
            62..74 => present ^ LEVEL,
            74..82 => present ^ 0x100 << self.random.below(3),
            82..90 => present & !0xFF | u32::from(self.vector()),
            _ => present & !(MASK | 0x700),
        };
        self.write_index(0x10 + 2 * pin, u64::from(word));
        if self.random.percent(30) {
            self.read_controller(DATA);
        }
        if self.random.percent(25) {
            self.deliver(1);
        }
    }

    pub(super) fn toggle_wire(&mut self, pin: u8) {
        let present = u8::from(self.mill.board.outside[usize::from(pin)]);
        let level = if self.random.percent(85) { 1 - present } else { present };
        self.push(Record::Wire { pin, level });
        if self.random.percent(40) {
            self.push(Record::Wire { pin, level: 1 - level });
        }
    }

    /// An end of interrupt, mostly one that some level pin waits for.
    pub(super) fn end(&mut self) {
        let waiting: Vec<u8> = self
            .mill
            .board
            .controller
            .pins
            .iter()
            .filter(|pin| pin.remote_irr())
            .map(Pin::vector)
            .collect();
        let vector = if waiting.is_empty() || self.random.percent(25) {
            self.vector()
        } else {
            self.random.choose(&waiting)
        };
        self.push(Record::End { vector });
    }

    pub(super) fn end_storm(&mut self) {
        for _ in 0..2 + self.random.below(10) {
            self.end();
            if self.random.percent(60) {
                self.deliver(1);
            }
        }
        self.look_at_entries();
    }

    pub(super) fn id_move(&mut self) {
        let value = self.random.any() & 0xFFFF_FFFF;
        let index = self.random.below(3);
        self.write_index(index, value);
        for index in 0..3 {
            self.read_index(index);
        }
    }

    pub(super) fn timer_move(&mut self) {
        let n = self.timer();
        match self.random.below(106) {
            0..34 => self.pass_time(),
            34..48 => self.reconfigure(n),
            48..58 => self.rewrite_comparator(n),
            58..62 => self.calm(),
            62..70 => {
                let on = self.mill.board.timers.enabled;
                let value = self.random.any() & !1 | u64::from(!on);
                self.write_timers(ENABLE, value);
            }
            70..78 => {
                let value =
                    if self.random.percent(80) { self.random.below(8) } else { self.random.any() };
                self.read_timers(STATUS);
                self.write_timers(STATUS, value);
            }
            78..84 => self.rewrite_counter(),
            84..87 => {
                let offset = 8 * self.random.below(0x80);
                if self.random.percent(50) {
                    let value = self.random.any();
                    self.write_timers(offset, value);
                }
                self.read_timers(offset);
            }
            87..93 => self.look_at_timers(),
            93..99 => self.half_move(n),
            _ => {
                let pin = u64::from(self.mill.board.timers.timer[n].route);
                self.rewrite_low(pin);
            }
        }
    }

    pub(super) fn pass_time(&mut self) {
        let ticks = self.ticks();
        self.push(Record::Advance { ticks });
        if self.random.percent(35) {
            self.look();
        } else if self.random.percent(40) {
            self.deliver(1);
        }
    }

    pub(super) fn reconfigure(&mut self, n: usize) {
        let value = self.reconfiguration(n);
        self.write_timers(configuration_of(n), value);
        if self.random.percent(30) {
            self.read_timers(configuration_of(n));
        }
        if self.random.percent(25) {
            self.deliver(1);
        }
    }

    pub(super) fn rewrite_comparator(&mut self, n: usize) {
        let set = self.mill.board.timers.timer[n].set_comparator;
        let value = self.due_or_period(n);
        self.write_timers(comparator_of(n), value);
        if set && self.random.percent(60) {
            let value = period(&mut self.random);
            self.write_timers(comparator_of(n), value);
        }
        if self.random.percent(25) {
            self.read_timers(comparator_of(n));
        }
    }

    /// A new counter value. It is mostly taken, since the block is switched off first.
    pub(super) fn rewrite_counter(&mut self) {
        let value = self.count();
        if self.random.percent(70) {
            self.write_timers(ENABLE, 0);
        }
        self.write_timers(COUNTER, value);
        if self.random.percent(80) {
            self.write_timers(ENABLE, 1);
        }
    }
}
