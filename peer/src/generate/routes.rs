//! Boards with settings: routes inside and outside the masks, and looks at what the settings show.

use super::choices::sometimes;
use super::maker::Maker;
use super::settings::pins_of;
use crate::log::Record;
use crate::part::Part;
use crate::pin::{ACTIVE_LOW, PINS};
use crate::settings::{Settings, ALL_PINS};
use crate::timer::bits;
use crate::timers::{comparator_of, configuration_of, CAPABILITY, ENABLE, TIMERS};

impl Maker {
    pub(super) fn has_usual_settings(&self) -> bool {
        self.settings == Settings::USUAL
    }

    fn mask(&self, n: usize) -> u32 {
        self.mill.board.timers.timer[n].mask
    }

    /// The log's pins that a mask has.
    fn pins_in(&self, mask: u32) -> Vec<u8> {
        self.pins.iter().copied().filter(|pin| mask >> pin & 1 != 0).collect()
    }

    /// A pin for timer n, mostly one that it can be routed to.
    pub(super) fn route_pin(&mut self, n: usize) -> u8 {
        let mask = self.mask(n);
        if mask == ALL_PINS || self.random.percent(25) {
            return self.pin();
        }
        let shared = self.pins_in(mask);
        if shared.is_empty() || self.random.percent(15) {
            self.random.choose(&pins_of(mask))
        } else {
            self.random.choose(&shared)
        }
    }

    /// A pin that all timers can be routed to, if there is one.
    pub(super) fn shared_pin(&mut self) -> u8 {
        let mask = (0..TIMERS).fold(ALL_PINS, |mask, n| mask & self.mask(n));
        if mask == ALL_PINS || mask == 0 {
            return self.pin();
        }
        let shared = self.pins_in(mask);
        if shared.is_empty() {
            self.random.choose(&pins_of(mask))
        } else {
            self.random.choose(&shared)
        }
    }

    /// A timer, mostly one that can be routed to the pin.
    pub(super) fn timer_at(&mut self, pin: u8) -> usize {
        let n = self.timer();
        let able: Vec<usize> = (0..TIMERS).filter(|&n| self.mask(n) >> pin & 1 != 0).collect();
        if able.is_empty() || able.contains(&n) {
            n
        } else {
            self.random.choose(&able)
        }
    }

    /// From reset: what the settings show, and often a timer that stays at its reset route.
    pub(super) fn set_settings_scene(&mut self) {
        for _ in 0..1 + self.random.below(4) {
            self.look_at_settings();
        }
        if self.random.percent(60) {
            self.drive_reset_route();
        }
    }

    /// A timer fires where the reset left it, since it is written with that route or with one outside its mask.
    fn drive_reset_route(&mut self) {
        let n = self.timer();
        let pin = self.mill.board.timers.timer[n].route;
        let outside = self.outside_route(n);
        let route = self.random.choose(&[u64::from(pin), outside, outside, 24, 0]);
        let polarity = sometimes(&mut self.random, 25, ACTIVE_LOW.into());
        let word = u64::from(self.vector()) | polarity;
        self.write_index(0x10 + 2 * u64::from(pin), word);
        let kind = bits::INTERRUPT | sometimes(&mut self.random, 40, bits::LEVEL_TYPE);
        self.write_timers(configuration_of(n), kind | route << bits::ROUTE_SHIFT);
        let due = 1 + self.random.below(3);
        self.write_timers(comparator_of(n), due);
        self.write_timers(ENABLE, 1);
        self.push(Record::Advance { ticks: 4 });
        self.deliver(1);
    }

    /// A pin that timer n can't be routed to, often one next to its route, or one of another timer's; any if there is
    /// none.
    fn outside_route(&mut self, n: usize) -> u64 {
        let mask = self.mask(n);
        let route = self.mill.board.timers.timer[n].route;
        let others = (0..TIMERS).fold(0, |others, other| others | self.mask(other));
        let near = [route.wrapping_sub(1), route + 1].map(u64::from);
        let is_outside = |&pin: &u64| pin < PINS as u64 && mask >> pin & 1 == 0;
        let near: Vec<u64> = near.into_iter().filter(is_outside).collect();
        let theirs: Vec<u64> =
            (0..24).filter(is_outside).filter(|pin| others >> pin & 1 != 0).collect();
        let all: Vec<u64> = (0..24).filter(is_outside).collect();
        let lists = [near, theirs, all];
        let some: Vec<&Vec<u64>> = lists.iter().filter(|list| !list.is_empty()).collect();
        if some.is_empty() {
            return self.random.below(24);
        }
        let list = some[self.random.below(some.len() as u64) as usize];
        self.random.choose(list)
    }

    pub(super) fn settings_move(&mut self) {
        match self.random.below(10) {
            0..4 => self.look_at_settings(),
            4..8 => self.move_route(),
            _ => self.write_mask(),
        }
    }

    /// A register that shows some of the settings, whole or in halves; the id also after a write.
    fn look_at_settings(&mut self) {
        let n = self.timer();
        let part = self.random.choose(&[Part::Whole, Part::Whole, Part::Low, Part::High]);
        match self.random.below(10) {
            0..3 => self.read_part(CAPABILITY, part),
            3..6 => {
                let part = self.random.choose(&[Part::Whole, Part::High]);
                self.read_part(configuration_of(n), part);
            }
            6..8 => {
                self.read_index(0);
                self.read_index(2);
            }
            8 => {
                let index = self.random.choose(&[0, 2]);
                self.read_index(index);
            }
            _ => self.id_move(),
        }
    }

    /// A new route inside the mask, outside it or above 23, mostly beside another bit; then what became of it.
    fn move_route(&mut self) {
        let n = self.timer();
        let present = self.mill.board.timers.timer[n].read_configuration();
        let route = match self.random.below(10) {
            0..4 => u64::from(self.random.choose(&pins_of(self.mask(n)))),
            4..8 => self.outside_route(n),
            8 => 24 + self.random.below(8),
            _ => self.random.below(32),
        };
        let flips = [0, bits::LEVEL_TYPE, bits::INTERRUPT, bits::PERIODIC, bits::NARROW, 0x48];
        let flip = self.random.choose(&flips);
        let cleared = present & !(bits::ROUTE_MASK << bits::ROUTE_SHIFT);
        self.write_timers(configuration_of(n), cleared ^ flip | route << bits::ROUTE_SHIFT);
        if self.random.percent(70) {
            self.read_timers(configuration_of(n));
        }
        if self.random.percent(25) {
            self.deliver(1);
        }
    }

    /// A write to bits 63:32 of a configuration, which are read only; whole or as the high half.
    fn write_mask(&mut self) {
        let n = self.timer();
        let present = self.mill.board.timers.timer[n].read_configuration();
        let any = self.random.any();
        let mask = self.random.choose(&[0, 1, ALL_PINS.into(), 1 << 24, any & 0xFFFF_FFFF]);
        let part = self.random.choose(&[Part::Whole, Part::High]);
        self.write_part(
            configuration_of(n),
            part,
            mask << bits::MASK_SHIFT | present & 0xFFFF_FFFF,
        );
        if self.random.percent(50) {
            // A route that only a changed mask would allow, or forbid.
            self.move_route();
        } else {
            self.read_timers(configuration_of(n));
        }
    }
}
