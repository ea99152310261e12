//! The lent board as the model's state, and back.

use super::{Board, Controller, Entries, Timer, Timers};
use crate::board;
use crate::controller;
use crate::pin::{Pin, PINS};
use crate::settings::ALL_PINS;
use crate::timer;
use crate::timers::{self, TIMERS};

/// A flag that is 0 or 1.
fn flag(byte: impl Into<u64>) -> Option<bool> {
    match byte.into() {
        0 => Some(false),
        1 => Some(true),
        _ => None,
    }
}

impl Board {
    /// The model's state, unless some flag or level is neither 0 nor 1, or the vendor has more than 16 bits.
    pub fn model(&self) -> Option<board::Board> {
        let entries = &self.controller.entries;
        let mut pins = [Pin::RESET; PINS];
        let mut outside = [false; PINS];
        for (n, pin) in pins.iter_mut().enumerate() {
            *pin = Pin {
                low: entries.low[n],
                destination: entries.destination[n],
                wire: flag(entries.level[n])?,
                held: flag(entries.held[n])?,
            };
            outside[n] = flag(self.outside[n])?;
        }
        let mut timers = [timer::Timer::reset_to(ALL_PINS); TIMERS];
        let lent = self.timers.timer.iter().zip(self.timers.masks);
        for (timer, (lent, mask)) in timers.iter_mut().zip(lent) {
            *timer = lent.model(mask)?;
        }
        Some(board::Board {
            timers: timers::Timers {
                counter: self.timers.counter,
                tick_period: self.timers.tick_period,
                vendor: u16::try_from(self.timers.vendor).ok()?,
                enabled: flag(self.timers.enabled)?,
                timer: timers,
            },
            controller: controller::Controller {
                id: self.controller.id,
                index: self.controller.index,
                pins,
            },
            outside,
        })
    }

    /// "Well formed", for any memory.
    pub fn is_well_formed(&self) -> bool {
        self.model().is_some_and(|model| model.is_well_formed())
    }
}

impl Timer {
    fn model(&self, mask: u32) -> Option<timer::Timer> {
        Some(timer::Timer {
            comparator: self.comparator,
            period: self.period,
            mask,
            route: self.route,
            level_type: flag(self.level_type)?,
            interrupt: flag(self.interrupt)?,
            periodic: flag(self.periodic)?,
            set_comparator: flag(self.set_comparator)?,
            narrow: flag(self.narrow)?,
            status: flag(self.status)?,
        })
    }
}

impl From<&board::Board> for Board {
    fn from(model: &board::Board) -> Board {
        let pins = &model.controller.pins;
        Board {
            timers: Timers {
                counter: model.timers.counter,
                tick_period: model.timers.tick_period,
                vendor: model.timers.vendor.into(),
                masks: model.timers.timer.map(|timer| timer.mask),
                enabled: model.timers.enabled.into(),
                timer: model.timers.timer.map(Timer::from),
            },
            controller: Controller {
                id: model.controller.id,
                index: model.controller.index,
                entries: Entries {
                    low: pins.map(|pin| pin.low),
                    destination: pins.map(|pin| pin.destination),
                    level: pins.map(|pin| u8::from(pin.wire)),
                    held: pins.map(|pin| u8::from(pin.held)),
                },
            },
            outside: model.outside.map(u8::from),
        }
    }
}

impl From<timer::Timer> for Timer {
    fn from(model: timer::Timer) -> Timer {
        Timer {
            comparator: model.comparator,
            period: model.period,
            route: model.route,
            level_type: u8::from(model.level_type),
            interrupt: u8::from(model.interrupt),
            periodic: u8::from(model.periodic),
            set_comparator: u8::from(model.set_comparator),
            narrow: u8::from(model.narrow),
            status: u8::from(model.status),
        }
    }
}
