//! The board: the controller, the timer block and the wires between them, with every call.

use crate::controller::{Controller, Delivery};
use crate::pin::PINS;
use crate::settings::Settings;
use crate::timers::{Timers, TIMERS};

/// Why a call or a log is refused, by the paper's numbers.
#[derive(Clone, Copy, PartialEq, Eq, Debug)]
#[repr(u8)]
pub enum Refusal {
    /// The window, or the offset in it, doesn't exist.
    Place = 1,
    /// Width or alignment isn't allowed.
    Width = 2,
    /// Pin above 23.
    Pin = 3,
    /// Wire level above 1, or a 4-byte write with more than 32 bits.
    Value = 4,
    /// State not well formed.
    State = 5,
    /// Log, or a settings record: wrong mark.
    Mark = 6,
    /// Log, or a lent entry over a kind: unknown kind.
    Kind = 7,
    /// Log: record cut short. Settings: a record, or a buffer for one, of another length.
    Short = 8,
    /// Settings: unknown form.
    Form = 9,
    /// Settings: a number out of range.
    Range = 10,
    /// A lent buffer has too little room for the answer.
    Room = 12,
    /// The pause key's entry isn't an edge entry.
    Trigger = 14,
}

impl Refusal {
    /// The paper's number.
    pub fn number(self) -> u8 {
        self as u8
    }
}

/// The controller's window.
pub const CONTROLLER: u64 = 0;
/// The timers' window.
pub const TIMER_BLOCK: u64 = 1;

/// The calls; a log can make all but a reset. The model answers them; so does a wrong model.
pub trait Calls {
    /// Resets the board without settings, whatever state it is in; the right answer is always that it is done.
    fn reset(&mut self) -> Result<(), Refusal>;
    /// Reads a register.
    fn read(&mut self, window: u64, width: u64, offset: u64) -> Result<u64, Refusal>;
    /// Writes a register.
    fn write(&mut self, window: u64, width: u64, offset: u64, value: u64) -> Result<(), Refusal>;
    /// Sets a pin's outside wire.
    fn wire(&mut self, pin: u64, level: u64) -> Result<(), Refusal>;
    /// End of interrupt.
    fn end(&mut self, vector: u8) -> Result<(), Refusal>;
    /// Lets time pass; answers how often each timer fired.
    fn advance(&mut self, ticks: u32) -> Result<[u32; TIMERS], Refusal>;
    /// The delivery step.
    fn deliver(&mut self) -> Result<Option<Delivery>, Refusal>;
}

/// The board's state.
#[derive(Clone, Copy, PartialEq, Eq, Debug)]
pub struct Board {
    /// The timer block.
    pub timers: Timers,
    /// The controller, with the level of each pin's wire.
    pub controller: Controller,
    /// The outside wires.
    pub outside: [bool; PINS],
}

impl Board {
    /// The board after a reset without settings, which is document 01's.
    pub const RESET: Board = Board::reset_to(&Settings::USUAL);

    /// The board after a reset with settings.
    pub const fn reset_to(settings: &Settings) -> Board {
        Board {
            timers: Timers::reset_to(settings),
            controller: Controller::reset_to(settings),
            outside: [false; PINS],
        }
    }

    /// A reset with settings: it takes any state, and tests the settings alone. Refused, the board stays.
    pub fn reset_with(&mut self, settings: &Settings) -> Result<(), Refusal> {
        settings.check_range()?;
        *self = Board::reset_to(settings);
        Ok(())
    }

    /// The wire rule, outside a pulse.
    pub fn wire_rule(&self, pin: usize) -> bool {
        self.outside[pin] || self.timers.drive(pin)
    }

    /// "Well formed", all clauses.
    pub fn is_well_formed(&self) -> bool {
        self.controller.is_well_formed()
            && self.timers.is_well_formed()
            && (0..PINS).all(|pin| self.controller.pins[pin].wire == self.wire_rule(pin))
    }

    fn check_state(&self) -> Result<(), Refusal> {
        refuse_unless(self.is_well_formed(), Refusal::State)
    }

    /// The end of a step: every wire takes its new level at once.
    pub fn settle(&mut self) {
        for pin in 0..PINS {
            let level = self.wire_rule(pin);
            self.controller.pins[pin].step_wire(level);
        }
    }

    /// Timer n fires: its own step, then the two steps of a pulse.
    pub fn fire(&mut self, n: usize) {
        self.timers.timer[n].fire();
        self.settle();
        let timer = self.timers.timer[n];
        if timer.pulses() {
            self.controller.pins[usize::from(timer.route)].step_wire(true);
            self.settle();
        }
    }

    /// One tick, word for word; answers which timers fired.
    pub fn tick(&mut self) -> [bool; TIMERS] {
        let mut fired = [false; TIMERS];
        if self.timers.enabled {
            self.timers.counter = self.timers.counter.wrapping_add(1);
            for (n, fired) in fired.iter_mut().enumerate() {
                *fired = self.timers.timer[n].matches(self.timers.counter);
                if *fired {
                    self.fire(n);
                }
            }
        }
        fired
    }

    /// A firing of timer n would change a status, a wire or a held edge now.
    fn is_loud(&self, n: usize) -> bool {
        let mut trial = *self;
        trial.fire(n);
        trial.controller != self.controller
            || trial.timers.timer[n].status != self.timers.timer[n].status
    }

    /// How many of the next ticks pass before one at which a loud timer is due.
    fn quiet_ticks(&self, limit: u64) -> u64 {
        (0..TIMERS)
            .filter(|&n| self.is_loud(n))
            .map(|n| self.timers.timer[n].due_in(self.timers.counter) - 1)
            .fold(limit, |least, ticks| u128::from(least).min(ticks) as u64)
    }

    /// Lets ticks pass in which only quiet timers fire: they move the counter and comparators.
    fn skip(&mut self, ticks: u64) -> [u32; TIMERS] {
        let counter = self.timers.counter;
        self.timers.counter = counter.wrapping_add(ticks);
        self.timers.timer.each_mut().map(|timer| timer.fire_over(counter, ticks))
    }

    /// Jumps from one tick with a loud firing to the next.
    ///
    /// What a firing does to statuses, wires and held edges depends on nothing else that an
    /// advance changes. So a timer that is quiet stays quiet until another one's firing changes
    /// something, and up to the next due tick of a loud timer nothing but the counter and the
    /// comparators moves. Within an advance statuses and held edges are only ever set: three
    /// statuses and one held edge for each timer's pin, so there are at most six loud ticks.
    fn pass(&mut self, ticks: u32) -> [u32; TIMERS] {
        let mut fired = [0; TIMERS];
        let mut left = u64::from(ticks);
        while self.timers.enabled && left > 0 {
            let quiet = self.quiet_ticks(left);
            add(&mut fired, self.skip(quiet));
            left -= quiet;
            if left > 0 {
                add(&mut fired, self.tick().map(u32::from));
                left -= 1;
            }
        }
        fired
    }
}

fn add(sum: &mut [u32; TIMERS], more: [u32; TIMERS]) {
    for (sum, more) in sum.iter_mut().zip(more) {
        *sum += more;
    }
}

pub(crate) fn refuse_unless(condition: bool, refusal: Refusal) -> Result<(), Refusal> {
    if condition {
        Ok(())
    } else {
        Err(refusal)
    }
}

/// The tests of an access after refusal 5, in the paper's order: 1 for the window, 2, 1 for the
/// offset. The windows differ in all three.
pub(crate) fn check_access(window: u64, width: u64, offset: u64) -> Result<(), Refusal> {
    let (is_allowed, exists) = match window {
        CONTROLLER => (width == 4, Controller::has_offset(offset)),
        TIMER_BLOCK => (Timers::allows(width, offset), Timers::has_offset(offset)),
        _ => return Err(Refusal::Place),
    };
    refuse_unless(is_allowed, Refusal::Width)?;
    refuse_unless(exists, Refusal::Place)
}

/// The last test of a write, wherever it goes.
pub(crate) fn check_value(width: u64, value: u64) -> Result<(), Refusal> {
    refuse_unless(width != 4 || value <= u64::from(u32::MAX), Refusal::Value)
}

impl Calls for Board {
    fn reset(&mut self) -> Result<(), Refusal> {
        *self = Board::RESET;
        Ok(())
    }

    fn read(&mut self, window: u64, width: u64, offset: u64) -> Result<u64, Refusal> {
        self.check_state()?;
        check_access(window, width, offset)?;
        Ok(if window == CONTROLLER {
            u64::from(self.controller.read(offset))
        } else {
            self.timers.read(width, offset)
        })
    }

    fn write(&mut self, window: u64, width: u64, offset: u64, value: u64) -> Result<(), Refusal> {
        self.check_state()?;
        check_access(window, width, offset)?;
        check_value(width, value)?;
        if window == CONTROLLER {
            self.controller.write(offset, value as u32);
        } else {
            self.timers.write(width, offset, value);
            self.settle();
        }
        Ok(())
    }

    fn wire(&mut self, pin: u64, level: u64) -> Result<(), Refusal> {
        self.check_state()?;
        refuse_unless(pin < PINS as u64, Refusal::Pin)?;
        refuse_unless(level <= 1, Refusal::Value)?;
        self.outside[pin as usize] = level == 1;
        self.settle();
        Ok(())
    }

    fn end(&mut self, vector: u8) -> Result<(), Refusal> {
        self.check_state()?;
        self.controller.end(vector);
        Ok(())
    }

    fn advance(&mut self, ticks: u32) -> Result<[u32; TIMERS], Refusal> {
        self.check_state()?;
        Ok(self.pass(ticks))
    }

    fn deliver(&mut self) -> Result<Option<Delivery>, Refusal> {
        self.check_state()?;
        Ok(self.controller.deliver())
    }
}
