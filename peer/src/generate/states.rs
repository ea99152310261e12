//! Random well-formed states.

use super::choices::{any_pin, configuration, landmark, low_word, near, period, sometimes};
use super::settings::{pins_of, random_settings};
use crate::board::Board;
use crate::controller::Controller;
use crate::pin::{Pin, PINS, REMOTE_IRR};
use crate::random::Random;
use crate::settings::Settings;
use crate::timer::{bits, Timer};
use crate::timers::Timers;

/// A random well-formed state, mostly with settings of its own.
pub fn random_board(random: &mut Random) -> Board {
    let pins: Vec<u8> = (0..1 + random.below(4)).map(|_| any_pin(random)).collect();
    let counter = landmark(random);
    let settings = if random.percent(60) { random_settings(random) } else { Settings::USUAL };
    let Settings { vendor, period: tick_period, masks, .. } = settings;
    let timer = masks.map(|mask| random_timer(random, counter, &pins, mask));
    let mut board = Board {
        timers: Timers { counter, tick_period, vendor, enabled: random.percent(85), timer },
        controller: Controller {
            id: random.below(16) as u32,
            index: random.below(256) as u32,
            pins: [(); PINS].map(|()| random_pin(random)),
        },
        outside: [(); PINS].map(|()| random.percent(30)),
    };
    for pin in 0..PINS {
        board.controller.pins[pin].wire = board.wire_rule(pin);
    }
    board
}

fn random_pin(random: &mut Random) -> Pin {
    let vector = 0x30 + random.below(4) as u8;
    let mut pin = Pin { destination: random.any() as u8, ..Pin::RESET };
    pin.write_low(low_word(random, vector));
    if pin.is_level() {
        pin.low |= sometimes(random, 40, REMOTE_IRR.into()) as u32;
    } else {
        pin.held = random.percent(25);
    }
    pin
}

/// Its route is one of the pins if the mask has one of them.
fn random_timer(random: &mut Random, counter: u64, pins: &[u8], mask: u32) -> Timer {
    let mut timer = Timer::reset_to(mask);
    timer.comparator = near(random, counter);
    timer.period = period(random);
    let all: Vec<u8> = pins_of(mask);
    let shared: Vec<u8> = pins.iter().copied().filter(|pin| all.contains(pin)).collect();
    let some = if shared.is_empty() || random.percent(10) { &all } else { &shared };
    let route = u64::from(random.choose(some)) << bits::ROUTE_SHIFT;
    timer.write_configuration(configuration(random) | route);
    timer.status = timer.level_type && random.percent(40);
    timer
}
