//! The passing of time in the most obvious way: tick by tick, and after each step of a firing the wires of all pins.

use peer::abi::Board;
use peer::timers::TIMERS;

use super::registers::mask;
use super::state::set_level;

/// So many ticks, one after the other.
pub(super) fn walk(board: &mut Board, ticks: u32) -> [u32; TIMERS] {
    let mut fired = [0; TIMERS];
    for _ in 0..ticks {
        tick(board, &mut fired);
    }
    fired
}

fn tick(board: &mut Board, fired: &mut [u32; TIMERS]) {
    board.timers.counter = board.timers.counter.wrapping_add(1);
    for (number, fired) in fired.iter_mut().enumerate() {
        let timer = &board.timers.timer[number];
        if timer.comparator == board.timers.counter & mask(timer) {
            *fired += 1;
            fire(board, number);
        }
    }
}

fn fire(board: &mut Board, number: usize) {
    let timer = &mut board.timers.timer[number];
    if timer.periodic != 0 {
        timer.comparator = timer.comparator.wrapping_add(timer.period) & mask(timer);
    }
    if timer.level_type != 0 {
        timer.status = 1;
        step(board, None);
    } else if timer.interrupt != 0 {
        let pin = usize::from(timer.route);
        step(board, Some(pin));
        step(board, None);
    }
}

/// A step, with a pulse on the wire of this pin if there is one. The block is enabled, or nothing would fire.
fn step(board: &mut Board, pulse: Option<usize>) {
    let mut wires = board.outside;
    for timer in &board.timers.timer {
        wires[usize::from(timer.route)] |= timer.level_type & timer.interrupt & timer.status;
    }
    if let Some(pin) = pulse {
        wires[pin] = 1;
    }
    for (pin, level) in wires.into_iter().enumerate() {
        set_level(&mut board.controller.entries, pin, level);
    }
}
