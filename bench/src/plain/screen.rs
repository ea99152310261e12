//! The pause screen.

use peer::abi::mill::{Mill, Screen};
use peer::abi::Reply;
use peer::pin::{LEVEL, PINS};

use super::{refused, DONE};

const RUNNING: u16 = 0;
const ASKED: u16 = 1;
const TAKEN: u16 = 2;
const PAUSED: u16 = 3;

fn holds(mill: &Mill, pin: u16) -> bool {
    mill.board.controller.entries.held[usize::from(pin)] != 0
}

/// The screen's part of "well formed".
pub(super) fn fits(mill: &Mill) -> bool {
    let Screen { told, pin, word, vector } = mill.screen;
    if told == 0 {
        return mill.screen == Screen::UNTOLD;
    }
    told == 1
        && usize::from(pin) < PINS
        && match word {
            RUNNING => vector == 0 && !holds(mill, pin),
            ASKED => vector == 0,
            TAKEN | PAUSED => vector <= 255,
            _ => false,
        }
}

/// A done call of the board, and the vector that it ended.
pub(super) fn follow(mill: &mut Mill, reply: &Reply, ended: Option<u8>) {
    let Screen { told, pin, word, vector } = mill.screen;
    if told == 0 {
        return;
    }
    match word {
        RUNNING if holds(mill, pin) => mill.screen.word = ASKED,
        ASKED if reply.delivered != 0 && u16::from(reply.pin) == pin => {
            mill.screen.word = TAKEN;
            mill.screen.vector = reply.vector.into();
        }
        TAKEN if ended.is_some_and(|ended| u16::from(ended) == vector) => mill.screen.word = PAUSED,
        _ => {}
    }
}

fn begin(mill: &mut Mill, pin: u16) -> Reply {
    let word = if holds(mill, pin) { ASKED } else { RUNNING };
    mill.screen = Screen { told: 1, pin, word, vector: 0 };
    DONE
}

pub(super) fn tell(mill: &mut Mill, pin: u64) -> Reply {
    if pin >= PINS as u64 {
        return refused(3);
    }
    if mill.board.controller.entries.low[pin as usize] & LEVEL != 0 {
        return refused(14);
    }
    begin(mill, pin as u16)
}

pub(super) fn resume(mill: &mut Mill) -> Reply {
    if mill.screen.word != PAUSED {
        return DONE;
    }
    begin(mill, mill.screen.pin)
}
