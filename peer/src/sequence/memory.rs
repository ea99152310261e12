//! Boards that nobody made on purpose: bits flipped, random memory.

use crate::abi::{Board, Controller, Entries, Timer, Timers};
use crate::random::Random;

/// Turns one bit of one field.
pub fn flip_bit(board: &mut Board, random: &mut Random) {
    let place = random.below(24) as usize;
    let bit = random.below(64);
    let entries = &mut board.controller.entries;
    match random.below(20) {
        0 => board.controller.id ^= 1 << (bit % 32),
        1 => board.controller.index ^= 1 << (bit % 32),
        2 => board.timers.enabled ^= 1 << (bit % 32),
        3 => board.timers.counter ^= 1 << bit,
        4 | 5 => entries.low[place] ^= 1 << (bit % 32),
        6 => entries.destination[place] ^= 1 << (bit % 8),
        7 => entries.level[place] ^= 1 << (bit % 8),
        8 => entries.held[place] ^= 1 << (bit % 8),
        9 => board.outside[place] ^= 1 << (bit % 8),
        10 => board.timers.tick_period ^= 1 << (bit % 32),
        11 => board.timers.vendor ^= 1 << (bit % 32),
        12 | 13 => board.timers.masks[place % 3] ^= 1 << (bit % 32),
        _ => {
            let timer = &mut board.timers.timer[random.below(3) as usize];
            flip_timer_bit(timer, random.below(9), bit);
        }
    }
}

fn flip_timer_bit(timer: &mut Timer, field: u64, bit: u64) {
    match field {
        0 => timer.comparator ^= 1 << bit,
        1 => timer.period ^= 1 << bit,
        2 => timer.route ^= 1 << (bit % 16),
        3 => timer.level_type ^= 1 << (bit % 2),
        4 => timer.interrupt ^= 1 << (bit % 2),
        5 => timer.periodic ^= 1 << (bit % 2),
        6 => timer.set_comparator ^= 1 << (bit % 2),
        7 => timer.narrow ^= 1 << (bit % 2),
        _ => timer.status ^= 1 << (bit % 2),
    }
}

/// A board of random bytes.
pub fn random_memory(random: &mut Random) -> Board {
    let mut bytes = || [(); 24].map(|()| random.any() as u8);
    let (destination, level, held, outside) = (bytes(), bytes(), bytes(), bytes());
    Board {
        timers: Timers {
            counter: random.any(),
            tick_period: random.any() as u32,
            vendor: random.any() as u32,
            masks: [(); 3].map(|()| random.any() as u32),
            enabled: random.any() as u32,
            timer: [(); 3].map(|()| random_timer(random)),
        },
        controller: Controller {
            id: random.any() as u32,
            index: random.any() as u32,
            entries: Entries {
                low: [(); 24].map(|()| random.any() as u32),
                destination,
                level,
                held,
            },
        },
        outside,
    }
}

fn random_timer(random: &mut Random) -> Timer {
    let [level_type, interrupt, periodic, set_comparator, narrow, status, ..] =
        random.any().to_le_bytes();
    Timer {
        comparator: random.any(),
        period: random.any(),
        route: random.any() as u16,
        level_type,
        interrupt,
        periodic,
        set_comparator,
        narrow,
        status,
    }
}
