//! Random calls.

use crate::abi::{kind, Board, Call};
use crate::generate::Pace;
use crate::part::Part;
use crate::pin::{DELIVERY_MODE, LEVEL, MASK, REMOTE_IRR};
use crate::random::Random;

/// Some register of the timers, whole or a half: width and offset.
fn timer_place(random: &mut Random) -> (u64, u64) {
    let register =
        random.choose(&[0x10, 0x20, 0xF0, 0x100, 0x108, 0x120, 0x128, 0x140, 0x148, 0x000, 0x3F8]);
    let part = random.choose(&[Part::Whole, Part::Whole, Part::Low, Part::High]);
    (part.width(), part.offset_in(register))
}

/// One of each call but a reset, with arguments that are not refused.
pub fn each(pace: Pace, random: &mut Random) -> [Call; 8] {
    let (width, offset) = timer_place(random);
    let bits = 8 * width;
    let value = random.any() >> (64 - bits) >> random.below(bits);
    let data = random.choose(&[0x00, 0x10]);
    let word = u64::from(random.any() as u32 & 0x0001_FFFF);
    let ticks = match (random.below(3), pace) {
        (1, _) => random.below(12) as u32,
        (0, Pace::Any) => u32::MAX,
        (_, Pace::Any) => random.any() as u32 >> random.below(32),
        (0, Pace::Short) => 1,
        (_, Pace::Short) => random.below(100) as u32,
    };
    [
        Call::Read { window: 1, width, offset },
        Call::Read { window: 0, width: 4, offset: data },
        Call::Write { window: 1, width, offset, value },
        Call::Write { window: 0, width: 4, offset: data, value: word },
        Call::Wire { pin: random.below(24), level: random.below(2) },
        Call::End { vector: 0x30 + random.below(4) as u8 },
        Call::Advance { ticks },
        Call::Deliver,
    ]
}

/// Any call, a reset and refused accesses to the timers among them.
pub fn any(pace: Pace, random: &mut Random) -> Call {
    let mut calls = each(pace, random).to_vec();
    calls.extend([Call::Reset, at_the_timers(random)]);
    random.choose(&calls)
}

/// A write to the timers, which is refused if its width, alignment, offset or value is bad.
fn at_the_timers(random: &mut Random) -> Call {
    let (_, register) = timer_place(random);
    let width = random.choose(&[4, 4, 4, 4, 8, 8, 0, 1, 2, 3, 5, 16]);
    let offset = register + random.choose(&[0, 0, 0, 4, 4, 2, 0x400]);
    Call::Write { window: 1, width, offset, value: random.any() >> random.below(64) }
}

/// A pin that waits for its end, or any pin if none does.
pub fn waiting_pin(board: &Board, random: &mut Random) -> u64 {
    let waits = |&pin: &u64| board.controller.entries.low[pin as usize] & REMOTE_IRR != 0;
    let waiting: Vec<u64> = (0..24).filter(waits).collect();
    if waiting.is_empty() {
        random.below(24)
    } else {
        random.choose(&waiting)
    }
}

/// Low-word writes to a pin's entry, as edge and as level, and calls in which they show.
pub fn rewrites(board: &Board, pin: u64, random: &mut Random) -> Vec<Call> {
    let mut word = board.controller.entries.low[pin as usize];
    let level = board.controller.entries.level[pin as usize] ^ 1;
    let mut calls = vec![Call::Write { window: 0, width: 4, offset: 0x00, value: 0x10 + 2 * pin }];
    for _ in 0..1 + random.below(4) {
        word ^= random.choose(&[LEVEL, LEVEL, LEVEL | MASK, LEVEL | 1, LEVEL | 0x200, MASK, 1]);
        if random.percent(40) {
            word &= !(MASK | DELIVERY_MODE);
        }
        let value = u64::from(word ^ random.choose(&[0, REMOTE_IRR]));
        calls.push(Call::Write { window: 0, width: 4, offset: 0x10, value });
        calls.push(Call::Read { window: 0, width: 4, offset: 0x10 });
    }
    let shows = [
        Call::Deliver,
        Call::Wire { pin, level: level.into() },
        Call::Deliver,
        Call::End { vector: word as u8 },
        Call::Deliver,
    ];
    calls.extend(shows.into_iter().skip(random.below(3) as usize));
    calls
}

/// Arguments that a log can't have: cut to fewer bits, they would be others.
pub fn wide(random: &mut Random) -> Call {
    let high = random.choose(&[1 << 8, 1 << 16, 1 << 32, 1 << 33, 1 << 63, 0xFFFF_FFFF << 32]);
    let low = random.choose(&[0, 1, 4, 8, 0x10, 0xF0, 0x100]);
    let bit = random.below(2);
    let allowed = if bit == 0 { 4 } else { random.choose(&[4, 8]) };
    let (window, width, offset) = match random.below(3) {
        0 => (high | bit, allowed, low),
        1 => (bit, high | allowed, low),
        _ => (bit, allowed, high | low),
    };
    match random.below(4) {
        0 => Call::Read { window, width, offset },
        1 => Call::Write { window, width, offset, value: random.any() },
        2 => Call::Wire { pin: random.choose(&[4_000_000_000, high, high | 5]), level: bit },
        _ => Call::Wire { pin: 5, level: random.choose(&[high, high | 1, 4_000_000_000]) },
    }
}

// For the entries over a kind and four numbers.

/// How many numbers a kind of the board's calls names; it ignores the others.
pub fn named(kind: u64) -> usize {
    match kind {
        kind::READ => 3,
        kind::WRITE => 4,
        kind::WIRE => 2,
        kind::END | kind::ADVANCE => 1,
        _ => 0,
    }
}

/// Puts something into numbers that are ignored.
pub fn litter(ignored: &mut [u64], random: &mut Random) {
    for number in ignored {
        *number = random.choose(&[0, 1, 5, u64::MAX, random.clone().any()]);
    }
}

/// A kind that isn't among 1 to `last`; with fewer bits it would often be one.
pub fn unknown_kind(last: u64, random: &mut Random) -> u64 {
    let high = random.choose(&[1 << 8, 1 << 16, 1 << 32, 1 << 63, u64::MAX << 8]);
    match random.below(4) {
        0 => random.choose(&[0, last + 1, last + 2, 255, 256, 1 << 32, u64::MAX, (1 << 63) - 1]),
        1 => last + 1 + random.below(250),
        _ => high | random.below(last + 1),
    }
}
