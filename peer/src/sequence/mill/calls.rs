//! Random calls of a mill.

use crate::abi::mill::{kind, Asked, Mill, MillCall};
use crate::abi::Call;
use crate::generate::Pace;
use crate::random::Random;
use crate::sequence::calls;

/// A call with something in the numbers that it ignores.
pub fn littered(asked: Asked, random: &mut Random) -> MillCall {
    let mut call = MillCall::new(asked);
    let named = if call.kind == kind::TELL { 1 } else { calls::named(call.kind) };
    calls::litter(&mut call.numbers[named..], random);
    call
}

/// One of each call but a reset, the board's with arguments that are not refused, a telling that is
/// always refused, and an unknown kind.
pub fn each(random: &mut Random) -> Vec<MillCall> {
    let board = calls::each(Pace::Any, random);
    let mut asked: Vec<Asked> = board.into_iter().map(Asked::Board).collect();
    asked.extend([Asked::Tell(random.below(24)), Asked::Tell(24 + random.below(9)), Asked::Resume]);
    let mut calls: Vec<MillCall> = asked.into_iter().map(|asked| littered(asked, random)).collect();
    calls.push(unknown(random));
    calls
}

/// Any call, a reset among them, and often one that the mill's screen follows.
pub fn any(mill: &Mill, random: &mut Random) -> MillCall {
    let roll = random.below(100);
    match roll {
        0..30 => littered(Asked::Board(calls::any(Pace::Any, random)), random),
        30..88 => littered(near(mill, random), random),
        88..96 => wide(mill, random),
        _ => unknown(random),
    }
}

/// A call about the pause key, or about some pin if there is none.
fn near(mill: &Mill, random: &mut Random) -> Asked {
    let told = mill.screen.told == 1;
    let key = if told { mill.screen.pin.into() } else { random.below(24) };
    let entries = &mill.board.controller.entries;
    let word = entries.low.get(key as usize).copied().unwrap_or(0);
    let level = entries.level.get(key as usize).copied().unwrap_or(0);
    let vectors = [mill.screen.vector as u8, word as u8, 0x30 + random.below(4) as u8];
    Asked::Board(match random.below(12) {
        0..2 => Call::Deliver,
        2..4 => Call::Wire { pin: key, level: u64::from(level ^ 1) },
        4..7 => Call::End { vector: random.choose(&vectors) },
        7 => Call::Write { window: 0, width: 4, offset: 0, value: 0x10 + 2 * key },
        8 => {
            let bits = random.choose(&[1 << 15, 1 << 16, 1, 2, 1 << 13]);
            let value = u64::from(word ^ bits);
            Call::Write { window: 0, width: 4, offset: 0x10, value }
        }
        9..11 => return Asked::Tell(random.choose(&[key, key, random.clone().below(24), 24])),
        _ => return Asked::Resume,
    })
}

/// Numbers that a call cuts, or must not cut.
pub fn wide(mill: &Mill, random: &mut Random) -> MillCall {
    let high = random.choose(&[1 << 8, 1 << 16, 1 << 31, 1 << 32, 1 << 33, 1 << 63]);
    let number = match random.below(4) {
        0 => random.any(),
        1 => u64::MAX,
        _ => high | random.choose(&[u64::from(mill.screen.vector), 0x30, 3, 23, 1]),
    };
    let kind = random.choose(&[kind::END, kind::END, kind::ADVANCE, kind::TELL, kind::TELL]);
    match random.below(3) {
        0 => MillCall::new(Asked::Board(calls::wide(random))),
        _ => MillCall { kind, numbers: [number, random.any(), random.any(), random.any()] },
    }
}

fn unknown(random: &mut Random) -> MillCall {
    let kind = calls::unknown_kind(kind::RESUME, random);
    MillCall { kind, numbers: [(); 4].map(|()| random.below(24)) }
}
