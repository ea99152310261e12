//! Random numbers for registers, near the places where something turns.

use crate::pin::{ACTIVE_LOW, LEVEL, LOGICAL, MASK, PINS};
use crate::random::Random;
use crate::timer::bits;

pub(super) fn any_pin(random: &mut Random) -> u8 {
    random.below(PINS as u64) as u8
}

pub(super) fn sometimes(random: &mut Random, chance: u64, bit: u64) -> u64 {
    if random.percent(chance) {
        bit
    } else {
        0
    }
}

pub(super) fn low_word(random: &mut Random, vector: u8) -> u32 {
    if random.percent(4) {
        return random.any() as u32;
    }
    let mode = sometimes(random, 15, random.clone().below(8) << 8);
    let word = mode
        | sometimes(random, 50, LOGICAL.into())
        | sometimes(random, 45, ACTIVE_LOW.into())
        | sometimes(random, 35, LEVEL.into())
        | sometimes(random, 15, MASK.into());
    u32::from(vector) | word as u32
}

/// A configuration without its route; some writes have stray bits.
pub(super) fn configuration(random: &mut Random) -> u64 {
    let stray = !(bits::ROUTE_MASK << bits::ROUTE_SHIFT | 0x14E);
    sometimes(random, 15, stray & random.clone().any())
        | sometimes(random, 45, bits::LEVEL_TYPE)
        | sometimes(random, 75, bits::INTERRUPT)
        | sometimes(random, 50, bits::PERIODIC)
        | sometimes(random, 45, bits::SET_COMPARATOR)
        | sometimes(random, 45, bits::NARROW)
}

/// Counter values from which a wrap, or nothing special, is near.
pub(super) fn landmark(random: &mut Random) -> u64 {
    let base: u64 = random.choose(&[0, 0, 0, 1 << 32, 1 << 32, 5 << 32, 1 << 63]);
    match random.below(100) {
        0..60 => base.wrapping_sub(random.below(6)),
        60..90 => base.wrapping_add(random.below(20)),
        _ => random.any() >> random.below(64),
    }
}

/// A comparator that the counter meets soon, or just missed.
pub(super) fn near(random: &mut Random, counter: u64) -> u64 {
    match random.below(100) {
        0..68 => counter.wrapping_add(1 + random.below(8)),
        68..76 => counter,
        76..82 => counter.wrapping_sub(random.below(4)),
        82..90 => landmark(random),
        90..95 => counter.wrapping_add(1 << 32).wrapping_add(random.below(3)),
        _ => random.any() >> random.below(64),
    }
}

pub(super) fn period(random: &mut Random) -> u64 {
    match random.below(100) {
        0..14 => 0,
        14..32 => 1,
        32..46 => 2,
        46..66 => 3 + random.below(9),
        66..72 => (1 << 31) - 1 + random.below(3),
        72..84 => (1u64 << 32).wrapping_sub(random.below(4)),
        84..92 => 0u64.wrapping_sub(1 + random.below(4)),
        _ => random.any() >> random.below(64),
    }
}
