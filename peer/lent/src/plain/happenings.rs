//! What has to come in the calls of the plain engine beside their kinds and answers.

use peer::abi::{kind, Board};
use peer::board::TIMER_BLOCK;
use peer::sequence::plain::Step;

/// What it is, and whether it happens in a call.
type Happening = (&'static str, fn(&Step) -> bool);

/// All that has to come.
pub const HAPPENINGS: [Happening; 30] = [
    ("reset: an ill-formed board", |step| step.call.is_reset() && !step.before.is_well_formed()),
    ("unknown kind 0", |step| is_unknown(step, 0)),
    ("unknown kind 8, which is the mill's", |step| is_unknown(step, 8)),
    ("unknown kind 9, which is the mill's", |step| is_unknown(step, 9)),
    ("unknown kind 2^64 - 1", |step| is_unknown(step, u64::MAX)),
    ("unknown kind with the low eight bits of a known one", |step| {
        step.reply.number == 7 && matches!(step.call.kind as u8, 1..=7)
    }),
    ("end: a number above 255", |step| is_done(step, kind::END) && step.call.numbers[0] > 0xFF),
    ("end: a number above 255 frees a pin", |step| {
        is_done(step, kind::END) && step.call.numbers[0] > 0xFF && step.before != step.after
    }),
    ("end: frees several pins", |step| is_done(step, kind::END) && freed(step) > 1),
    ("advance: by no tick", |step| is_done(step, kind::ADVANCE) && ticks(step) == 0),
    ("advance: by 1,000 ticks or more", |step| {
        is_done(step, kind::ADVANCE) && ticks(step) >= 1_000
    }),
    ("advance: a number above 2^32 - 1", |step| {
        is_done(step, kind::ADVANCE) && step.call.numbers[0] > u32::MAX.into()
    }),
    ("advance: 2^32 - 1 ticks, refused with 5", |step| {
        step.call.kind == kind::ADVANCE && step.reply.number == 5 && ticks(step) == u32::MAX
    }),
    ("advance: of a disabled block", |step| {
        is_done(step, kind::ADVANCE) && ticks(step) > 0 && step.before.timers.enabled == 0
    }),
    ("advance: timer 0 fires", |step| step.reply.fired[0] > 0),
    ("advance: timer 1 fires", |step| step.reply.fired[1] > 0),
    ("advance: timer 2 fires", |step| step.reply.fired[2] > 0),
    ("advance: all three timers fire", |step| !step.reply.fired.contains(&0)),
    ("advance: several firings of a timer", |step| step.reply.fired.iter().any(|&count| count > 1)),
    ("advance: two timers fire that share a pin", |step| {
        let routes = [0, 1, 2].map(|n| fires(step, n).then(|| step.before.timers.timer[n].route));
        (0..3).any(|n| routes[n].is_some() && routes[n + 1..].contains(&routes[n]))
    }),
    ("advance: an edge is held", |step| {
        is_done(step, kind::ADVANCE) && held(&step.after) > held(&step.before)
    }),
    ("advance: a status is set", |step| {
        let set = |board: &Board| board.timers.timer.map(|timer| timer.status);
        is_done(step, kind::ADVANCE) && set(&step.before) != set(&step.after)
    }),
    ("advance: a 32-bit timer fires behind the wrap at 2^32", |step| {
        let wraps = step.before.timers.counter as u32 > step.after.timers.counter as u32;
        wraps && (0..3).any(|n| fires(step, n) && step.before.timers.timer[n].narrow == 1)
    }),
    ("advance: a timer fires, and the counter wraps at 2^64", |step| {
        step.reply.fired != [0; 3] && step.before.timers.counter > step.after.timers.counter
    }),
    ("write: to the timers, an edge is held", |step| {
        is_done(step, kind::WRITE) && held(&step.after) > held(&step.before)
    }),
    ("delivered: an edge pin", |step| step.reply.delivered == 1 && !is_level(step)),
    ("delivered: a level pin", |step| step.reply.delivered == 1 && is_level(step)),
    ("read: half of a timer register", |step| is_half(step, kind::READ, 0)),
    ("write: half of a timer register", |step| is_half(step, kind::WRITE, 0)),
    ("write: half of a timer register, refused for its value", |step| {
        is_half(step, kind::WRITE, 4)
    }),
];

fn is_done(step: &Step, kind: u64) -> bool {
    step.call.kind == kind && step.reply.number == 0
}

fn is_unknown(step: &Step, kind: u64) -> bool {
    step.call.kind == kind && step.reply.number == 7
}

fn is_half(step: &Step, kind: u64, number: u32) -> bool {
    let [window, width, ..] = step.call.numbers;
    (step.call.kind, window, width, step.reply.number) == (kind, TIMER_BLOCK, 4, number)
}

/// What of an advance's number counts.
fn ticks(step: &Step) -> u32 {
    step.call.numbers[0] as u32
}

fn fires(step: &Step, n: usize) -> bool {
    step.reply.fired[n] > 0
}

/// How many edges are held.
fn held(board: &Board) -> usize {
    board.controller.entries.held.iter().filter(|&&held| held == 1).count()
}

/// How many pins lose their remote IRR.
fn freed(step: &Step) -> usize {
    let low = |board: &Board| board.controller.entries.low;
    low(&step.before).iter().zip(low(&step.after)).filter(|&(&old, new)| old != new).count()
}

/// The delivered pin's entry is level.
fn is_level(step: &Step) -> bool {
    step.before.controller.entries.low[usize::from(step.reply.pin)] & 1 << 15 != 0
}
