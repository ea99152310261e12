//! The clauses of "well formed", and how to break each alone.

use crate::abi::{Board, Timer};
use crate::pin::{LEVEL, MASK, REMOTE_IRR};
use crate::random::Random;
use crate::settings::{is_period, LONGEST_PERIOD};

/// A clause.
pub struct Clause {
    /// What it says.
    pub name: &'static str,
    holds: fn(&Board) -> bool,
    break_it: fn(&mut Board, &mut Random),
}

impl Clause {
    /// Breaks this clause in a well-formed board and leaves every other one whole.
    pub fn break_alone(&self, board: &mut Board, random: &mut Random) {
        (self.break_it)(board, random);
        assert_eq!(broken(board), [self.name], "one clause is broken alone");
    }
}

/// The names of the clauses that are broken.
pub fn broken(board: &Board) -> Vec<&'static str> {
    CLAUSES.iter().filter(|clause| !(clause.holds)(board)).map(|clause| clause.name).collect()
}

/// The edge entries that have remote IRR, if this is all that keeps the board from being well formed.
pub fn stray_irr(board: &Board) -> Vec<usize> {
    if broken(board) == [EDGE_WITHOUT_IRR] {
        (0..24).filter(|&pin| has_stray_irr(board, pin)).collect()
    } else {
        Vec::new()
    }
}

/// What the clause of K4 says.
const EDGE_WITHOUT_IRR: &str = "an edge entry has remote IRR 0";

/// What K6 says of a route. A mask of 0 and a route above 23 go against other clauses.
const ROUTE_IN_MASK: &str = "routes are in their masks";

/// The names of the clauses of K6.
pub const SETTINGS_CLAUSES: [&str; 5] = [
    "the tick period is 1 to 100,000,000",
    "the vendor fits 16 bits",
    "masks are not 0",
    "masks are below 2^24",
    ROUTE_IN_MASK,
];

/// All clauses.
pub const CLAUSES: &[Clause] = &[
    Clause {
        name: "the id is at most 15",
        holds: |board| board.controller.id <= 15,
        break_it: |board, random| board.controller.id = 16 + above(random),
    },
    Clause {
        name: "the index is at most 255",
        holds: |board| board.controller.index <= 255,
        break_it: |board, random| board.controller.index = 256 + above(random),
    },
    Clause {
        name: "the enable bit is 0 or 1",
        holds: |board| board.timers.enabled <= 1,
        break_it: |board, random| {
            board.timers.enabled = random.choose(&[2, 3, 1 << 8, 1 << 16 | 1, 1 << 31]);
            settle(board);
        },
    },
    Clause {
        name: "the tick period is 1 to 100,000,000",
        holds: |board| is_period(board.timers.tick_period),
        break_it: |board, random| {
            let above = LONGEST_PERIOD + 1;
            board.timers.tick_period = random.choose(&[0, 0, above, above, 1 << 27, u32::MAX]);
        },
    },
    Clause {
        name: "the vendor fits 16 bits",
        holds: |board| board.timers.vendor >> 16 == 0,
        break_it: |board, random| board.timers.vendor |= 1 << (16 + random.below(16)),
    },
    Clause {
        name: "masks are not 0",
        holds: |board| board.timers.masks.iter().all(|&mask| mask != 0),
        break_it: |board, random| board.timers.masks[random.below(3) as usize] = 0,
    },
    Clause {
        name: "masks are below 2^24",
        holds: |board| board.timers.masks.iter().all(|mask| mask >> 24 == 0),
        break_it: |board, random| {
            let bit = random.choose(&[24, 24, 25, 31]);
            board.timers.masks[random.below(3) as usize] |= 1 << bit;
        },
    },
    Clause {
        name: ROUTE_IN_MASK,
        holds: |board| (0..3).all(|n| !has_stray_route(board, n)),
        break_it: |board, random| {
            lose_route(board, random.below(3) as usize, random);
            settle(board);
        },
    },
    Clause {
        name: "low words have writable bits only, beside remote IRR",
        holds: |board| board.controller.entries.low.iter().all(|low| low & 0xFFFE_1000 == 0),
        break_it: |board, random| {
            let bit = random.choose(&[12, 17, 18, 24, 31]);
            board.controller.entries.low[pin(random)] |= 1 << bit;
        },
    },
    Clause {
        name: EDGE_WITHOUT_IRR,
        holds: |board| !(0..24).any(|pin| has_stray_irr(board, pin)),
        break_it: |board, random| {
            // Mostly one entry.
            for _ in 0..1 + random.below(5) / 4 {
                let pin = if random.percent(25) { random.choose(&[0, 23]) } else { pin(random) };
                stray(board, pin, random);
            }
        },
    },
    Clause {
        name: "no edge is held on a level pin",
        holds: |board| {
            (0..24).all(|pin| is_edge(board, pin) || board.controller.entries.held[pin] == 0)
        },
        break_it: |board, random| {
            let pin = pin(random);
            board.controller.entries.low[pin] |= LEVEL;
            board.controller.entries.held[pin] = 1;
        },
    },
    Clause {
        name: "held edges are 0 or 1",
        holds: |board| are_flags(&board.controller.entries.held),
        break_it: |board, random| {
            let pin = pin(random);
            board.controller.entries.low[pin] &= !(LEVEL | REMOTE_IRR);
            board.controller.entries.held[pin] = no_flag(random);
        },
    },
    Clause {
        name: "outside wires are 0 or 1",
        holds: |board| are_flags(&board.outside),
        break_it: |board, random| {
            board.outside[pin(random)] = no_flag(random);
            settle(board);
        },
    },
    Clause {
        name: "pin levels are those of the wire rule",
        holds: |board| board.controller.entries.level == wires(board),
        break_it: |board, random| {
            let level = &mut board.controller.entries.level[pin(random)];
            *level = if random.percent(50) { no_flag(random) } else { 1 - *level };
        },
    },
    Clause {
        name: "routes are at most 23",
        holds: |board| all_timers(board, |timer| timer.route <= 23),
        break_it: |board, random| {
            timer(board, random).route = 24 + random.choose(&[0, 1, 7, 8, 232, 0xFFE7]);
            settle(board);
        },
    },
    Clause {
        name: "set-comparator is 0 unless periodic",
        holds: |board| all_timers(board, |timer| timer.set_comparator == 0 || timer.periodic != 0),
        break_it: |board, random| {
            let timer = timer(board, random);
            (timer.periodic, timer.set_comparator) = (0, 1);
        },
    },
    Clause {
        name: "32-bit comparators are below 2^32",
        holds: |board| all_timers(board, |timer| timer.narrow == 0 || timer.comparator >> 32 == 0),
        break_it: |board, random| {
            let timer = timer(board, random);
            timer.narrow = 1;
            timer.period &= 0xFFFF_FFFF;
            timer.comparator = wide(random);
        },
    },
    Clause {
        name: "32-bit periods are below 2^32",
        holds: |board| all_timers(board, |timer| timer.narrow == 0 || timer.period >> 32 == 0),
        break_it: |board, random| {
            let timer = timer(board, random);
            timer.narrow = 1;
            timer.comparator &= 0xFFFF_FFFF;
            timer.period = wide(random);
        },
    },
    Clause {
        name: "an edge timer's status is 0",
        holds: |board| all_timers(board, |timer| timer.status == 0 || timer.level_type != 0),
        break_it: |board, random| {
            let timer = timer(board, random);
            (timer.level_type, timer.status) = (0, 1);
            settle(board);
        },
    },
    Clause {
        name: "level type is 0 or 1",
        holds: |board| all_timers(board, |timer| timer.level_type <= 1),
        break_it: |board, random| {
            timer(board, random).level_type = no_flag(random);
            settle(board);
        },
    },
    Clause {
        name: "interrupt enable is 0 or 1",
        holds: |board| all_timers(board, |timer| timer.interrupt <= 1),
        break_it: |board, random| {
            timer(board, random).interrupt = no_flag(random);
            settle(board);
        },
    },
    Clause {
        name: "periodic is 0 or 1",
        holds: |board| all_timers(board, |timer| timer.periodic <= 1),
        break_it: |board, random| timer(board, random).periodic = no_flag(random),
    },
    Clause {
        name: "set-comparator is 0 or 1",
        holds: |board| all_timers(board, |timer| timer.set_comparator <= 1),
        break_it: |board, random| {
            let set = no_flag(random);
            let timer = timer(board, random);
            (timer.periodic, timer.set_comparator) = (1, set);
        },
    },
    Clause {
        name: "32-bit mode is 0 or 1",
        holds: |board| all_timers(board, |timer| timer.narrow <= 1),
        break_it: |board, random| {
            let narrow = no_flag(random);
            let timer = timer(board, random);
            timer.narrow = narrow;
            timer.comparator &= 0xFFFF_FFFF;
            timer.period &= 0xFFFF_FFFF;
        },
    },
    Clause {
        name: "status is 0 or 1",
        holds: |board| all_timers(board, |timer| timer.status <= 1),
        break_it: |board, random| {
            let status = no_flag(random);
            let timer = timer(board, random);
            (timer.level_type, timer.status) = (1, status);
            settle(board);
        },
    },
];

fn is_edge(board: &Board, pin: usize) -> bool {
    board.controller.entries.low[pin] & LEVEL == 0
}

fn has_stray_irr(board: &Board, pin: usize) -> bool {
    is_edge(board, pin) && board.controller.entries.low[pin] & REMOTE_IRR != 0
}

fn has_stray_route(board: &Board, n: usize) -> bool {
    let (mask, route) = (board.timers.masks[n], board.timers.timer[n].route);
    mask != 0 && route <= 23 && mask >> route & 1 == 0
}

/// Takes the route out of its timer's mask, or moves it to a pin that isn't there.
fn lose_route(board: &mut Board, n: usize, random: &mut Random) {
    let (mask, route) = (&mut board.timers.masks[n], &mut board.timers.timer[n].route);
    let outside: Vec<u16> = (0..24).filter(|pin| *mask >> pin & 1 == 0).collect();
    if !outside.is_empty() && random.percent(60) {
        *route = random.choose(&outside);
        return;
    }
    *mask &= !(1 << *route);
    if *mask == 0 {
        // A neighbour: a test that is off by one takes it.
        *mask = 1 << if *route == 0 { 1 } else { *route - 1 };
    }
}

/// Puts remote IRR on an edge entry: that of the pin, or one that was level and waited for its end.
fn stray(board: &mut Board, pin: usize, random: &mut Random) {
    let entries = &mut board.controller.entries;
    let waiting =
        |&other: &usize| entries.low[other] & LEVEL != 0 && entries.low[other] & REMOTE_IRR != 0;
    let waiting: Vec<usize> = (0..24).filter(waiting).collect();
    if !waiting.is_empty() && random.percent(40) {
        entries.low[random.choose(&waiting)] &= !LEVEL;
        return;
    }
    if entries.low[pin] & LEVEL != 0 || random.percent(60) {
        entries.low[pin] = entries.low[pin] & !(LEVEL | MASK) | random.choose(&[0, MASK]);
        entries.held[pin] = random.choose(&[0, 1]);
    }
    entries.low[pin] |= REMOTE_IRR;
}

fn all_timers(board: &Board, holds: fn(&Timer) -> bool) -> bool {
    board.timers.timer.iter().all(holds)
}

fn are_flags(bytes: &[u8]) -> bool {
    bytes.iter().all(|&byte| byte <= 1)
}

/// The wire rule, also for boards that are not well formed: what isn't 0 is on.
fn wires(board: &Board) -> [u8; 24] {
    let mut wires = board.outside.map(|level| u8::from(level != 0));
    let drives = |timer: &&Timer| {
        board.timers.enabled != 0
            && [timer.level_type, timer.interrupt, timer.status].iter().all(|&flag| flag != 0)
    };
    for timer in board.timers.timer.iter().filter(drives) {
        if let Some(wire) = wires.get_mut(usize::from(timer.route)) {
            *wire = 1;
        }
    }
    wires
}

fn settle(board: &mut Board) {
    board.controller.entries.level = wires(board);
}

fn pin(random: &mut Random) -> usize {
    random.below(24) as usize
}

fn timer<'board>(board: &'board mut Board, random: &mut Random) -> &'board mut Timer {
    &mut board.timers.timer[random.below(3) as usize]
}

/// A flag that is neither 0 nor 1.
fn no_flag(random: &mut Random) -> u8 {
    random.choose(&[2, 3, 0x80, 0xFE, 0xFF])
}

/// How far above the greatest number.
fn above(random: &mut Random) -> u32 {
    random.choose(&[0, 0, 1, 1 << 8, 1 << 16, 1 << 31])
}

/// A number of more than 32 bits.
fn wide(random: &mut Random) -> u64 {
    1 << (32 + random.below(32)) | random.below(1 << 32)
}
