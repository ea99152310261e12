//! The calls that are measured, each on both sides.

use std::hint::black_box;

use peer::abi::mill::{kind, Mill, MillCall, Screen};
use peer::abi::plain::PlainCall;
use peer::abi::{Board, Call};
use peer::board;
use peer::generate::Damage;
use peer::random::Random;
use peer::sequence::salvage::{Lending, Room};
use peer::timer::bits;
use peer::timers::{comparator_of, configuration_of, ENABLE, TIMERS};

use crate::plain;

/// The advance that the limits compare the full ones with.
pub const ADVANCE_ONE: &str = "advance by 1";
/// The full advance that has nothing to do.
pub const ADVANCE_IDLE: &str = "advance by 4,294,967,295, nothing due";
/// The full advance that has the most to do.
pub const ADVANCE_BUSY: &str = "advance by 4,294,967,295, three timers of period 1";

/// What the names of the mill's rows start with.
pub const MILL: &str = "mill, ";

/// What the names of the salvage's rows start with.
pub const SALVAGE: &str = "salvage, ";
/// The salvage of a log that lacks nothing.
pub const SALVAGE_SOUND: &str = "salvage, 256 KiB, sound";
/// The salvage of what was never a log.
pub const SALVAGE_DAMAGE: &str = "salvage, 256 KiB, all damage";
/// The salvage of a log with a bad byte behind each record.
const SALVAGE_TORN: &str = "salvage, 256 KiB, torn";

/// What the names of the plain engine's rows start with.
pub const PLAIN: &str = "plain engine, ";
/// Ticks that the plain engine walks with nothing due.
pub const PLAIN_QUIET: &str = "plain engine, 100,000 ticks, nothing due";
/// Ticks that it walks with the most to do at each.
pub const PLAIN_FIRING: &str = "plain engine, 10,000 ticks, three timers firing at each";
/// How many ticks the two have.
pub const PLAIN_TICKS: [(&str, u32); 2] = [(PLAIN_QUIET, 100_000), (PLAIN_FIRING, 10_000)];

/// How often a row's call is made for a profiler.
pub fn times(name: &str) -> u32 {
    if name.starts_with(SALVAGE) || name.starts_with(PLAIN) {
        10
    } else {
        1_000
    }
}

/// Takes the rows one by one: to time them, or to make one of them over and over.
pub trait Taker {
    /// A row: what is lent, what puts back what the call uses up, and the call on both sides.
    fn take<Lent: Clone>(
        &mut self,
        name: &'static str,
        start: &Lent,
        again: impl Fn(&mut Lent),
        library: impl Fn(&mut Lent),
        plain: impl Fn(&mut Lent),
    );
}

/// Hands the same call of both sides to a taker.
macro_rules! row {
    ($taker:ident, $name:expr, $start:expr, $again:expr, $call:ident($($argument:expr),*)) => {
        $taker.take(
            $name,
            $start,
            $again,
            |board| { black_box(lent::$call(board $(, black_box($argument))*)); },
            |board| { black_box(plain::$call(board $(, black_box($argument))*)); },
        )
    };
}

/// The same for a call of the mill.
macro_rules! mill_row {
    ($taker:ident, $name:expr, $again:expr, $kind:expr, $numbers:expr) => {
        $taker.take(
            $name,
            &mill(),
            $again,
            |mill| {
                let call = MillCall { kind: $kind, numbers: $numbers };
                black_box(lent::mill(mill, black_box(call)));
            },
            |mill| {
                let call = MillCall { kind: $kind, numbers: $numbers };
                black_box(plain::mill(mill, black_box(call)));
            },
        )
    };
}

/// All rows.
pub fn each(taker: &mut impl Taker) {
    of_the_board(taker);
    of_the_mill(taker);
    of_the_salvage(taker);
    of_the_plain_engine(taker);
}

fn of_the_board(taker: &mut impl Taker) {
    let board = scene();
    let keep = |_: &mut Board| {};
    row!(taker, "reset", &board, keep, reset());
    row!(taker, "read, index register", &board, keep, read(0, 4, 0x00));
    row!(taker, "read, low word", &board, keep, read(0, 4, 0x10));
    row!(taker, "read, main counter", &board, keep, read(1, 8, 0xF0));
    row!(taker, "read, main counter, low half", &board, keep, read(1, 4, 0xF0));
    row!(taker, "read, comparator, high half", &board, keep, read(1, 4, 0x10C));
    row!(taker, "read, refused", &board, keep, read(0, 4, 0x04));
    row!(taker, "write, low word", &board, keep, write(0, 4, 0x10, 0x0000_8031));
    row!(taker, "write, comparator", &board, keep, write(1, 8, 0x108, 1 << 63));
    row!(taker, "write, comparator, high half", &board, keep, write(1, 4, 0x10C, 1 << 31));
    row!(taker, "write, configuration", &board, keep, write(1, 8, 0x100, 0x0806));
    row!(taker, "write, configuration, low half", &board, keep, write(1, 4, 0x100, 0x0806));
    let lower = |board: &mut Board| {
        board.outside[5] = 0;
        board.controller.entries.level[5] = 0;
    };
    row!(taker, "wire, rising", &board, lower, wire(5, 1));
    row!(taker, "end", &board, keep, end(0x31));
    let hold_first = |board: &mut Board| board.controller.entries.held[0] = 1;
    row!(taker, "deliver, pin 0", &board, hold_first, deliver());
    let hold_middle = |board: &mut Board| board.controller.entries.held[12] = 1;
    row!(taker, "deliver, pin 12", &board, hold_middle, deliver());
    let hold_last = |board: &mut Board| board.controller.entries.held[23] = 1;
    row!(taker, "deliver, pin 23", &board, hold_last, deliver());
    row!(taker, "deliver, none eligible", &board, keep, deliver());
    row!(taker, ADVANCE_ONE, &board, keep, advance(1));
    row!(taker, ADVANCE_IDLE, &board, keep, advance(u32::MAX));
    row!(taker, ADVANCE_BUSY, &busy(), keep, advance(u32::MAX));
}

/// The pin of the pause key.
const KEY: u8 = 14;
/// Its vector in the scene.
const VECTOR: u8 = 0x20 + KEY;

/// The rows of the screen's own calls, and of calls that move it.
fn of_the_mill(taker: &mut impl Taker) {
    let keep = |_: &mut Mill| {};
    mill_row!(taker, "mill, read, low word", keep, kind::READ, [0, 4, 0x10, 0]);
    mill_row!(taker, "mill, write, low word", keep, kind::WRITE, [0, 4, 0x10, 0x0000_8031]);
    let lower = |mill: &mut Mill| {
        mill.board.outside[usize::from(KEY)] = 0;
        mill.board.controller.entries.level[usize::from(KEY)] = 0;
        mill.board.controller.entries.held[usize::from(KEY)] = 0;
        mill.screen.word = 0;
    };
    mill_row!(taker, "mill, wire, asked", lower, kind::WIRE, [KEY.into(), 1, 0, 0]);
    let press = |mill: &mut Mill| {
        mill.board.controller.entries.held[usize::from(KEY)] = 1;
        mill.screen.word = 1;
        mill.screen.vector = 0;
    };
    mill_row!(taker, "mill, deliver, taken", press, kind::DELIVER, [0; 4]);
    let take = |mill: &mut Mill| {
        mill.screen.word = 2;
        mill.screen.vector = VECTOR.into();
    };
    mill_row!(taker, "mill, end, paused", take, kind::END, [VECTOR.into(), 0, 0, 0]);
    mill_row!(taker, "mill, advance by 1", keep, kind::ADVANCE, [1, 0, 0, 0]);
    mill_row!(taker, "mill, tell", keep, kind::TELL, [KEY.into(), 0, 0, 0]);
    let pause = |mill: &mut Mill| {
        mill.screen.word = 3;
        mill.screen.vector = VECTOR.into();
    };
    mill_row!(taker, "mill, resume", pause, kind::RESUME, [0; 4]);
}

fn of_the_salvage(taker: &mut impl Taker) {
    for (name, lending) in salvages() {
        taker.take(
            name,
            &lending,
            |_| {},
            |Lending { log, kept, list, .. }| {
                black_box(lent::salvage(black_box(log), kept, list));
            },
            |Lending { log, kept, list, .. }| {
                black_box(plain::salvage(black_box(log), kept, list));
            },
        );
    }
}

fn of_the_plain_engine(taker: &mut impl Taker) {
    for ((name, ticks), board) in PLAIN_TICKS.into_iter().zip([scene(), busy()]) {
        let call = PlainCall::new(Call::Advance { ticks });
        taker.take(
            name,
            &board,
            |_| {},
            |board| {
                black_box(lent::plain(board, black_box(call)));
            },
            |board| {
                black_box(plain::plain(board, black_box(call)));
            },
        );
    }
}

/// What the rows of the salvage lend: logs, with room for the most that each can need.
pub fn salvages() -> [(&'static str, Lending); 3] {
    let lending = |damage, log: Vec<u8>| {
        let (kept, list) = (vec![0; log.len()], vec![0; 2 * log.len().div_ceil(4)]);
        Lending { damage, room: Room::ForAll, log, kept, list }
    };
    [
        (SALVAGE_SOUND, lending(Damage::Sound, records(&[]))),
        (SALVAGE_DAMAGE, lending(Damage::Noise, noise())),
        (SALVAGE_TORN, lending(Damage::Inserted, records(&[0]))),
    ]
}

/// How many bytes are salvaged, at most.
const SALVAGED: usize = 256 * 1024;

/// As many records of random kinds as there is room for, each with the same bytes behind it. What
/// their calls would be answered doesn't matter, so their bodies are any bytes.
fn records(behind: &[u8]) -> Vec<u8> {
    let (mut random, mut log) = (Random::new(7), Vec::new());
    loop {
        let (kind, body) = random.choose(&[(1, 4), (2, 12), (3, 2), (4, 1), (5, 4), (6, 0)]);
        if log.len() + 3 + body + behind.len() > SALVAGED {
            return log;
        }
        log.extend([0x7E, 0xB5, kind]);
        log.extend((0..body).map(|_| random.any() as u8));
        log.extend(behind);
    }
}

/// Random bytes, but for the second one of a mark.
fn noise() -> Vec<u8> {
    let mut random = Random::new(7);
    (0..SALVAGED)
        .map(|_| random.any() as u8)
        .map(|byte| if byte == 0xB5 { 0 } else { byte })
        .collect()
}

/// The scene, and a screen that was told its key.
fn mill() -> Mill {
    Mill { board: scene(), screen: Screen { told: 1, pin: KEY.into(), word: 0, vector: 0 } }
}

/// All pins unmasked edge pins, the block enabled, nothing due for a very long time.
fn scene() -> Board {
    let mut board = Board::from(&board::Board::RESET);
    for pin in 0..24 {
        prepare(&mut board, 0, 0x00, 0x10 + 2 * pin);
        prepare(&mut board, 0, 0x10, 0x20 + pin);
    }
    for n in 0..TIMERS {
        prepare(&mut board, 1, configuration_of(n), bits::INTERRUPT | 7 << bits::ROUTE_SHIFT);
    }
    prepare(&mut board, 1, ENABLE, 1);
    board
}

/// The scene with three timers that fire at every tick.
fn busy() -> Board {
    let mut board = scene();
    let kind = bits::INTERRUPT | bits::PERIODIC | bits::SET_COMPARATOR | 7 << bits::ROUTE_SHIFT;
    for n in 0..TIMERS {
        prepare(&mut board, 1, configuration_of(n), kind);
        prepare(&mut board, 1, comparator_of(n), 1);
    }
    board
}

fn prepare(board: &mut Board, window: u64, offset: u64, value: u64) {
    let width = 4 + 4 * window;
    let reply = Call::Write { window, width, offset, value }.answer(board);
    assert_eq!(reply.number, 0, "the scene is set by done writes");
}
