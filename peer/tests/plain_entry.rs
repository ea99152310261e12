//! The plain engine's lent entry: its kinds and numbers, and what the random calls on it show.
#![allow(missing_docs)]

use peer::abi::plain::PlainCall;
use peer::abi::{kind, Board, Call, Reply};
use peer::board;
use peer::fuzz::FIXED_SEED;
use peer::generate::MOST_TICKS;
use peer::sequence::plain::{Maker, Step};
use peer::sequence::{broken, stray_irr, SETTINGS_CLAUSES};
use peer::settings::{is_mask, ALL_PINS};

fn reset_board() -> Board {
    Board::from(&board::Board::RESET)
}

fn number(number: u32) -> Reply {
    Reply { number, ..Reply::default() }
}

fn steps(rounds: usize) -> Vec<Step> {
    let mut maker = Maker::new(FIXED_SEED);
    let sequences = (0..rounds).flat_map(|_| maker.round());
    sequences.flat_map(|sequence| sequence.steps().collect::<Vec<_>>()).collect()
}

#[test]
fn the_kinds_by_their_numbers() {
    let mut board = reset_board();
    let mut numbers = |kind, numbers| PlainCall { kind, numbers }.answer(&mut board);
    let done = Reply::default();
    // Entry 5's low word through index and data window; bit 12 reads 1 once the pin is eligible.
    assert_eq!(numbers(2, [0, 4, 0x00, 0x1A]), done);
    assert_eq!(numbers(2, [0, 4, 0x10, 0x8041]), done);
    assert_eq!(numbers(3, [5, 1, 9, 9]), done);
    assert_eq!(numbers(1, [0, 4, 0x10, 9]), Reply { value: 0x9041, ..done });
    assert_eq!(numbers(6, [9; 4]), Reply { delivered: 1, pin: 5, vector: 0x41, ..done });
    assert_eq!(numbers(6, [9; 4]), done);
    assert_eq!(numbers(4, [0xAB41, 9, 9, 9]), done);
    assert_eq!(numbers(6, [9; 4]), Reply { delivered: 1, pin: 5, vector: 0x41, ..done });
    // Timer 0 is due at 2.
    assert_eq!(numbers(2, [1, 8, 0x108, 2]), done);
    assert_eq!(numbers(2, [1, 8, 0x010, 1]), done);
    assert_eq!(numbers(5, [1 << 32 | 1, 9, 9, 9]), done);
    assert_eq!(numbers(5, [1 << 63 | 1, 9, 9, 9]), Reply { fired: [1, 0, 0], ..done });
    assert_eq!(numbers(7, [9; 4]), done);
    assert_eq!(board, reset_board());
}

#[test]
fn an_unknown_kind_is_7_and_changes_nothing() {
    let mut board = reset_board();
    for kind in [0, 8, 9, 10, 0x101, 0x107, 1 << 32 | 7, 1 << 63 | 5, u64::MAX] {
        assert_eq!(PlainCall { kind, numbers: [5; 4] }.answer(&mut board), number(7), "{kind:#x}");
        assert_eq!(board, reset_board());
    }
}

#[test]
fn an_ill_formed_board_is_5_whatever_the_kind_until_a_reset() {
    let mut ill = reset_board();
    ill.controller.id = 16;
    let mut board = ill;
    for kind in (0..12).chain([u64::MAX]).filter(|&kind| kind != kind::RESET) {
        let numbers = [u64::MAX; 4];
        assert_eq!(PlainCall { kind, numbers }.answer(&mut board), number(5), "{kind:#x}");
        assert_eq!(board, ill);
    }
    assert_eq!(PlainCall { kind: kind::RESET, numbers: [1; 4] }.answer(&mut board), number(0));
    assert_eq!(board, reset_board());
}

#[test]
fn a_call_and_its_numbers_are_the_same() {
    let calls = [
        Call::Read { window: 1, width: 2, offset: 3 },
        Call::Write { window: 1, width: 2, offset: 3, value: 4 },
        Call::Wire { pin: 1, level: 2 },
        Call::End { vector: 255 },
        Call::Advance { ticks: u32::MAX },
        Call::Deliver,
        Call::Reset,
    ];
    for call in calls {
        assert_eq!(PlainCall::new(call).asked(), Some(call));
    }
}

#[test]
fn every_advance_that_is_done_can_be_walked() {
    for step in steps(30) {
        if let (Some(Call::Advance { ticks }), 0) = (step.call.asked(), step.reply.number) {
            assert!(u64::from(ticks) <= MOST_TICKS);
        }
    }
}

/// An entry that is wrong in one thing.
type Wrong = fn(PlainCall, &mut Board) -> Reply;

/// A reset tests nothing; of all others an ill-formed board is refused first.
fn is_ill(call: PlainCall, board: &Board) -> bool {
    !call.is_reset() && !board.is_well_formed()
}

/// An entry that doesn't test this clause of K6.
fn without(clause: usize, call: PlainCall, board: &mut Board) -> Reply {
    if !call.is_reset() && broken(board) == [SETTINGS_CLAUSES[clause]] {
        number(0)
    } else {
        call.answer(board)
    }
}

const WRONG: [(&str, Wrong); 21] = [
    ("an unknown kind is done", |call, board| match call.answer(board) {
        Reply { number: 7, .. } => number(0),
        reply => reply,
    }),
    ("an unknown kind is 7 before 5", |call, board| match call.asked() {
        None => number(7),
        Some(_) => call.answer(board),
    }),
    ("an unknown kind of an ill-formed board resets it", |call, board| {
        if call.asked().is_none() && is_ill(call, board) {
            *board = reset_board();
        }
        call.answer(board)
    }),
    ("the low eight bits of the kind count", |call, board| {
        PlainCall { kind: call.kind & 0xFF, ..call }.answer(board)
    }),
    ("the low 32 bits of the kind count", |call, board| {
        PlainCall { kind: call.kind & 0xFFFF_FFFF, ..call }.answer(board)
    }),
    ("the mill's kinds are taken", |call, board| match call.kind {
        8 | 9 if !is_ill(call, board) => number(0),
        _ => call.answer(board),
    }),
    (
        "a reset tests 5",
        |call, board| {
            if board.is_well_formed() {
                call.answer(board)
            } else {
                number(5)
            }
        },
    ),
    ("remote IRR on an edge entry isn't refused", |call, board| {
        if call.is_reset() || stray_irr(board).is_empty() {
            call.answer(board)
        } else {
            number(0)
        }
    }),
    ("a reset keeps the masks", |call, board| {
        let masks = board.timers.masks;
        let reply = call.answer(board);
        if call.is_reset() && masks.iter().all(|&mask| is_mask(mask)) {
            board.timers.masks = masks;
        }
        reply
    }),
    ("a reset keeps the vendor", |call, board| {
        let vendor = board.timers.vendor;
        let reply = call.answer(board);
        if call.is_reset() {
            board.timers.vendor = vendor;
        }
        reply
    }),
    ("a tick period out of range isn't refused", |call, board| without(0, call, board)),
    ("a vendor of more than 16 bits isn't refused", |call, board| without(1, call, board)),
    ("a mask of 0 isn't refused", |call, board| without(2, call, board)),
    ("a mask above 2^24 isn't refused", |call, board| without(3, call, board)),
    ("a route outside its mask isn't refused", |call, board| without(4, call, board)),
    ("every board has all pins in its masks", |call, board| {
        let masks = board.timers.masks;
        let is_whole = board.is_well_formed() && !call.is_reset();
        if is_whole {
            board.timers.masks = [ALL_PINS; 3];
        }
        let reply = call.answer(board);
        if is_whole {
            board.timers.masks = masks;
        }
        reply
    }),
    ("an end above 255 frees nothing", |call, board| match call.kind {
        kind::END if call.numbers[0] > 0xFF && !is_ill(call, board) => number(0),
        _ => call.answer(board),
    }),
    ("an advance above 2^32 - 1 is no tick", |call, board| match call.kind {
        kind::ADVANCE if call.numbers[0] > u32::MAX.into() => {
            PlainCall { numbers: [0; 4], ..call }.answer(board)
        }
        _ => call.answer(board),
    }),
    ("the last tick of an advance isn't walked", |call, board| match call.asked() {
        Some(Call::Advance { ticks: ticks @ 1.. }) => {
            PlainCall::new(Call::Advance { ticks: ticks - 1 }).answer(board)
        }
        _ => call.answer(board),
    }),
    ("a wire's level has 8 bits", |call, board| match call {
        PlainCall { kind: kind::WIRE, numbers: [pin, level, c, d] } => {
            PlainCall { numbers: [pin, level & 0xFF, c, d], ..call }.answer(board)
        }
        _ => call.answer(board),
    }),
    ("an offset has 16 bits", |call, board| match call {
        PlainCall { kind: kind::READ | kind::WRITE, numbers: [a, b, offset, d] } => {
            PlainCall { numbers: [a, b, offset & 0xFFFF, d], ..call }.answer(board)
        }
        _ => call.answer(board),
    }),
];

#[test]
fn the_random_calls_show_what_is_wrong() {
    let steps = steps(10);
    for (what, wrong) in WRONG {
        let shows = |step: &Step| {
            let mut board = step.before;
            (wrong(step.call, &mut board), board) != (step.reply, step.after)
        };
        assert!(steps.iter().any(shows), "{what}");
    }
}
