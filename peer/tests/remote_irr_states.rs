//! K4: "An edge entry now always reads bit 14 as 0, and a state where it doesn't is not well formed." Such a state is
//! refused with 5 by every call but a reset (reading 75).
#![allow(missing_docs)]

use peer::abi::mill::{Mill, MillCall};
use peer::abi::plain::PlainCall;
use peer::abi::{kind, Board, Call, Reply};
use peer::board;
use peer::fuzz::FIXED_SEED;
use peer::generate::{log, random_board, short_log, Profile};
use peer::log::records_of;
use peer::mill;
use peer::pin::{Pin, MASK};
use peer::random::Random;
use peer::sequence::{self, mill as mills, plain, stray_irr, Kind};

fn number(number: u32) -> Reply {
    Reply { number, ..Reply::default() }
}

fn is_stray(pin: &Pin) -> bool {
    pin.low & 1 << 14 != 0 && pin.low & 1 << 15 == 0
}

#[test]
fn an_edge_entry_always_reads_0() {
    let mut random = Random::new(14);
    let mut edge_reads = 0;
    for number in 0..60 {
        let profile = Profile::SOUND[number as usize % 5];
        for log in [log(profile, 14, number), short_log(profile, 14, number)] {
            let mut board =
                if number % 2 == 0 { board::Board::RESET } else { random_board(&mut random) };
            for record in records_of(&log).0 {
                record.play(&mut board);
                assert!(!board.controller.pins.iter().any(is_stray), "{record:?}");
                edge_reads += board.controller.pins.iter().filter(|pin| !pin.is_level()).count();
            }
        }
    }
    assert!(edge_reads > 100_000);
}

#[test]
fn a_random_well_formed_state_has_it_on_level_entries_alone() {
    let mut random = Random::new(15);
    let (mut waiting, mut free) = (0, 0);
    for _ in 0..500 {
        let board = random_board(&mut random);
        assert!(board.is_well_formed());
        assert!(!board.controller.pins.iter().any(is_stray));
        for pin in board.controller.pins.iter().filter(|pin| pin.is_level()) {
            *if pin.remote_irr() { &mut waiting } else { &mut free } += 1;
        }
    }
    assert!(waiting > 1_000 && free > 1_000, "{waiting} wait, {free} don't");
}

/// Boards that are well formed but for remote IRR on an edge entry, and the same with it on a level entry.
fn boards() -> Vec<(Board, bool)> {
    let mut boards = Vec::new();
    for pin in [0, 1, 11, 22, 23] {
        for low in [0x4000, 0x14000, 0x4030, 0x6030, 0x4730, 0x16FFF, 0x4030 | MASK] {
            for (low, held) in [(low, 0), (low, 1), (low | 0x8000, 0)] {
                let mut board = Board::from(&board::Board::RESET);
                board.controller.entries.low[pin] = low;
                board.controller.entries.held[pin] = held;
                boards.push((board, low & 0x8000 != 0));
            }
        }
    }
    boards
}

/// One of each call, with arguments that are refused for something else, or not at all.
const CALLS: [Call; 10] = [
    Call::Read { window: 0, width: 4, offset: 0x00 },
    Call::Read { window: 9, width: 3, offset: 1 },
    Call::Write { window: 0, width: 4, offset: 0x10, value: 0x30 },
    Call::Write { window: 0, width: 4, offset: 0x10, value: 1 << 32 },
    Call::Write { window: 1, width: 8, offset: 0xF0, value: 5 },
    Call::Wire { pin: 5, level: 1 },
    Call::Wire { pin: 24, level: 2 },
    Call::End { vector: 0x30 },
    Call::Advance { ticks: 7 },
    Call::Deliver,
];

#[test]
fn every_call_but_a_reset_refuses_it() {
    for (board, level) in boards() {
        assert_eq!(board.is_well_formed(), level, "{board:?}");
        for call in CALLS {
            let mut lent = board;
            let reply = call.answer(&mut lent);
            assert_eq!(reply.number == 5, !level, "{call:?}");
            if !level {
                assert_eq!((reply, lent), (number(5), board));
            }
        }
        let mut lent = board;
        assert_eq!(Call::Reset.answer(&mut lent), number(0));
        assert_eq!(lent, Board::from(&board::Board::RESET));
    }
}

#[test]
fn so_does_every_call_of_the_plain_engine() {
    for (board, _) in boards().into_iter().filter(|(_, level)| !level) {
        for kind in (0..10).chain([u64::MAX]).filter(|&kind| kind != kind::RESET) {
            let mut lent = board;
            let reply = PlainCall { kind, numbers: [u64::MAX; 4] }.answer(&mut lent);
            assert_eq!((reply, lent), (number(5), board), "kind {kind}");
        }
        let mut lent = board;
        assert_eq!(PlainCall::new(Call::Reset).answer(&mut lent), number(0));
        assert_eq!(lent, Board::from(&board::Board::RESET));
    }
}

#[test]
fn so_does_every_call_of_the_mill() {
    for (board, _) in boards().into_iter().filter(|(_, level)| !level) {
        let mill = Mill { board, ..Mill::from(&mill::Mill::RESET) };
        for kind in (0..12).chain([u64::MAX]).filter(|&kind| kind != kind::RESET) {
            let mut lent = mill;
            let reply = MillCall { kind, numbers: [24; 4] }.answer(&mut lent);
            assert_eq!((reply, lent), (number(5), mill), "kind {kind}");
        }
        let mut lent = mill;
        assert_eq!(MillCall { kind: kind::RESET, numbers: [0; 4] }.answer(&mut lent), number(0));
        assert_eq!(lent, Mill::from(&mill::Mill::RESET));
    }
}

/// How often a board comes that is broken in this alone: with an unmasked entry, a masked one, a held edge, none.
fn sorts_of(boards: impl Iterator<Item = Board>) -> [usize; 4] {
    let mut sorts = [0; 4];
    for board in boards {
        for pin in stray_irr(&board) {
            let masked = board.controller.entries.low[pin] & MASK != 0;
            let held = board.controller.entries.held[pin] == 1;
            for (count, is_it) in sorts.iter_mut().zip([!masked, masked, held, !held]) {
                *count += usize::from(is_it);
            }
        }
    }
    sorts
}

#[test]
fn the_random_sequences_have_it_in_every_form() {
    const ROUNDS: usize = 60;
    let mut maker = sequence::Maker::new(FIXED_SEED);
    let starts = (0..ROUNDS).flat_map(|_| maker.round()).filter(|it| it.kind == Kind::Broken);
    let of_the_board = sorts_of(starts.map(|sequence| sequence.start));
    let mut maker = mills::Maker::new(FIXED_SEED);
    let starts = (0..ROUNDS).flat_map(|_| maker.round());
    let of_the_mill = sorts_of(starts.map(|sequence| sequence.start.board));
    let mut maker = plain::Maker::new(FIXED_SEED);
    let starts = (0..ROUNDS).flat_map(|_| maker.round());
    let of_the_plain_engine = sorts_of(starts.map(|sequence| sequence.start));
    for sorts in [of_the_board, of_the_mill, of_the_plain_engine] {
        assert!(sorts.iter().all(|&count| count >= 5), "{sorts:?}");
    }
}
