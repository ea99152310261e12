//! What is refused at the timers since K1, worked out by hand from the sentences above each test.
#![allow(missing_docs)]

use peer::board::{Board, Calls, Refusal, TIMER_BLOCK};

const BIG: u64 = 1 << 32;

fn refused_read(width: u64, offset: u64) -> Option<Refusal> {
    let mut board = Board::RESET;
    let answer = board.read(TIMER_BLOCK, width, offset).err();
    assert_eq!(board, Board::RESET);
    answer
}

fn refused_write(width: u64, offset: u64, value: u64) -> Option<Refusal> {
    let mut board = Board::RESET;
    let answer = board.write(TIMER_BLOCK, width, offset, value).err();
    assert!(answer.is_none() || board == Board::RESET, "a refused write changes nothing");
    answer
}

// "2 is now given at the timers for any width but 4 and 8, or an offset that isn't a multiple of
// the width."

#[test]
fn any_width_but_4_and_8_is_2() {
    for width in (0..=255).filter(|width| ![4, 8].contains(width)) {
        for offset in [0x000, 0x010, 0x020, 0x0F0, 0x0F4, 0x100, 0x3FC, 0x3FF, 0x400, 0xFFFF] {
            assert_eq!(refused_read(width, offset), Some(Refusal::Width), "{width} {offset:x}");
            assert_eq!(refused_write(width, offset, 0), Some(Refusal::Width));
            assert_eq!(refused_write(width, offset, u64::MAX), Some(Refusal::Width));
        }
    }
}

#[test]
fn widths_beyond_a_byte_are_2() {
    for width in [0x104, 0x108, 1 << 32 | 4, 1 << 32 | 8, u64::MAX] {
        assert_eq!(refused_read(width, 0), Some(Refusal::Width));
        assert_eq!(refused_write(width, 0, 0), Some(Refusal::Width));
    }
}

#[test]
fn an_offset_that_is_no_multiple_of_the_width_is_2() {
    for offset in 0..0x408 {
        for width in [4, 8] {
            let wanted = match offset {
                _ if offset % width != 0 => Some(Refusal::Width),
                0x400.. => Some(Refusal::Place),
                _ => None,
            };
            assert_eq!(refused_read(width, offset), wanted, "{width} {offset:x}");
            assert_eq!(refused_write(width, offset, 0), wanted, "{width} {offset:x}");
        }
    }
}

// "A 4-byte write with a value above 2^32 - 1 is 4, after 2 and after 1 for the offset, also at
// read-only and unlisted offsets. Width 8 at a multiple of 4 is 2; width 4 at 0x404 is 1, at 0x402
// is 2."

#[test]
fn the_order_of_refusals_at_the_timers() {
    for value in [BIG, u64::MAX] {
        assert_eq!(refused_write(4, 0x402, value), Some(Refusal::Width));
        assert_eq!(refused_write(4, 0x3FE, value), Some(Refusal::Width));
        assert_eq!(refused_write(4, 0x400, value), Some(Refusal::Place));
        assert_eq!(refused_write(4, 0x404, value), Some(Refusal::Place));
        assert_eq!(refused_write(4, 0x3FC, value), Some(Refusal::Value));
        assert_eq!(refused_write(8, 0x3FC, value), Some(Refusal::Width));
        assert_eq!(refused_write(8, 0x404, value), Some(Refusal::Width));
        assert_eq!(refused_write(8, 0x400, value), Some(Refusal::Place));
    }
    for width in [0, 1, 2, 3, 5, 16, 255] {
        assert_eq!(refused_write(width, 0x000, BIG), Some(Refusal::Width));
        assert_eq!(refused_write(width, 0x402, BIG), Some(Refusal::Width));
    }
}

#[test]
fn a_big_half_is_4_at_every_offset_that_exists() {
    for offset in (0..0x400).step_by(4) {
        assert_eq!(refused_write(4, offset, BIG), Some(Refusal::Value), "{offset:x}");
        assert_eq!(refused_write(4, offset, u64::MAX), Some(Refusal::Value), "{offset:x}");
        assert_eq!(refused_write(4, offset, BIG - 1), None, "{offset:x}");
    }
}

#[test]
fn an_8_byte_write_takes_every_value() {
    for offset in (0..0x400).step_by(8) {
        assert_eq!(refused_write(8, offset, u64::MAX), None, "{offset:x}");
    }
}

#[test]
fn refusal_5_comes_first() {
    let mut board = Board { outside: [true; 24], ..Board::RESET };
    let broken = board;
    for (width, offset) in [(4, 0x010), (4, 0x402), (4, 0x404), (3, 0x000)] {
        assert_eq!(board.read(TIMER_BLOCK, width, offset), Err(Refusal::State));
        assert_eq!(board.write(TIMER_BLOCK, width, offset, BIG), Err(Refusal::State));
    }
    assert_eq!(board, broken);
}

#[test]
fn the_controllers_widths_stay() {
    let mut board = Board::RESET;
    for offset in [0x00, 0x10] {
        assert_eq!(board.read(0, 8, offset), Err(Refusal::Width));
        assert_eq!(board.write(0, 8, offset, 0), Err(Refusal::Width));
    }
    assert_eq!(board.read(0, 4, 0x02), Err(Refusal::Place), "alignment isn't tested there");
    assert_eq!(board.read(2, 4, 0x000), Err(Refusal::Place));
}
