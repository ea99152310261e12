//! What a monitor reads off a board, beside the library: `next_firing` and `is_level`, on boards that random calls have made,
//! and a board as bytes.
use nataqvoju::{Board, Refusal, Window};
use nataqvoju::{COMPARATOR, CONFIGURATION, COUNTER, DATA, ENTRY, INDEX, TIMER, TIMER_STEP};

struct Random(u64);

impl Random {
    fn next(&mut self) -> u64 {
        self.0 ^= self.0 << 13;
        self.0 ^= self.0 >> 7;
        self.0 ^= self.0 << 17;
        self.0
    }

    /// A number that is small, near a turn of 32 or 64 bits, or anything.
    fn near_a_turn(&mut self) -> u64 {
        let r = self.next();
        if r & 7 == 0 {
            return self.next();
        }
        [0u64, 1 << 32, 0, 1 << 63][(r >> 8) as usize % 4].wrapping_add((r >> 16) % 9).wrapping_sub(4)
    }

    fn call(&mut self, board: &mut Board) -> Result<(), Refusal> {
        let r = self.next();
        let timer = TIMER + TIMER_STEP * ((r >> 16) % 3);
        match r % 8 {
            0 => board.write(Window::CONTROLLER, 4, INDEX, ENTRY + 2 * ((r >> 16) % 24)),
            1 => board.write(Window::CONTROLLER, 4, DATA, self.next() & 0xA8FF),
            2 => board.wire((r >> 16) % 24, r >> 32 & 1),
            3 => board.write(Window::TIMERS, 8, timer, self.next() & 0x3F4E),
            4 => board.write(Window::TIMERS, 8, timer + COMPARATOR, self.near_a_turn()),
            5 => {
                board.write(Window::TIMERS, 8, CONFIGURATION, 0)?;
                board.write(Window::TIMERS, 8, COUNTER, self.near_a_turn())?;
                board.write(Window::TIMERS, 8, CONFIGURATION, u64::from(r >> 16 & 7 != 0))
            }
            6 => board.advance((r >> 32) as u32 >> (r >> 16 & 31)).map(drop),
            _ => board.end((r >> 16) as u8),
        }
    }
}

fn fires(mut board: Board, ticks: u64) -> bool {
    board.advance(u32::try_from(ticks).unwrap_or(u32::MAX)).expect("a well-formed board") != [0; 3]
}

/// Boards that random calls have made, each after its call.
fn on_boards(mut look: impl FnMut(&mut Board)) {
    let mut random = Random(0x9E37_79B9_7F4A_7C15);
    for _ in 0..100 {
        let mut board = Board::new();
        for _ in 0..300 {
            random.call(&mut board).expect("no call is refused");
            look(&mut board);
        }
    }
}

#[test]
fn an_advance_by_less_fires_nothing_and_by_so_many_fires() {
    let (mut none, mut soon, mut far) = (0, 0, 0);
    on_boards(|board| match board.next_firing() {
        None => {
            none += 1;
            assert!(!fires(*board, u64::MAX));
        }
        Some(ticks) if ticks <= u32::MAX.into() => {
            soon += 1;
            assert!(!fires(*board, ticks - 1) && fires(*board, ticks));
        }
        Some(ticks) => {
            far += 1;
            let mut later = *board;
            later.timers.counter = later.timers.counter.wrapping_add(ticks - 1);
            assert!(!fires(*board, u64::MAX) && fires(later, 1) && later.next_firing() == Some(1));
        }
    });
    assert!(none > 100 && soon > 100 && far > 100, "{none} {soon} {far}");
}

#[test]
fn the_least_of_three_and_whole_turns() -> Result<(), Refusal> {
    let mut board = Board::new();
    assert_eq!(board.next_firing(), None);
    board.write(Window::TIMERS, 8, CONFIGURATION, 1)?;
    assert_eq!(board.next_firing(), Some(u64::MAX));
    for m in 0..3 {
        board.write(Window::TIMERS, 8, TIMER + TIMER_STEP * m + COMPARATOR, 0)?;
    }
    assert_eq!(board.next_firing(), None);
    board.write(Window::TIMERS, 8, TIMER + TIMER_STEP, 0x100)?;
    assert_eq!(board.next_firing(), Some(1 << 32));
    board.write(Window::TIMERS, 8, TIMER + TIMER_STEP + COMPARATOR, 7)?;
    assert_eq!(board.next_firing(), Some(7));
    Ok(())
}

#[test]
fn a_delivered_pins_trigger_mode_is_its_registers() {
    let mut delivered = [0; 2];
    on_boards(|board| {
        if let Some(interrupt) = board.deliver().expect("a well-formed board") {
            let mut copy = *board;
            copy.write(Window::CONTROLLER, 4, INDEX, ENTRY + 2 * u64::from(interrupt.pin)).expect("the index");
            let low = copy.read(Window::CONTROLLER, 4, DATA).expect("its low word");
            assert_eq!(board.is_level(interrupt.pin), low >> 15 & 1 == 1);
            delivered[usize::from(board.is_level(interrupt.pin))] += 1;
        }
    });
    assert!(delivered.iter().all(|&n| n > 100), "{delivered:?}");
}

#[test]
fn bytes_there_and_back() {
    on_boards(|board| assert_eq!(Board::from_bytes(board.to_bytes()), *board));
}

#[test]
fn bytes_that_are_no_board_are_refused_by_all_but_a_reset() {
    let mut board = Board::from_bytes([0xFF; Board::SIZE]);
    assert_eq!(board.read(Window::CONTROLLER, 4, INDEX), Err(Refusal::State));
    assert_eq!(board.wire(0, 0), Err(Refusal::State));
    assert_eq!(board.to_bytes(), [0xFF; Board::SIZE]);
    board.reset();
    assert_eq!(board, Board::new());
}
