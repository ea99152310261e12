//! Resets with a settings record: what a board and a mill are after one, when it is refused, and that nothing is changed
//! then.
use nataqvoju::{Board, Mill, Plain, Refusal, Screen, Window, Word};
use nataqvoju::{CAPABILITIES, DATA, HIGH_HALF, INDEX, SETTINGS_LENGTH, TIMER, TIMER_STEP};

/// Vendor 0x1234, 69,841,279 femtoseconds, pins 2 and 5, 5 and 23, 8 to 11, id 11.
const RECORD: [u8; SETTINGS_LENGTH] =
    [0x5A, 0xC3, 1, 0x34, 0x12, 0x7F, 0xB1, 0x29, 0x04, 0x24, 0, 0, 0, 0x20, 0, 0x80, 0, 0, 0x0F, 0, 0, 11];
const MASKS: [u32; 3] = [0x24, 0x80_0020, 0xF00];

/// The record with other bytes from a place on.
fn with(at: usize, bytes: &[u8]) -> [u8; SETTINGS_LENGTH] {
    let mut record = RECORD;
    record[at..at + bytes.len()].copy_from_slice(bytes);
    record
}

fn set() -> Board {
    let mut board = Board::new();
    board.reset_settings(&RECORD).expect("a sound record");
    board
}

/// Records that are refused, and why: each fault alone, and with those that are tested after it.
fn refused() -> Vec<(Vec<u8>, Refusal)> {
    let (long, form, range) = ([RECORD.as_slice(), &[0]].concat(), with(2, &[2]), with(21, &[16]));
    let mut records = vec![
        (vec![], Refusal::Length),
        (RECORD[..21].to_vec(), Refusal::Length),
        (long, Refusal::Length),
        (vec![0; 64], Refusal::Length),
        (vec![0; SETTINGS_LENGTH], Refusal::Mark),
        (with(0, &[0x5B]).to_vec(), Refusal::Mark),
        (with(0, &[0xC3, 0x5A, 2, 0, 0, 0, 0, 0, 0]).to_vec(), Refusal::Mark),
        (with(1, &[0xC2]).to_vec(), Refusal::Mark),
        (form.to_vec(), Refusal::Form),
        (with(2, &[0, 0, 0, 0, 0, 0, 0]).to_vec(), Refusal::Form),
        (range.to_vec(), Refusal::Range),
        (with(21, &[255]).to_vec(), Refusal::Range),
        (with(5, &0u32.to_le_bytes()).to_vec(), Refusal::Range),
        (with(5, &100_000_001u32.to_le_bytes()).to_vec(), Refusal::Range),
    ];
    for at in [9, 13, 17] {
        records.push((with(at, &[0; 4]).to_vec(), Refusal::Range));
        records.push((with(at + 3, &[1]).to_vec(), Refusal::Range));
    }
    records
}

#[test]
fn the_board_of_a_record() {
    let mut want = Board::new();
    want.timers.vendor = 0x1234;
    want.timers.tick_period = 69_841_279;
    want.timers.masks = MASKS;
    for (timer, route) in want.timers.timer.iter_mut().zip([2, 5, 8]) {
        timer.route = route;
    }
    want.controller.id = 11;
    for bytes in [[0; Board::SIZE], [0xFF; Board::SIZE], Board::new().to_bytes()] {
        let mut board = Board::from_bytes(bytes);
        assert_eq!(board.reset_settings(&RECORD), Ok(()));
        assert_eq!(board, want);
    }
}

#[test]
fn the_ends_of_the_ranges() {
    let ends: [(usize, &[u8]); 9] = [
        (3, &[0, 0]),
        (3, &[0xFF, 0xFF]),
        (5, &[1, 0, 0, 0]),
        (5, &[0x00, 0xE1, 0xF5, 0x05]),
        (9, &[0xFF, 0xFF, 0xFF, 0]),
        (13, &[1, 0, 0, 0]),
        (17, &[0, 0, 0x80, 0]),
        (21, &[0]),
        (21, &[15]),
    ];
    for (at, bytes) in ends {
        let mut board = Board::new();
        assert_eq!(board.reset_settings(&with(at, bytes)), Ok(()), "{bytes:?} at {at}");
        assert_eq!(board.advance(1), Ok([0; 3]));
    }
}

#[test]
fn refused_in_order_and_as_it_was() {
    let (mut told, mut edge) = (Mill::new(), set());
    told.tell(14).expect("an edge entry");
    told.wire(14, 1).expect("a pin");
    edge.timers.timer[1].route = 4;
    for (record, refusal) in refused() {
        for board in [Board::new(), set(), edge, Board::from_bytes([0; Board::SIZE])] {
            let mut lent = board;
            assert_eq!(lent.reset_settings(&record), Err(refusal), "{record:02x?}");
            assert_eq!(lent, board);
        }
        for mill in [Mill::new(), told, Mill::from_bytes([0xEE; Mill::SIZE])] {
            let mut lent = mill;
            assert_eq!(lent.reset_settings(&record), Err(refusal), "{record:02x?}");
            assert_eq!(lent, mill);
        }
    }
}

#[test]
fn the_registers_show_them() -> Result<(), Refusal> {
    let mut board = set();
    assert_eq!(board.read(Window::TIMERS, 8, CAPABILITIES)?, 0x0429_B17F_1234_2201);
    assert_eq!(board.read(Window::TIMERS, 4, CAPABILITIES + HIGH_HALF)?, 69_841_279);
    for (n, route) in [(0, 2), (1, 5), (2, 8)] {
        let at = TIMER + TIMER_STEP * n;
        let mask = u64::from(MASKS[n as usize]);
        assert_eq!(board.read(Window::TIMERS, 8, at)?, mask << 32 | route << 9 | 0x30);
        board.write(Window::TIMERS, 4, at + HIGH_HALF, 0xFFFF_FFFF)?;
        assert_eq!(board.read(Window::TIMERS, 4, at + HIGH_HALF)?, mask);
        // a route that isn't in the mask keeps the old one; bit 2 is taken all the same
        for other in (0..32).filter(|other| mask >> other & 1 == 0) {
            board.write(Window::TIMERS, 8, at, other << 9 | 4)?;
            assert_eq!(board.read(Window::TIMERS, 8, at)?, mask << 32 | route << 9 | 0x34);
        }
        for other in (0..24).filter(|other| mask >> other & 1 == 1) {
            board.write(Window::TIMERS, 8, at, other << 9)?;
            assert_eq!(board.read(Window::TIMERS, 8, at)?, mask << 32 | other << 9 | 0x30);
        }
    }
    board.write(Window::CONTROLLER, 4, INDEX, 0)?;
    assert_eq!(board.read(Window::CONTROLLER, 4, DATA)?, 11 << 24);
    board.write(Window::CONTROLLER, 4, DATA, 3 << 24)?;
    assert_eq!(board.read(Window::CONTROLLER, 4, DATA)?, 3 << 24);
    board.reset_settings(&RECORD)?;
    assert_eq!(board.controller.id, 11);
    board.reset();
    assert_eq!(board, Board::new());
    assert_eq!(board.read(Window::TIMERS, 8, CAPABILITIES)?, 0x05F5_E100_8086_2201);
    Ok(())
}

#[test]
fn each_clause_is_tested() {
    type Break = fn(&mut Board);
    let breaks: [Break; 9] = [
        |board| board.timers.vendor = 0x1_0000,
        |board| board.timers.tick_period = 0,
        |board| board.timers.tick_period = 100_000_001,
        |board| board.timers.masks[0] = 0,
        |board| board.timers.masks[1] |= 1 << 24,
        |board| board.timers.masks[2] = 1,
        |board| board.timers.timer[0].route = 8,
        |board| board.timers.timer[1].route = 2,
        |board| board.timers.timer[2].route = 24,
    ];
    for (n, breaks) in breaks.into_iter().enumerate() {
        let mut board = set();
        assert_eq!(board.deliver(), Ok(None));
        breaks(&mut board);
        let kept = board;
        assert_eq!(board.deliver(), Err(Refusal::State), "{n}");
        assert_eq!(board.read(Window(2), 0, 0), Err(Refusal::State), "{n}");
        assert_eq!(board, kept);
        let mut mill = Mill { board, ..Mill::new() };
        assert_eq!(mill.tell(14), Err(Refusal::State), "{n}");
        assert_eq!(Plain(board).advance(1), Err(Refusal::State), "{n}");
        assert_eq!((mill.reset_settings(&RECORD), mill.board), (Ok(()), set()));
    }
    assert_eq!(Board::from_bytes([0; Board::SIZE]).deliver(), Err(Refusal::State));
}

#[test]
fn a_mill_has_no_pin_told_after_it() -> Result<(), Refusal> {
    let mut mill = Mill::new();
    mill.tell(14)?;
    mill.write(Window::CONTROLLER, 4, INDEX, 0x10 + 2 * 14)?;
    mill.write(Window::CONTROLLER, 4, DATA, 0x2E)?;
    mill.wire(14, 1)?;
    mill.deliver()?;
    assert_eq!(mill.screen, Screen { told: 1, pin: 14, word: Word::TAKEN, vector: 0x2E });
    mill.reset_settings(&RECORD)?;
    assert_eq!(mill.screen, Screen { told: 0, pin: 0, word: Word::RUNNING, vector: 0 });
    assert_eq!(mill.board, set());
    assert_eq!(mill.read(Window::TIMERS, 8, CAPABILITIES)?, 0x0429_B17F_1234_2201);
    mill.reset();
    assert_eq!(mill, Mill::new());
    Ok(())
}

#[test]
fn the_plain_engine_serves_a_board_with_settings() -> Result<(), Refusal> {
    let (mut board, mut plain) = (set(), Plain(set()));
    assert_eq!(plain.read(Window::TIMERS, 8, CAPABILITIES)?, 0x0429_B17F_1234_2201);
    for value in [5 << 9, 4 << 9 | 4, 2 << 9] {
        board.write(Window::TIMERS, 8, TIMER, value)?;
        plain.write(Window::TIMERS, 8, TIMER, value)?;
        assert_eq!(plain.0, board);
    }
    plain.reset();
    assert_eq!(plain.0, Board::new());
    Ok(())
}

#[test]
fn a_refusal_has_its_number_and_its_words() {
    let refusals = [Refusal::Length, Refusal::Mark, Refusal::Form, Refusal::Range];
    assert_eq!(refusals.map(Refusal::number), [8, 6, 9, 10]);
    assert_eq!(Refusal::Range.to_string(), "a number of the settings is out of range");
}
