//! A mill's methods: the words of its screen, its refusals, its answers beside the board's own, and a mill as bytes.
use nataqvoju::{Board, Interrupt, Mill, Refusal, Screen, Window, Word};
use nataqvoju::{COMPARATOR, CONFIGURATION, COUNTER, DATA, ENTRY, INDEX, TIMER};

const DRIVE: u64 = 9;
const PAUSE: u64 = 14;

fn entry(mill: &mut Mill, pin: u64, low: u64) -> Result<(), Refusal> {
    mill.write(Window::CONTROLLER, 4, INDEX, ENTRY + 2 * pin)?;
    mill.write(Window::CONTROLLER, 4, DATA, low)
}

/// Pin 9 level with vector 0x29, pin 14 edge with vector 0x2E and told.
fn told() -> Mill {
    let mut mill = Mill::new();
    entry(&mut mill, DRIVE, 0x8029).expect("an entry");
    entry(&mut mill, PAUSE, 0x2E).expect("an entry");
    mill.tell(PAUSE).expect("an edge entry");
    mill
}

fn shows(mill: &Mill, word: Word, vector: u16) -> bool {
    mill.screen == Screen { told: 1, pin: PAUSE as u16, word, vector }
}

#[test]
fn the_words_one_after_the_other() -> Result<(), Refusal> {
    let mut mill = told();
    assert!(shows(&mill, Word::RUNNING, 0));
    mill.wire(PAUSE, 1)?;
    mill.wire(DRIVE, 1)?;
    assert!(shows(&mill, Word::ASKED, 0));
    let given = |pin, vector| Some(Interrupt { pin, vector, destination: 0, logical: false });
    assert_eq!(mill.deliver()?, given(9, 0x29));
    mill.end(0x2E)?;
    assert!(shows(&mill, Word::ASKED, 0));
    assert_eq!(mill.deliver()?, given(14, 0x2E));
    assert_eq!(mill.deliver()?, None);
    assert!(shows(&mill, Word::TAKEN, 0x2E));
    entry(&mut mill, PAUSE, 0x3E)?;
    mill.end(0x3E)?;
    mill.resume()?;
    assert!(shows(&mill, Word::TAKEN, 0x2E));
    mill.end(0x2E)?;
    assert!(shows(&mill, Word::PAUSED, 0x2E));
    mill.wire(PAUSE, 0)?;
    mill.wire(PAUSE, 1)?;
    assert!(shows(&mill, Word::PAUSED, 0x2E));
    mill.resume()?;
    assert!(shows(&mill, Word::ASKED, 0));
    mill.reset();
    assert_eq!(mill.screen, Screen { told: 0, pin: 0, word: Word::RUNNING, vector: 0 });
    assert_eq!(mill.board, Board::new());
    Ok(())
}

#[test]
fn a_timers_firing_asks() -> Result<(), Refusal> {
    let mut mill = told();
    mill.write(Window::TIMERS, 8, TIMER, PAUSE << 9 | 4)?;
    mill.write(Window::TIMERS, 8, TIMER + COMPARATOR, 3)?;
    mill.write(Window::TIMERS, 8, CONFIGURATION, 1)?;
    assert_eq!(mill.advance(2)?, [0, 0, 0]);
    assert!(shows(&mill, Word::RUNNING, 0));
    assert_eq!(mill.advance(1)?, [1, 0, 0]);
    assert!(shows(&mill, Word::ASKED, 0));
    assert_eq!(mill.read(Window::TIMERS, 8, COUNTER)?, 3);
    Ok(())
}

#[test]
fn refused_and_as_it_was() {
    let mut mill = told();
    let kept = mill;
    assert_eq!(mill.tell(24), Err(Refusal::Pin));
    assert_eq!(mill.tell((1 << 32) + PAUSE), Err(Refusal::Pin));
    assert_eq!(mill.tell(DRIVE), Err(Refusal::NotEdge));
    assert_eq!(mill.read(Window(2), 4, 0), Err(Refusal::Place));
    assert_eq!(mill.read(Window::TIMERS, 2, 0), Err(Refusal::Width));
    assert_eq!(mill.wire(24, 0), Err(Refusal::Pin));
    assert_eq!(mill.wire(0, 2), Err(Refusal::Value));
    assert_eq!(mill, kept);
    assert_eq!((Refusal::NotEdge.number(), Refusal::Pin.number()), (14, 3));
}

#[test]
fn bytes_that_are_no_mill_are_refused_by_all_but_a_reset() {
    let mut edge = told();
    edge.board.controller.entries.held[PAUSE as usize] = 1;
    let mut vector = told();
    vector.screen.vector = 1;
    let mut untold = told();
    untold.screen.told = 0;
    for mut mill in [Mill::from_bytes([0xFF; Mill::SIZE]), edge, vector, untold] {
        let bytes = mill.to_bytes();
        assert_eq!(mill.read(Window::CONTROLLER, 4, INDEX), Err(Refusal::State));
        assert_eq!(mill.write(Window(2), 0, 0, 0), Err(Refusal::State));
        assert_eq!(mill.wire(24, 2), Err(Refusal::State));
        assert_eq!(mill.end(0x2E), Err(Refusal::State));
        assert_eq!(mill.advance(0), Err(Refusal::State));
        assert_eq!(mill.deliver(), Err(Refusal::State));
        assert_eq!(mill.tell(24), Err(Refusal::State));
        assert_eq!(mill.resume(), Err(Refusal::State));
        assert_eq!(mill.to_bytes(), bytes);
        mill.reset();
        assert_eq!(mill, Mill::new());
    }
}

#[test]
fn bytes_there_and_back() -> Result<(), Refusal> {
    let mut mill = told();
    mill.wire(PAUSE, 1)?;
    mill.deliver()?;
    let saved = mill.to_bytes();
    assert_eq!(saved[..Board::SIZE], mill.board.to_bytes());
    // told, the pin, taken, the vector, each in two bytes
    assert_eq!(saved[Board::SIZE..], [1, 0, 14, 0, 2, 0, 0x2E, 0]);
    let mut restored = Mill::from_bytes(saved);
    assert_eq!(restored, mill);
    restored.end(0x2E)?;
    assert!(shows(&restored, Word::PAUSED, 0x2E));
    Ok(())
}

#[test]
fn the_words_in_words() {
    let words = [Word::RUNNING, Word::ASKED, Word::TAKEN, Word::PAUSED, Word(4)];
    assert_eq!(words.map(|word| word.to_string()), ["running", "asked", "taken", "paused", "no word: 4"]);
}
