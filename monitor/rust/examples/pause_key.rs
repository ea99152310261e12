//! A monitor in Rust. It keeps the board in its own memory, and tells a story of it line by line: the same story as
//! `monitor/examples/pause_key.c`, and the same lines, which stand in `monitor/examples/pause_key.out`.
use nataqvoju::{Board, Interrupt, Refusal, Window};
use nataqvoju::{COMPARATOR, CONFIGURATION, COUNTER, DATA, ENTRY, HIGH_HALF, INDEX, TIMER, TIMER_STEP};

const DRIVE: u64 = 9;
const PAUSE: u64 = 14;
const DRIVE_VECTOR: u8 = 0x29;
const PAUSE_VECTOR: u8 = 0x2E;
const LEVEL: u32 = 0x8000;
const LOGICAL: u32 = 0x0800;
const INTERRUPT: u64 = 0x04;
const PERIODIC: u64 = 0x08;
const SET_COMPARATOR: u64 = 0x40;
const NARROW: u64 = 0x100;
const ROUTE_AT: u32 = 9;

// ---- one line for each call: what was done, and the answer

/// Prints an answer, or the number of its refusal.
fn tell<A>(what: &str, answer: Result<A, Refusal>, shown: impl FnOnce(A) -> String) {
    match answer {
        Ok(answer) => println!("{what}: {}", shown(answer)),
        Err(refusal) => println!("{what}: refused {}", refusal.number()),
    }
}

fn done(what: &str, answer: Result<(), Refusal>) {
    tell(what, answer, |()| "ok".to_string());
}

fn value(what: &str, answer: Result<u64, Refusal>) {
    tell(what, answer, |value| format!("{value:#018x}"));
}

fn fired(what: &str, answer: Result<[u32; 3], Refusal>) {
    tell(what, answer, |[a, b, c]| format!("fired {a} {b} {c}"));
}

fn delivery(answer: Result<Option<Interrupt>, Refusal>) {
    tell("delivery step", answer, |interrupt| match interrupt {
        None => "none".to_string(),
        Some(Interrupt { pin, vector, destination, logical }) => {
            format!("pin {pin} vector {vector:#04x} dest {destination} logical {}", u8::from(logical))
        }
    });
}

fn same(what: &str, a: &Board, b: &Board) {
    println!("{what}: {}", if a.to_bytes() == b.to_bytes() { "same bytes" } else { "OTHER BYTES" });
}

// ---- registers

fn put_word(board: &mut Board, index: u64, word: u32) -> Result<(), Refusal> {
    board.write(Window::CONTROLLER, 4, INDEX, index)?;
    board.write(Window::CONTROLLER, 4, DATA, word.into())
}

fn put_low(board: &mut Board, pin: u64, word: u32) -> Result<(), Refusal> {
    put_word(board, ENTRY + 2 * pin, word)
}

fn put_high(board: &mut Board, pin: u64, word: u32) -> Result<(), Refusal> {
    put_word(board, ENTRY + 2 * pin + 1, word)
}

fn get_low(board: &mut Board, pin: u64) -> Result<u64, Refusal> {
    board.write(Window::CONTROLLER, 4, INDEX, ENTRY + 2 * pin)?;
    board.read(Window::CONTROLLER, 4, DATA)
}

fn put_timer(board: &mut Board, m: u64, configuration: u64, comparator: u64) -> Result<(), Refusal> {
    let at = TIMER + TIMER_STEP * m;
    board.write(Window::TIMERS, 8, at, configuration)?;
    board.write(Window::TIMERS, 8, at + COMPARATOR, comparator)
}

// ---- the story

fn pause_key(board: &mut Board) {
    println!("-- the machine starts");
    board.reset();
    done("reset", Ok(()));
    done("servo drive: pin 9, level, vector 0x29", put_low(board, DRIVE, LEVEL | u32::from(DRIVE_VECTOR)));
    done("pause key: pin 14, edge, vector 0x2e", put_low(board, PAUSE, PAUSE_VECTOR.into()));
    done("pause key: destination 3", put_high(board, PAUSE, 3 << 24));

    println!("-- the drive asks, is delivered, and waits for its end of interrupt");
    done("wire 9 high", board.wire(DRIVE, 1));
    value("entry 9", get_low(board, DRIVE));
    delivery(board.deliver());
    value("entry 9", get_low(board, DRIVE));
    delivery(board.deliver());

    println!("-- meanwhile the pause key is pressed and let go");
    done("wire 14 high", board.wire(PAUSE, 1));
    done("wire 14 low", board.wire(PAUSE, 0));
    value("entry 14", get_low(board, PAUSE));
    delivery(board.deliver());
    value("entry 14", get_low(board, PAUSE));
    delivery(board.deliver());
    done("end of interrupt 0x2e", board.end(PAUSE_VECTOR));
    value("entry 9", get_low(board, DRIVE));

    println!("-- the drive's end of interrupt: its wire is still high, so it comes again");
    done("end of interrupt 0x29", board.end(DRIVE_VECTOR));
    delivery(board.deliver());
    done("wire 9 low", board.wire(DRIVE, 0));
    done("end of interrupt 0x29", board.end(DRIVE_VECTOR));
    delivery(board.deliver());
    value("entry 9", get_low(board, DRIVE));
}

fn refusals(board: &mut Board) {
    let saved = *board;
    println!("-- refusals");
    value("read of window 2", board.read(Window(2), 4, 0));
    value("read of the controller, width 4, offset 0x04", board.read(Window::CONTROLLER, 4, 0x04));
    value("read of the timers, width 8, offset 0x400", board.read(Window::TIMERS, 8, 0x400));
    value("read of the controller, width 8, offset 0x04", board.read(Window::CONTROLLER, 8, 0x04));
    value("read of the timers, width 2, offset 0x100", board.read(Window::TIMERS, 2, 0x100));
    value("read of the timers, width 8, offset 0x104", board.read(Window::TIMERS, 8, 0x104));
    value("read of the timers, width 4, offset 0x102", board.read(Window::TIMERS, 4, 0x102));
    value("read of the timers, width 4, offset 0x404", board.read(Window::TIMERS, 4, 0x404));
    done("wire 24 high", board.wire(24, 1));
    done("wire 4000000000 to level 7", board.wire(4_000_000_000, 7));
    done("wire 0 to level 2", board.wire(0, 2));
    done("write of 4294967296 to the controller", board.write(Window::CONTROLLER, 4, DATA, 4_294_967_296));
    done("write of 4294967296 to half a timer register", board.write(Window::TIMERS, 4, 0x10C, 4_294_967_296));
    same("the board", board, &saved);
}

fn not_a_board() {
    println!("-- memory that is not a board: 304 bytes of 0xff");
    let filled = Board::from_bytes([0xFF; Board::SIZE]);
    let mut board = filled;
    value("read", board.read(Window::CONTROLLER, 4, INDEX));
    done("write", board.write(Window::CONTROLLER, 4, INDEX, 0));
    done("wire", board.wire(0, 1));
    done("end of interrupt", board.end(0x29));
    fired("advance", board.advance(1));
    delivery(board.deliver());
    same("the memory", &board, &filled);
    board.reset();
    done("reset", Ok(()));
    same("the memory, and a board fresh from reset", &board, &Board::new());
}

fn damaged(board: &Board) {
    println!("-- a copy of the board, damaged in one byte");
    let mut copy = Board::from_bytes(board.to_bytes());
    copy.outside[3] = 2;
    delivery(copy.deliver());
    copy.outside[3] = 0;
    println!("-- and mended");
    delivery(copy.deliver());
    same("the copy, and the board", &copy, board);
}

fn full_advance(board: &mut Board) {
    println!("-- three timers of period 1 on pins 20, 21, 22, the last one masked");
    done("pin 20, edge, vector 0x40", put_low(board, 20, 0x40));
    done("pin 21, edge, vector 0x41, logical", put_low(board, 21, LOGICAL | 0x41));
    for m in 0..3 {
        done("a timer", put_timer(board, m, (20 + m) << ROUTE_AT | SET_COMPARATOR | PERIODIC | INTERRUPT, 1));
    }
    done("enable", board.write(Window::TIMERS, 8, CONFIGURATION, 1));
    fired("advance by 0", board.advance(0));
    fired("advance by 4294967295", board.advance(u32::MAX));
    value("counter", board.read(Window::TIMERS, 8, COUNTER));
    value("comparator 2", board.read(Window::TIMERS, 8, TIMER + 2 * TIMER_STEP + COMPARATOR));
    delivery(board.deliver());
    delivery(board.deliver());
    delivery(board.deliver());
    println!("-- nothing due");
    for m in 0..3 {
        done("a timer", put_timer(board, m, 0, u64::MAX));
    }
    fired("advance by 4294967295", board.advance(u32::MAX));
    value("counter", board.read(Window::TIMERS, 8, COUNTER));
}

/// As a build does that reads and writes the timers four bytes at a time: 32-bit mode, and the low half first.
fn in_halves(board: &mut Board) {
    let comparator = TIMER + COMPARATOR;
    let configuration = 20 << ROUTE_AT | NARROW | SET_COMPARATOR | PERIODIC | INTERRUPT;
    println!("-- timer 0 in halves: 32-bit mode, period 2, on pin 20");
    done("configuration, low half", board.write(Window::TIMERS, 4, TIMER, configuration));
    done("comparator, low half", board.write(Window::TIMERS, 4, comparator, 2));
    done("comparator, high half", board.write(Window::TIMERS, 4, comparator + HIGH_HALF, 0));
    fired("advance by 8", board.advance(8));
    value("comparator, low half", board.read(Window::TIMERS, 4, comparator));
    value("counter, low half", board.read(Window::TIMERS, 4, COUNTER));
    value("counter, high half", board.read(Window::TIMERS, 4, COUNTER + HIGH_HALF));
    delivery(board.deliver());
}

fn main() {
    let mut board = Board::new();
    pause_key(&mut board);
    refusals(&mut board);
    not_a_board();
    damaged(&board);
    full_advance(&mut board);
    in_halves(&mut board);
}
