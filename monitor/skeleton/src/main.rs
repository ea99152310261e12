//! What a monitor does around the board's calls, in Rust: the same as `monitor/examples/skeleton.c`, line by line. It keeps
//! time, delivers, wires its lines again after a reset, names the trigger mode, and saves and restores the board as bytes.
//! Its clock and its processor are made up. What it must print stands in `monitor/examples/skeleton.out`.
//!
//!     skeleton [FILE]        the saved board is written to FILE, if one is named
use nataqvoju::{Board, Interrupt, Refusal, Window};
use nataqvoju::{COMPARATOR, CONFIGURATION, DATA, ENTRY, INDEX, STATUS, TIMER, TIMER_STEP};

const PINS: usize = 24;
const DOOR: usize = 5;

struct Monitor {
    board: Board,
    /// The outside lines as they are, whatever becomes of the board.
    line: [u8; PINS],
    /// The clock's tick up to which the board has been advanced.
    tick: u64,
    /// The clock's tick at which it has to be advanced.
    alarm: Option<u64>,
    /// Ticks of 100 ns.
    clock: u64,
}

/// A version mark, the board's bytes, the lines.
const MARK: &[u8; 8] = b"board 2\n";
const SAVED: usize = MARK.len() + Board::SIZE + PINS;

impl Monitor {
    fn new() -> Monitor {
        Monitor { board: Board::new(), line: [0; PINS], tick: 0, alarm: None, clock: 0 }
    }

    // ---- time

    /// Before the board is asked anything.
    fn catch_up(&mut self) -> Result<(), Refusal> {
        while self.tick < self.clock {
            let part = u32::try_from(self.clock - self.tick).unwrap_or(u32::MAX);
            self.board.advance(part)?;
            self.tick += u64::from(part);
        }
        Ok(())
    }

    /// After it: no firing is overslept.
    fn set_alarm(&mut self) {
        self.alarm = self.board.next_firing().and_then(|ticks| self.tick.checked_add(ticks));
    }

    // ---- deliveries

    /// The message to the processor. This one serves the timer's interrupt, vector 0x36, at once: its end comes from inside
    /// the delivery loop.
    fn send(&mut self, interrupt: Interrupt) -> Result<(), Refusal> {
        let Interrupt { pin, vector, .. } = interrupt;
        let mode = if self.board.is_level(pin) { "level" } else { "edge" };
        println!("{:6}: pin {pin}, vector {vector:#04x}, {mode}", self.clock);
        if vector == 0x36 {
            let status = self.on_read(Window::TIMERS, 8, STATUS)?;
            println!("{:6}: status {status:#x}, cleared, end 0x36", self.clock);
            self.on_write(Window::TIMERS, 8, STATUS, 2)?;
            self.on_end(0x36)?;
        }
        Ok(())
    }

    fn deliver_all(&mut self) -> Result<(), Refusal> {
        while let Some(interrupt) = self.board.deliver()? {
            self.send(interrupt)?;
        }
        Ok(())
    }

    fn settle(&mut self) -> Result<(), Refusal> {
        self.deliver_all()?;
        self.set_alarm();
        Ok(())
    }

    // ---- what comes from outside. An access that is refused is settled too: catching up may have made pins eligible.

    fn on_read(&mut self, window: Window, width: u64, offset: u64) -> Result<u64, Refusal> {
        self.catch_up()?;
        let answer = self.board.read(window, width, offset);
        self.settle()?;
        answer
    }

    fn on_write(&mut self, window: Window, width: u64, offset: u64, value: u64) -> Result<(), Refusal> {
        self.catch_up()?;
        let answer = self.board.write(window, width, offset, value);
        self.settle()?;
        answer
    }

    fn on_line(&mut self, pin: usize, level: u8) -> Result<(), Refusal> {
        self.line[pin] = level;
        self.catch_up()?;
        self.board.wire(pin as u64, level.into())?;
        self.settle()
    }

    fn on_end(&mut self, vector: u8) -> Result<(), Refusal> {
        self.catch_up()?;
        self.board.end(vector)?;
        self.settle()
    }

    fn on_alarm(&mut self) -> Result<(), Refusal> {
        self.catch_up()?;
        self.settle()
    }

    /// The lines don't fall because the chip is reset.
    fn on_reset(&mut self) -> Result<(), Refusal> {
        self.board.reset();
        self.tick = self.clock;
        for pin in (0..PINS).filter(|&pin| self.line[pin] == 1) {
            self.board.wire(pin as u64, 1)?;
        }
        self.settle()
    }

    // ---- save and restore

    fn save(&mut self) -> Result<[u8; SAVED], Refusal> {
        self.catch_up()?;
        let mut bytes = [0; SAVED];
        bytes[..8].copy_from_slice(MARK);
        bytes[8..8 + Board::SIZE].copy_from_slice(&self.board.to_bytes());
        bytes[8 + Board::SIZE..].copy_from_slice(&self.line);
        Ok(bytes)
    }

    /// A monitor that goes on from saved bytes at this time of its clock. `None` if they are not what was saved, as far as
    /// can be told: bytes that are no board get a refusal from any call but a reset, so this asks one.
    fn restore(bytes: &[u8; SAVED], clock: u64) -> Option<Monitor> {
        let rest = bytes.strip_prefix(MARK)?;
        let board = Board::from_bytes(rest[..Board::SIZE].try_into().ok()?);
        let line = rest[Board::SIZE..].try_into().ok()?;
        board.read(Window::CONTROLLER, 4, INDEX).ok()?;
        let mut monitor = Monitor { board, line, tick: clock, alarm: None, clock };
        monitor.settle().ok()?;
        Some(monitor)
    }

    // ---- the story

    fn entry(&mut self, pin: u64, low: u64) -> Result<(), Refusal> {
        self.on_write(Window::CONTROLLER, 4, INDEX, ENTRY + 2 * pin)?;
        self.on_write(Window::CONTROLLER, 4, DATA, low)
    }

    fn timer(&mut self, n: u64, configuration: u64, comparator: u64) -> Result<(), Refusal> {
        let at = TIMER + TIMER_STEP * n;
        self.on_write(Window::TIMERS, 8, at, configuration)?;
        self.on_write(Window::TIMERS, 8, at + COMPARATOR, comparator)
    }

    /// Edge pin 4 with a pulse every 1,000 ticks; level pin 6 with one level interrupt after 2,500; the door on level pin 5.
    fn set_up(&mut self) -> Result<(), Refusal> {
        self.entry(4, 0x34)?;
        self.entry(DOOR as u64, 0x8035)?;
        self.entry(6, 0x8036)?;
        self.timer(0, 4 << 9 | 0x40 | 0x08 | 0x04, 1000)?;
        self.timer(1, 6 << 9 | 0x04 | 0x02, 2500)?;
        self.on_write(Window::TIMERS, 8, CONFIGURATION, 1)
    }

    /// The clock goes on, and the alarms come as they are due.
    fn until(&mut self, then: u64) -> Result<(), Refusal> {
        while let Some(alarm) = self.alarm.filter(|&alarm| alarm <= then) {
            self.clock = alarm;
            self.on_alarm()?;
        }
        self.clock = then;
        Ok(())
    }
}

fn main() -> Result<(), Box<dyn std::error::Error>> {
    let mut monitor = Monitor::new();
    monitor.on_reset()?;
    println!("-- set up at 100");
    monitor.until(100)?;
    monitor.set_up()?;
    monitor.until(1500)?;
    println!("-- the door opens at 1500, and its interrupt ends at 1700");
    monitor.on_line(DOOR, 1)?;
    monitor.until(1700)?;
    monitor.on_end(0x35)?;
    monitor.until(2000)?;

    println!("-- saved at 2000");
    let mut saved = monitor.save()?;
    if let Some(path) = std::env::args_os().nth(1) {
        std::fs::write(path, saved)?;
    }
    monitor.until(3500)?;

    println!("-- restored, and the same once more");
    let mut other = Monitor::restore(&saved, 2000).ok_or("the saved bytes were not taken")?;
    other.until(3500)?;
    println!("the boards: {}", if monitor.board == other.board { "same bytes" } else { "OTHER BYTES" });
    saved[MARK.len() + std::mem::offset_of!(Board, outside)] = 2;
    println!("damaged in a byte: {}", if Monitor::restore(&saved, 2000).is_some() { "TAKEN" } else { "not taken" });

    println!("-- a reset at 3500, with the door still open");
    monitor.on_reset()?;
    println!("alarm: {}", if monitor.alarm.is_some() { "SET" } else { "none" });
    monitor.set_up()?;
    monitor.until(4600)?;
    Ok(())
}
