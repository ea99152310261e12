//! The board of a milling machine's PC, for a monitor written in Rust: an Intel 82093AA interrupt controller, an HPET timer
//! block and the wires between them.
//!
//! A [`Board`] is a plain value of 304 bytes that the monitor owns. Each method lends it to the proved model, which
//! changes it where it lies; nothing else is kept anywhere. `&mut self` is what the model asks of its caller: a valid,
//! aligned address that nobody else uses during the call. A read changes nothing, and takes `&self`.
//!
//! ```
//! use nataqvoju::{Board, Window, INDEX, DATA};
//!
//! let mut board = Board::new();
//! board.write(Window::CONTROLLER, 4, INDEX, 0x10)?;
//! board.write(Window::CONTROLLER, 4, DATA, 0x20)?;
//! board.wire(0, 1)?;
//! let interrupt = board.deliver()?.expect("pin 0 has an edge");
//! assert_eq!((interrupt.pin, interrupt.vector), (0, 0x20));
//! assert_eq!(board.deliver()?, None);
//! # Ok::<(), nataqvoju::Refusal>(())
//! ```
//!
//! A [`Mill`] is a board with its pause screen, 312 bytes: for a monitor that shows whether the machine is paused.
//! [`salvage`] gets what can be got from a damaged log, and needs no board. A [`Plain`] is a board that a second engine
//! serves, tick by tick: for a test bench that compares the two.
//!
//! What is proved: for every argument and every byte pattern of the board or the mill, what it is after a call and the answer
//! are those of the model's own call by value. A refused call leaves every byte as it was.
#![warn(missing_docs)]

mod mill;
mod plain;
mod salvage;

pub use mill::{Mill, Screen, Word};
pub use plain::Plain;
pub use salvage::{salvage, Salvaged};

use std::fmt;
use std::mem::{align_of, size_of, transmute};
use std::ptr::addr_of;

/// One timer. Flags are 0 or 1; any other value is a board that is not well formed.
///
/// A level-type timer's line is active high: with its interrupt enabled and the block enabled, it holds the wire of its pin
/// high as long as its status is 1.
#[repr(C)]
#[derive(Clone, Copy, Debug, PartialEq, Eq, Hash)]
pub struct Timer {
    /// Below 2^32 in 32-bit mode.
    pub comparator: u64,
    /// Below 2^32 in 32-bit mode.
    pub period: u64,
    /// The pin that it is routed to, one of its mask.
    pub route: u16,
    /// Bit 1 of its configuration: 1 level, 0 edge.
    pub level_type: u8,
    /// Bit 2: interrupt enable.
    pub interrupt: u8,
    /// Bit 3.
    pub periodic: u8,
    /// Bit 6: 0 unless it is periodic.
    pub set_comparator: u8,
    /// Bit 8: 32-bit mode.
    pub narrow: u8,
    /// Its bit of the status register: 0 if it is edge type.
    pub status: u8,
}

/// The timer block, with what the settings say of it. No call but a reset changes the tick period, the vendor and the
/// masks.
#[repr(C)]
#[derive(Clone, Copy, Debug, PartialEq, Eq, Hash)]
pub struct Timers {
    /// The main counter.
    pub counter: u64,
    /// A tick's length in femtoseconds: 1 to 100,000,000.
    pub tick_period: u32,
    /// Below 2^16.
    pub vendor: u32,
    /// For each timer the pins that it can be routed to, pin n at bit n: nonzero, below 2^24.
    pub masks: [u32; 3],
    /// 0 or 1.
    pub enabled: u32,
    /// The three timers.
    pub timer: [Timer; 3],
}

/// The 24 redirection entries, each with its pin's wire and held edge.
#[repr(C)]
#[derive(Clone, Copy, Debug, PartialEq, Eq, Hash)]
pub struct Entries {
    /// Low words. Bit 12 is never stored, and bit 14 only if bit 15 is 1.
    pub low: [u32; 24],
    /// Bits 31:24 of the high words.
    pub destination: [u8; 24],
    /// The level of each pin's wire, as the wire rule gives it: 0 or 1.
    pub level: [u8; 24],
    /// An edge is held: 0 or 1, and 0 on a level pin.
    pub held: [u8; 24],
}

/// The interrupt controller.
#[repr(C)]
#[derive(Clone, Copy, Debug, PartialEq, Eq, Hash)]
pub struct Controller {
    /// At most 15.
    pub id: u32,
    /// At most 255.
    pub index: u32,
    /// The redirection table.
    pub entries: Entries,
}

/// The board: 304 bytes, none of them padding.
///
/// Zero bytes are no well-formed board: a tick has a length, and a mask has a pin. A reset makes a board out of any
/// bytes.
#[repr(C)]
#[derive(Clone, Copy, Debug, PartialEq, Eq, Hash)]
pub struct Board {
    /// The timer block.
    pub timers: Timers,
    /// The interrupt controller.
    pub controller: Controller,
    /// The levels of the outside wires: 0 or 1.
    pub outside: [u8; 24],
}

/// An answer as the model gives it. What a call doesn't give is 0.
#[repr(C)]
#[derive(Clone, Copy, Debug, PartialEq, Eq)]
struct Numbers {
    value: u64,
    number: u32,
    delivered: u32,
    fired: [u32; 3],
    pin: u8,
    vector: u8,
    destination: u8,
    logical: u8,
}

/// A number that chooses a window. Any number may be asked for; one that is no window is refused.
#[derive(Clone, Copy, Debug, PartialEq, Eq, Hash)]
pub struct Window(pub u64);

impl Window {
    /// The interrupt controller's: width 4.
    pub const CONTROLLER: Window = Window(0);
    /// The timer block's: width 8, or 4 for one half of a register; the offset is a multiple of the width, below 0x400.
    pub const TIMERS: Window = Window(1);
}

/// Offset in the controller's window: the index.
pub const INDEX: u64 = 0x00;
/// Offset in the controller's window: the register that the index chooses.
pub const DATA: u64 = 0x10;
/// Index of entry 0's low word; entry n's is 2n above it, and its high word one above that.
pub const ENTRY: u64 = 0x10;
/// Offset in the timers' window: the capabilities, read only. Bits 63:32 are a tick's length in femtoseconds, bits
/// 31:16 the vendor.
pub const CAPABILITIES: u64 = 0x000;
/// Offset in the timers' window: bit 0 enables the block.
pub const CONFIGURATION: u64 = 0x010;
/// Offset in the timers' window: bit n is timer n's status; writing 1 clears it.
pub const STATUS: u64 = 0x020;
/// Offset in the timers' window: the main counter.
pub const COUNTER: u64 = 0x0F0;
/// Offset in the timers' window: timer 0's configuration; timer n's is n times [`TIMER_STEP`] above it.
pub const TIMER: u64 = 0x100;
/// From a timer's registers to the next one's.
pub const TIMER_STEP: u64 = 0x020;
/// From a timer's configuration to its comparator.
pub const COMPARATOR: u64 = 0x008;
/// From a register of the timers' window to its high half, of width 4. The low half is at the register's own offset.
pub const HIGH_HALF: u64 = 0x004;

/// How many bytes a settings record has: [`Board::reset_settings`].
pub const SETTINGS_LENGTH: usize = 22;

/// Why a call was refused. The board or the mill, or what else was lent, is as it was.
#[derive(Clone, Copy, Debug, PartialEq, Eq, Hash)]
#[repr(u32)]
pub enum Refusal {
    /// The window, or the offset in it, doesn't exist.
    Place = 1,
    /// Width or alignment isn't allowed.
    Width = 2,
    /// Pin above 23.
    Pin = 3,
    /// Wire level above 1, or a 4-byte write with a value above 4,294,967,295.
    Value = 4,
    /// The board or the mill is not well formed.
    State = 5,
    /// A settings record doesn't begin with its mark: a reset with settings alone gives this and the next three.
    Mark = 6,
    /// A settings record hasn't 22 bytes.
    Length = 8,
    /// A settings record's form isn't 1.
    Form = 9,
    /// A number of the settings is out of range.
    Range = 10,
    /// The records or the list don't fit: a salvage alone gives this.
    Room = 12,
    /// The pause pin that is told has a level entry: a mill's telling alone gives this.
    NotEdge = 14,
}

impl Refusal {
    /// The number of the refusal: 1 to 6, 8 to 10, 12 or 14.
    pub fn number(self) -> u32 {
        self as u32
    }
}

impl fmt::Display for Refusal {
    fn fmt(&self, f: &mut fmt::Formatter<'_>) -> fmt::Result {
        f.write_str(match self {
            Refusal::Place => "the window, or the offset in it, doesn't exist",
            Refusal::Width => "width or alignment isn't allowed",
            Refusal::Pin => "pin above 23",
            Refusal::Value => "wire level above 1, or a 4-byte write with a value above 4,294,967,295",
            Refusal::State => "the board or the mill is not well formed",
            Refusal::Mark => "a settings record doesn't begin with the mark 5A C3",
            Refusal::Length => "a settings record hasn't 22 bytes",
            Refusal::Form => "a settings record's form isn't 1",
            Refusal::Range => "a number of the settings is out of range",
            Refusal::Room => "the records or the list don't fit",
            Refusal::NotEdge => "the pause pin's entry is not an edge entry",
        })
    }
}

impl std::error::Error for Refusal {}

/// What a delivery step gives. The pin's trigger mode is [`Board::is_level`].
#[derive(Clone, Copy, Debug, PartialEq, Eq, Hash)]
pub struct Interrupt {
    /// The lowest eligible pin.
    pub pin: u8,
    /// Its entry's vector.
    pub vector: u8,
    /// Its entry's destination.
    pub destination: u8,
    /// Its entry's bit 11.
    pub logical: bool,
}

extern "C" {
    fn nataqvoju_reset(board: &mut Board) -> Numbers;
    fn nataqvoju_reset_settings(board: &mut Board, record: *const u8, length: usize) -> Numbers;
    fn nataqvoju_read(board: &Board, window: u64, width: u64, offset: u64) -> Numbers;
    fn nataqvoju_write(board: &mut Board, window: u64, width: u64, offset: u64, value: u64) -> Numbers;
    fn nataqvoju_wire(board: &mut Board, pin: u64, level: u64) -> Numbers;
    fn nataqvoju_end(board: &mut Board, vector: u8) -> Numbers;
    fn nataqvoju_advance(board: &mut Board, ticks: u32) -> Numbers;
    fn nataqvoju_deliver(board: &mut Board) -> Numbers;
}

impl Numbers {
    fn done(self) -> Result<Numbers, Refusal> {
        match self.number {
            0 => Ok(self),
            1 => Err(Refusal::Place),
            2 => Err(Refusal::Width),
            3 => Err(Refusal::Pin),
            4 => Err(Refusal::Value),
            6 => Err(Refusal::Mark),
            8 => Err(Refusal::Length),
            9 => Err(Refusal::Form),
            10 => Err(Refusal::Range),
            14 => Err(Refusal::NotEdge),
            // 7 is an unknown kind's, and 12 a salvage's: no call of a board or of a mill's methods gives them.
            _ => Err(Refusal::State),
        }
    }

    fn interrupt(self) -> Option<Interrupt> {
        (self.delivered != 0).then_some(Interrupt {
            pin: self.pin,
            vector: self.vector,
            destination: self.destination,
            logical: self.logical == 1,
        })
    }
}

// SAFETY of every `unsafe` call below: the declarations above are those of `monitor/nataqvoju.h`; the layouts are checked at
// the end of this file; every byte pattern is a `Board` and a `Numbers`; `&mut self` is valid, aligned and not aliased, `&self`
// is valid, aligned and not written to meanwhile; a slice's address is never null, and is that of so many bytes, which
// are not the board's; and the model reads and writes nothing else.
impl Board {
    /// How many bytes a board has.
    pub const SIZE: usize = 304;

    /// A board fresh from reset, with document 01's settings.
    pub fn new() -> Board {
        let mut board = Board::from_bytes([0; Board::SIZE]);
        board.reset();
        board
    }

    /// The reset state, whatever was there. Outside wires are low after it: a monitor whose lines stay high through a reset
    /// wires them again. The settings are document 01's, also on a board that had others: vendor 0x8086, 100,000,000
    /// femtoseconds, all 24 pins for each timer, id 0.
    pub fn reset(&mut self) {
        unsafe { nataqvoju_reset(self) };
    }

    /// The reset state with the settings of a record, whatever was there. A record has 22 bytes, its numbers are
    /// little-endian:
    ///
    /// | at | |
    /// |---|---|
    /// | 0 | the mark 5A C3 |
    /// | 2 | the form, 1 |
    /// | 3 | vendor, two bytes: any |
    /// | 5 | a tick's length in femtoseconds, four bytes: 1 to 100,000,000 |
    /// | 9 | for each timer the pins that it can be routed to, pin n at bit n, four bytes each: nonzero, below 2^24 |
    /// | 21 | the controller's id, one byte: at most 15 |
    ///
    /// Refused, in this order, with [`Refusal::Length`], [`Refusal::Mark`], [`Refusal::Form`] and [`Refusal::Range`],
    /// never with [`Refusal::State`]. Refused, nothing is reset: every byte of the board is as it was, also of bytes
    /// that are no well-formed board.
    ///
    /// A timer's route is then its mask's lowest pin. A route that is written and not in the mask keeps the old one,
    /// and the other bits are taken. A write to the controller's id changes that register and nothing else. The
    /// settings stay until the next reset, which has its own record, or document 01's settings if it has none.
    ///
    /// ```
    /// use nataqvoju::{Board, Refusal, Window, CAPABILITIES, TIMER, TIMER_STEP};
    ///
    /// // vendor 0x8086; 69,841,279 femtoseconds, as 14.31818 MHz have it; pins 20 to 23 for each timer; id 2
    /// let record = [
    ///     0x5A, 0xC3, 1, 0x86, 0x80, 0x7F, 0xB1, 0x29, 0x04, 0, 0, 0xF0, 0, 0, 0, 0xF0, 0, 0, 0, 0xF0, 0, 2,
    /// ];
    /// let mut board = Board::new();
    /// board.reset_settings(&record)?;
    /// assert_eq!(board.read(Window::TIMERS, 8, CAPABILITIES)?, 0x0429_B17F_8086_2201);
    /// // timer 1 can be routed to pins 20 to 23, and is to the lowest of them; 4 is not taken, 21 is
    /// assert_eq!(board.read(Window::TIMERS, 8, TIMER + TIMER_STEP)?, 0x00F0_0000_0000_0030 | 20 << 9);
    /// board.write(Window::TIMERS, 8, TIMER + TIMER_STEP, 4 << 9)?;
    /// assert_eq!(board.timers.timer[1].route, 20);
    /// board.write(Window::TIMERS, 8, TIMER + TIMER_STEP, 21 << 9)?;
    /// assert_eq!(board.timers.timer[1].route, 21);
    ///
    /// let kept = board;
    /// assert_eq!(board.reset_settings(&record[..21]), Err(Refusal::Length));
    /// assert_eq!(board, kept);
    /// board.reset();
    /// assert_eq!(board.read(Window::TIMERS, 8, CAPABILITIES)?, 0x05F5_E100_8086_2201);
    /// # Ok::<(), Refusal>(())
    /// ```
    pub fn reset_settings(&mut self, record: &[u8]) -> Result<(), Refusal> {
        let numbers = unsafe { nataqvoju_reset_settings(self, record.as_ptr(), record.len()) };
        numbers.done().map(drop)
    }

    /// A register read. Width 4 gives one half of a timer register.
    ///
    /// ```
    /// use nataqvoju::{Board, Refusal, Window, CAPABILITIES, HIGH_HALF, TIMER};
    ///
    /// let board = Board::new();
    /// // a tick is 100,000,000 femtoseconds
    /// assert_eq!(board.read(Window::TIMERS, 4, CAPABILITIES + HIGH_HALF)?, 100_000_000);
    /// // bits 63:32 of a configuration name the pins that it can be routed to; bits 5 and 4 are 1
    /// assert_eq!(board.read(Window::TIMERS, 8, TIMER)?, 0x00FF_FFFF_0000_0030);
    /// assert_eq!(board.read(Window::TIMERS, 4, TIMER)?, 0x30);
    /// assert_eq!(board.read(Window::TIMERS, 4, TIMER + HIGH_HALF)?, 0x00FF_FFFF);
    /// assert_eq!(board.read(Window::TIMERS, 8, TIMER + HIGH_HALF), Err(Refusal::Width));
    /// # Ok::<(), Refusal>(())
    /// ```
    pub fn read(&self, window: Window, width: u64, offset: u64) -> Result<u64, Refusal> {
        let numbers = unsafe { nataqvoju_read(self, window.0, width, offset) };
        Ok(numbers.done()?.value)
    }

    /// A register write.
    ///
    /// Width 4 replaces one half of a timer register and then does what a write of the whole does; for the status the
    /// other half counts as zeros. For a comparator, the half is replaced in whatever the whole write would set: the
    /// comparator, the period, or (periodic, with bit 6) both, each of which keeps its own other half. Bit 6 is then 0,
    /// so the second half goes into the period alone. In 32-bit mode a high half stores 0.
    ///
    /// Two ways that work for a periodic timer in halves: 32-bit mode with the low half first, or the comparator as
    /// one-shot first, then bit 3 without bit 6, then the period (docs/MONITOR.md has a third). Bit 6 in 64-bit mode is
    /// a trap: only the first half reaches the comparator.
    ///
    /// ```
    /// use nataqvoju::{Board, Window, COMPARATOR, HIGH_HALF, TIMER, TIMER_STEP};
    ///
    /// const PERIODIC: u64 = 0x08;
    /// const SET_COMPARATOR: u64 = 0x40;
    /// const NARROW: u64 = 0x100;
    /// let mut board = Board::new();
    /// // the trap, low half first: the comparator's high half is left as it was, all ones from reset
    /// board.write(Window::TIMERS, 4, TIMER, SET_COMPARATOR | PERIODIC)?;
    /// board.write(Window::TIMERS, 4, TIMER + COMPARATOR, 10)?;
    /// board.write(Window::TIMERS, 4, TIMER + COMPARATOR + HIGH_HALF, 0)?;
    /// assert_eq!(board.read(Window::TIMERS, 8, TIMER + COMPARATOR)?, 0xFFFF_FFFF_0000_000A);
    /// // high half first: its low half is left, so the first firing comes after 2^32 - 1 ticks, seven minutes
    /// let last = TIMER + 2 * TIMER_STEP;
    /// board.write(Window::TIMERS, 4, last, SET_COMPARATOR | PERIODIC)?;
    /// board.write(Window::TIMERS, 4, last + COMPARATOR + HIGH_HALF, 0)?;
    /// board.write(Window::TIMERS, 4, last + COMPARATOR, 10)?;
    /// assert_eq!(board.read(Window::TIMERS, 8, last + COMPARATOR)?, 0x0000_0000_FFFF_FFFF);
    /// // 32-bit mode, low half first
    /// let next = TIMER + TIMER_STEP;
    /// board.write(Window::TIMERS, 4, next, NARROW | SET_COMPARATOR | PERIODIC)?;
    /// board.write(Window::TIMERS, 4, next + COMPARATOR, 10)?;
    /// board.write(Window::TIMERS, 4, next + COMPARATOR + HIGH_HALF, 0)?;
    /// assert_eq!((board.timers.timer[1].comparator, board.timers.timer[1].period), (10, 10));
    /// # Ok::<(), nataqvoju::Refusal>(())
    /// ```
    pub fn write(&mut self, window: Window, width: u64, offset: u64, value: u64) -> Result<(), Refusal> {
        let numbers = unsafe { nataqvoju_write(self, window.0, width, offset, value) };
        numbers.done().map(drop)
    }

    /// The outside wire of a pin goes to a level.
    pub fn wire(&mut self, pin: u64, level: u64) -> Result<(), Refusal> {
        let numbers = unsafe { nataqvoju_wire(self, pin, level) };
        numbers.done().map(drop)
    }

    /// End of interrupt: every level entry whose present vector this is loses its remote IRR.
    pub fn end(&mut self, vector: u8) -> Result<(), Refusal> {
        let numbers = unsafe { nataqvoju_end(self, vector) };
        numbers.done().map(drop)
    }

    /// So many ticks at once: how often each timer fired.
    pub fn advance(&mut self, ticks: u32) -> Result<[u32; 3], Refusal> {
        let numbers = unsafe { nataqvoju_advance(self, ticks) };
        Ok(numbers.done()?.fired)
    }

    /// A delivery step: the lowest eligible pin, if there is one.
    pub fn deliver(&mut self) -> Result<Option<Interrupt>, Refusal> {
        let numbers = unsafe { nataqvoju_deliver(self) };
        Ok(numbers.done()?.interrupt())
    }

    /// The trigger mode of a pin, which the message of its delivery has to name: whether it is level. This is bit 15 of the
    /// pin's low word, which a delivery step leaves as it is. A pin above 23 is not.
    ///
    /// ```
    /// use nataqvoju::{Board, Window, DATA, INDEX};
    ///
    /// let mut board = Board::new();
    /// board.write(Window::CONTROLLER, 4, INDEX, 0x10 + 2 * 9)?;
    /// board.write(Window::CONTROLLER, 4, DATA, 0x8029)?;
    /// board.wire(9, 1)?;
    /// let interrupt = board.deliver()?.expect("pin 9 is level and asserted");
    /// assert!(board.is_level(interrupt.pin));
    /// assert!(!board.is_level(8) && !board.is_level(24));
    /// # Ok::<(), nataqvoju::Refusal>(())
    /// ```
    pub fn is_level(&self, pin: u8) -> bool {
        self.controller.entries.low.get(usize::from(pin)).is_some_and(|low| low >> 15 & 1 == 1)
    }

    /// In how many ticks a timer fires next: an advance by fewer fires none, by so many exactly the timers that are due, each
    /// once. It may be more than one advance takes. `None` if none fires, since the block is disabled, or only in 2^64 ticks.
    ///
    /// For each timer that is (comparator - counter) modulo 2^64, or 2^32 in 32-bit mode, where 0 stands for a whole turn.
    ///
    /// ```
    /// use nataqvoju::{Board, Window, COMPARATOR, CONFIGURATION, TIMER};
    ///
    /// let mut board = Board::new();
    /// board.write(Window::TIMERS, 8, TIMER + COMPARATOR, 1000)?;
    /// assert_eq!(board.next_firing(), None);
    /// board.write(Window::TIMERS, 8, CONFIGURATION, 1)?;
    /// assert_eq!(board.next_firing(), Some(1000));
    /// assert_eq!(board.advance(999)?, [0, 0, 0]);
    /// assert_eq!(board.advance(1)?, [1, 0, 0]);
    /// # Ok::<(), nataqvoju::Refusal>(())
    /// ```
    pub fn next_firing(&self) -> Option<u64> {
        if self.timers.enabled == 0 {
            return None;
        }
        // what is compared is one less: it has no case for a whole turn
        let before = |timer: &Timer| {
            let ticks = timer.comparator.wrapping_sub(self.timers.counter).wrapping_sub(1);
            if timer.narrow == 0 {
                ticks
            } else {
                ticks & u64::from(u32::MAX)
            }
        };
        self.timers.timer.iter().map(before).min()?.checked_add(1)
    }

    /// The board as bytes, to save it.
    pub fn to_bytes(&self) -> [u8; Board::SIZE] {
        // SAFETY: no byte of a board is padding.
        unsafe { transmute::<Board, [u8; Board::SIZE]>(*self) }
    }

    /// A board out of bytes. Any bytes will do: those that are no well-formed board are refused by every call but a reset.
    pub fn from_bytes(bytes: [u8; Board::SIZE]) -> Board {
        // SAFETY: every byte pattern is a board.
        unsafe { transmute::<[u8; Board::SIZE], Board>(bytes) }
    }
}

impl Default for Board {
    fn default() -> Board {
        Board::new()
    }
}

// ---- the layout, checked where this is compiled. No padding: each size is the sum of the fields' sizes.

/// The bytes 0, 1, 2, ..: laid over them, a field reads its own place as its first byte.
const fn places<const N: usize>() -> [u8; N] {
    let mut bytes = [0; N];
    let mut i = 0;
    while i < N {
        bytes[i] = (i % 256) as u8;
        i += 1;
    }
    bytes
}

macro_rules! layout {
    ($type:ty, $size:expr, $align:expr, $($field:ident at $place:expr),+) => {
        const _: () = {
            assert!(size_of::<$type>() == $size && align_of::<$type>() == $align);
            let laid = unsafe { transmute::<[u8; $size], $type>(places()) };
            $(assert!(unsafe { *(addr_of!(laid.$field) as *const u8) } == ($place % 256) as u8);)+
        };
    };
}

layout!(Timer, 24, 8, comparator at 0, period at 8, route at 16, level_type at 18, interrupt at 19, periodic at 20,
    set_comparator at 21, narrow at 22, status at 23);
layout!(Timers, 104, 8, counter at 0, tick_period at 8, vendor at 12, masks at 16, enabled at 28, timer at 32);
layout!(Entries, 168, 4, low at 0, destination at 96, level at 120, held at 144);
layout!(Controller, 176, 4, id at 0, index at 4, entries at 8);
layout!(Board, 304, 8, timers at 0, controller at 104, outside at 280);
layout!(Numbers, 32, 8, value at 0, number at 8, delivered at 12, fired at 16, pin at 28, vector at 29, destination at 30,
    logical at 31);
layout!(Screen, 8, 2, told at 0, pin at 2, word at 4, vector at 6);
layout!(Mill, 312, 8, board at 0, screen at 304);
layout!(Salvaged, 32, 8, number at 0, records at 8, bytes at 16, stretches at 24);
