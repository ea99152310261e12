//! The mill: a board with its pause screen.

use std::fmt;
use std::mem::transmute;

use crate::{Board, Interrupt, Numbers, Refusal, Window};

/// What the screen shows. Any number may stand in lent memory; one that is no word is a mill that is not well formed.
#[repr(transparent)]
#[derive(Clone, Copy, Debug, PartialEq, Eq, Hash)]
pub struct Word(pub u16);

impl Word {
    /// Nobody asked for a pause.
    pub const RUNNING: Word = Word(0);
    /// The pause pin held an edge.
    pub const ASKED: Word = Word(1);
    /// It was delivered.
    pub const TAKEN: Word = Word(2);
    /// The delivered vector was ended.
    pub const PAUSED: Word = Word(3);
}

impl fmt::Display for Word {
    fn fmt(&self, f: &mut fmt::Formatter<'_>) -> fmt::Result {
        match *self {
            Word::RUNNING => f.write_str("running"),
            Word::ASKED => f.write_str("asked"),
            Word::TAKEN => f.write_str("taken"),
            Word::PAUSED => f.write_str("paused"),
            Word(number) => write!(f, "no word: {number}"),
        }
    }
}

/// The pause screen: 8 bytes, none of them padding.
#[repr(C)]
#[derive(Clone, Copy, Debug, PartialEq, Eq, Hash)]
pub struct Screen {
    /// 1 once a pin is told; 0 before, and after a reset.
    pub told: u16,
    /// The pause pin, at most 23; 0 if none is told.
    pub pin: u16,
    /// What the screen shows; running if no pin is told.
    pub word: Word,
    /// Taken and paused: the vector that was delivered, at most 255; else 0.
    pub vector: u16,
}

/// A board with its pause screen: 312 bytes, none of them padding.
///
/// Its calls are the board's, with the same answers, and two of the screen's own: [`tell`](Mill::tell) and
/// [`resume`](Mill::resume). With a told pin, [`Screen::word`] goes from each word to the next, and in no other way:
///
/// - *asked*: the pin holds an edge after a call. It stays asked if that edge is lost without a delivery;
/// - *taken*: a delivery step gives the pin, whatever its entry is by then. The vector is remembered;
/// - *paused*: an end of interrupt with that vector is done, the first after the delivery.
///
/// A resume in paused, and a telling in any word, begin again: asked if the pin holds an edge, masked or not, else
/// running. So paused means that the motion program has taken the pause and ended its interrupt.
///
/// What is read off a board is read off `mill.board`. A call of the board that changes it goes to the mill: made on
/// `mill.board` it would pass the screen by.
///
/// ```
/// use nataqvoju::{Mill, Window, Word, DATA, ENTRY, INDEX};
///
/// let mut mill = Mill::new();
/// mill.tell(14)?;
/// mill.write(Window::CONTROLLER, 4, INDEX, ENTRY + 2 * 14)?;
/// mill.write(Window::CONTROLLER, 4, DATA, 0x2E)?;
/// assert_eq!(mill.screen.word, Word::RUNNING);
/// mill.wire(14, 1)?;
/// assert_eq!(mill.screen.word, Word::ASKED);
/// let interrupt = mill.deliver()?.expect("the pause key");
/// assert_eq!((interrupt.pin, mill.screen.word), (14, Word::TAKEN));
/// mill.end(interrupt.vector)?;
/// assert_eq!(mill.screen.word, Word::PAUSED);
/// mill.resume()?;
/// assert_eq!(mill.screen.word.to_string(), "running");
/// # Ok::<(), nataqvoju::Refusal>(())
/// ```
#[repr(C)]
#[derive(Clone, Copy, Debug, PartialEq, Eq, Hash)]
pub struct Mill {
    /// The board.
    pub board: Board,
    /// The screen.
    pub screen: Screen,
}

const READ: u64 = 1;
const WRITE: u64 = 2;
const WIRE: u64 = 3;
const END: u64 = 4;
const ADVANCE: u64 = 5;
const DELIVER: u64 = 6;
const RESET: u64 = 7;
const TELL: u64 = 8;
const RESUME: u64 = 9;

extern "C" {
    fn nataqvoju_mill(mill: &mut Mill, kind: u64, a: u64, b: u64, c: u64, d: u64) -> Numbers;
    fn nataqvoju_mill_reset_settings(mill: &mut Mill, record: *const u8, length: usize) -> Numbers;
}

impl Mill {
    /// How many bytes a mill has.
    pub const SIZE: usize = 312;

    /// A mill fresh from reset: no pin is told.
    pub fn new() -> Mill {
        let mut mill = Mill::from_bytes([0; Mill::SIZE]);
        mill.reset();
        mill
    }

    fn call(&mut self, kind: u64, [a, b, c, d]: [u64; 4]) -> Result<Numbers, Refusal> {
        // SAFETY: the declaration above is that of `monitor/nataqvoju.h`; the layouts are checked in `lib.rs`; every
        // byte pattern is a `Mill` and a `Numbers`; `&mut self` is valid, aligned and not aliased; and the model reads
        // and writes nothing else.
        unsafe { nataqvoju_mill(self, kind, a, b, c, d) }.done()
    }

    /// The reset state of the board, and no pin told, whatever was there. The pause pin has to be told again. The
    /// settings are document 01's, as after [`Board::reset`].
    pub fn reset(&mut self) {
        // A reset is always done.
        let _ = self.call(RESET, [0; 4]);
    }

    /// The reset state of the board with the settings of a record, and no pin told, whatever was there. What a record
    /// is, what it does and when it is refused: [`Board::reset_settings`]. Refused, every byte of the mill is as it
    /// was, its screen's too.
    ///
    /// ```
    /// use nataqvoju::{Mill, Refusal, Window, CAPABILITIES};
    ///
    /// // vendor 0x1022, 10,000,000 femtoseconds, pins 2, 8 and 23, id 15
    /// let mut record = [0x5A, 0xC3, 1, 0x22, 0x10, 0x80, 0x96, 0x98, 0, 4, 0, 0, 0, 0, 1, 0, 0, 0, 0, 0x80, 0, 15];
    /// let mut mill = Mill::new();
    /// mill.tell(14)?;
    /// let kept = mill;
    /// record[21] = 16;
    /// assert_eq!(mill.reset_settings(&record), Err(Refusal::Range));
    /// assert_eq!(mill, kept);
    /// record[21] = 15;
    /// mill.reset_settings(&record)?;
    /// assert_eq!((mill.screen.told, mill.board.controller.id), (0, 15));
    /// assert_eq!(mill.read(Window::TIMERS, 8, CAPABILITIES)?, 0x0098_9680_1022_2201);
    /// # Ok::<(), Refusal>(())
    /// ```
    pub fn reset_settings(&mut self, record: &[u8]) -> Result<(), Refusal> {
        // SAFETY: as for `call`; and a slice's address is never null, and is that of so many bytes, which are not the
        // mill's.
        unsafe { nataqvoju_mill_reset_settings(self, record.as_ptr(), record.len()) }.done().map(drop)
    }

    /// A register read. Every byte of the mill is as it was; the entry asks for `&mut` all the same.
    pub fn read(&mut self, window: Window, width: u64, offset: u64) -> Result<u64, Refusal> {
        Ok(self.call(READ, [window.0, width, offset, 0])?.value)
    }

    /// A register write.
    pub fn write(&mut self, window: Window, width: u64, offset: u64, value: u64) -> Result<(), Refusal> {
        self.call(WRITE, [window.0, width, offset, value]).map(drop)
    }

    /// The outside wire of a pin goes to a level.
    pub fn wire(&mut self, pin: u64, level: u64) -> Result<(), Refusal> {
        self.call(WIRE, [pin, level, 0, 0]).map(drop)
    }

    /// End of interrupt.
    pub fn end(&mut self, vector: u8) -> Result<(), Refusal> {
        self.call(END, [vector.into(), 0, 0, 0]).map(drop)
    }

    /// So many ticks at once: how often each timer fired.
    pub fn advance(&mut self, ticks: u32) -> Result<[u32; 3], Refusal> {
        Ok(self.call(ADVANCE, [ticks.into(), 0, 0, 0])?.fired)
    }

    /// A delivery step: the lowest eligible pin, if there is one.
    pub fn deliver(&mut self) -> Result<Option<Interrupt>, Refusal> {
        Ok(self.call(DELIVER, [0; 4])?.interrupt())
    }

    /// This pin is the pause key, also if another was told before. Its entry has to be an edge entry now, as every entry
    /// is after a reset; what the motion program writes to it later is not refused.
    ///
    /// ```
    /// use nataqvoju::{Mill, Refusal, Window, DATA, ENTRY, INDEX};
    ///
    /// let mut mill = Mill::new();
    /// mill.write(Window::CONTROLLER, 4, INDEX, ENTRY + 2 * 9)?;
    /// mill.write(Window::CONTROLLER, 4, DATA, 0x8029)?;
    /// assert_eq!(mill.tell(9), Err(Refusal::NotEdge));
    /// assert_eq!(mill.tell(24), Err(Refusal::Pin));
    /// assert_eq!(mill.screen.told, 0);
    /// mill.tell(14)?;
    /// assert_eq!((mill.screen.told, mill.screen.pin), (1, 14));
    /// # Ok::<(), Refusal>(())
    /// ```
    pub fn tell(&mut self, pin: u64) -> Result<(), Refusal> {
        self.call(TELL, [pin, 0, 0, 0]).map(drop)
    }

    /// The work goes on after a pause. In another word than paused it is done and changes nothing.
    pub fn resume(&mut self) -> Result<(), Refusal> {
        self.call(RESUME, [0; 4]).map(drop)
    }

    /// The mill as bytes, to save it.
    pub fn to_bytes(&self) -> [u8; Mill::SIZE] {
        // SAFETY: no byte of a mill is padding.
        unsafe { transmute::<Mill, [u8; Mill::SIZE]>(*self) }
    }

    /// A mill out of bytes. Any bytes will do: those that are no well-formed mill are refused by all but a reset.
    pub fn from_bytes(bytes: [u8; Mill::SIZE]) -> Mill {
        // SAFETY: every byte pattern is a mill.
        unsafe { transmute::<[u8; Mill::SIZE], Mill>(bytes) }
    }
}

impl Default for Mill {
    fn default() -> Mill {
        Mill::new()
    }
}
