//! The plain engine: the same board, done a second time in the most obvious way.

use crate::{Board, Interrupt, Numbers, Refusal, Window};

/// A board whose calls the plain engine makes, for a test bench that doesn't take those of [`Board`] on trust: it makes
/// each call on both, and compares the answers and the boards. They are proved equal. The plain engine shares no code
/// with the other.
///
/// An advance walks every tick, which takes a while (docs/BENCHMARKS.md); a long one can be made in portions, whose
/// counts are added up. It is not for a monitor at work.
///
/// ```
/// use nataqvoju::{Board, Plain, Window, COMPARATOR, CONFIGURATION, TIMER};
///
/// let (mut board, mut plain) = (Board::new(), Plain::new());
/// for (offset, value) in [(TIMER + COMPARATOR, 5), (CONFIGURATION, 1)] {
///     assert_eq!(board.write(Window::TIMERS, 8, offset, value), plain.write(Window::TIMERS, 8, offset, value));
/// }
/// assert_eq!(plain.advance(5)?, [1, 0, 0]);
/// assert_eq!(board.advance(5)?, [1, 0, 0]);
/// assert_eq!(board, plain.0);
/// # Ok::<(), nataqvoju::Refusal>(())
/// ```
#[repr(transparent)]
#[derive(Clone, Copy, Debug, PartialEq, Eq, Hash)]
pub struct Plain(pub Board);

const READ: u64 = 1;
const WRITE: u64 = 2;
const WIRE: u64 = 3;
const END: u64 = 4;
const ADVANCE: u64 = 5;
const DELIVER: u64 = 6;
const RESET: u64 = 7;

extern "C" {
    fn nataqvoju_plain(board: &mut Board, kind: u64, a: u64, b: u64, c: u64, d: u64) -> Numbers;
}

impl Plain {
    /// A board fresh from the plain engine's reset.
    pub fn new() -> Plain {
        let mut plain = Plain(Board::from_bytes([0; Board::SIZE]));
        plain.reset();
        plain
    }

    fn call(&mut self, kind: u64, [a, b, c, d]: [u64; 4]) -> Result<Numbers, Refusal> {
        // SAFETY: as for the mill's function: the declaration above is that of `monitor/nataqvoju.h`, the layouts are
        // checked in `lib.rs`, every byte pattern is a `Board` and a `Numbers`, and `&mut` is what the model asks for.
        unsafe { nataqvoju_plain(&mut self.0, kind, a, b, c, d) }.done()
    }

    /// The reset state with document 01's settings, whatever was there. A board with other settings is made by
    /// [`Board::reset_settings`], and served in `Plain(board)`.
    pub fn reset(&mut self) {
        // A reset is always done.
        let _ = self.call(RESET, [0; 4]);
    }

    /// A register read. Every byte of the board is as it was; the entry asks for `&mut` all the same.
    pub fn read(&mut self, window: Window, width: u64, offset: u64) -> Result<u64, Refusal> {
        Ok(self.call(READ, [window.0, width, offset, 0])?.value)
    }

    /// A register write.
    pub fn write(&mut self, window: Window, width: u64, offset: u64, value: u64) -> Result<(), Refusal> {
        self.call(WRITE, [window.0, width, offset, value]).map(drop)
    }

    /// The outside wire of a pin goes to a level.
    pub fn wire(&mut self, pin: u64, level: u64) -> Result<(), Refusal> {
        self.call(WIRE, [pin, level, 0, 0]).map(drop)
    }

    /// End of interrupt.
    pub fn end(&mut self, vector: u8) -> Result<(), Refusal> {
        self.call(END, [vector.into(), 0, 0, 0]).map(drop)
    }

    /// So many ticks, one after the other: how often each timer fired.
    pub fn advance(&mut self, ticks: u32) -> Result<[u32; 3], Refusal> {
        Ok(self.call(ADVANCE, [ticks.into(), 0, 0, 0])?.fired)
    }

    /// A delivery step: the lowest eligible pin, if there is one.
    pub fn deliver(&mut self) -> Result<Option<Interrupt>, Refusal> {
        Ok(self.call(DELIVER, [0; 4])?.interrupt())
    }
}

impl Default for Plain {
    fn default() -> Plain {
        Plain::new()
    }
}
