//! What can be got from a damaged log.

use crate::Refusal;

/// What a salvage answers: 32 bytes, none of them padding.
#[repr(C)]
#[derive(Clone, Copy, Debug, PartialEq, Eq, Hash)]
#[must_use = "a salvage may be refused"]
pub struct Salvaged {
    /// 0 done; 12 the records or the list don't fit, and the other three are 0.
    pub number: u64,
    /// How many records were kept.
    pub records: u64,
    /// How many bytes they have.
    pub bytes: u64,
    /// How many stretches were skipped: the list has two numbers for each.
    pub stretches: u64,
}

impl Salvaged {
    /// The same, or why it was refused.
    pub fn done(self) -> Result<Salvaged, Refusal> {
        match self.number {
            0 => Ok(self),
            // 12 is the only refusal of a salvage
            _ => Err(Refusal::Room),
        }
    }
}

extern "C" {
    fn nataqvoju_salvage(
        log: *const u8,
        log_length: usize,
        kept: *mut u8,
        kept_length: usize,
        list: *mut u64,
        list_length: usize,
    ) -> Salvaged;
}

/// Gets what can be got from a damaged log.
///
/// From the left: where a whole record stands (its mark 7E B5, a kind from 1 to 6, its full body) it is kept, and the
/// next place is the one after it; where none stands, one byte is skipped. What a record's call would be answered does
/// not matter. Bytes inside damage may happen to look like a record, and are then kept too.
///
/// The kept records are copied to the start of `kept`, one after the other. Each skipped stretch, as long as it runs,
/// goes into `list` from its start: the offset in the log, then the length. What lies behind them stays as it came. If
/// the records or the list don't fit, the answer is 12, and every byte of both buffers is as it came.
///
/// The records never need more than `log.len()` bytes, the list never more than `2 * ((log.len() + 3) / 4)` numbers;
/// what is really needed will do. The log may have any length.
///
/// ```
/// use nataqvoju::{salvage, Refusal};
///
/// // a delivery step, two stray bytes, a delivery step
/// let log = [0x7E, 0xB5, 6, 0x00, 0xFF, 0x7E, 0xB5, 6];
/// let mut kept = [0; 8];
/// let mut list = [0; 4];
/// let salvaged = salvage(&log, &mut kept, &mut list).done()?;
/// assert_eq!((salvaged.records, salvaged.bytes, salvaged.stretches), (2, 6, 1));
/// assert_eq!(kept, [0x7E, 0xB5, 6, 0x7E, 0xB5, 6, 0, 0]);
/// assert_eq!(list, [3, 2, 0, 0]);
/// assert_eq!(salvage(&log, &mut kept, &mut []).done(), Err(Refusal::Room));
/// # Ok::<(), Refusal>(())
/// ```
pub fn salvage(log: &[u8], kept: &mut [u8], list: &mut [u64]) -> Salvaged {
    // SAFETY: the declaration above is that of `monitor/nataqvoju.h`; the layout is checked in `lib.rs`; every byte
    // pattern is a `Salvaged`; a slice's address is never null, is aligned, and is that of so many elements; the two
    // buffers overlap neither each other nor the log; and the model reads and writes nothing else.
    unsafe { nataqvoju_salvage(log.as_ptr(), log.len(), kept.as_mut_ptr(), kept.len(), list.as_mut_ptr(), list.len()) }
}
