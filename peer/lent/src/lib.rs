//! The library's lent entries, called safely.

pub mod check;
pub mod guarded;
pub mod irr;
pub mod settings;

use peer::abi::mill::{Mill, MillCall};
use peer::abi::plain::PlainCall;
use peer::abi::salvage::Salvaged;
use peer::abi::{Board, Call, Reply};

/// The C interface.
mod entry {
    use super::{Board, Mill, Reply, Salvaged};

    extern "C" {
        pub fn nataqvoju_reset(board: *mut Board) -> Reply;
        pub fn nataqvoju_reset_settings(
            board: *mut Board,
            record: *const u8,
            length: usize,
        ) -> Reply;
        pub fn nataqvoju_read(board: *const Board, window: u64, width: u64, offset: u64) -> Reply;
        pub fn nataqvoju_write(
            board: *mut Board,
            window: u64,
            width: u64,
            offset: u64,
            value: u64,
        ) -> Reply;
        pub fn nataqvoju_wire(board: *mut Board, pin: u64, level: u64) -> Reply;
        pub fn nataqvoju_end(board: *mut Board, vector: u8) -> Reply;
        pub fn nataqvoju_advance(board: *mut Board, ticks: u32) -> Reply;
        pub fn nataqvoju_deliver(board: *mut Board) -> Reply;
        pub fn nataqvoju_mill(mill: *mut Mill, kind: u64, a: u64, b: u64, c: u64, d: u64) -> Reply;
        pub fn nataqvoju_mill_reset_settings(
            mill: *mut Mill,
            record: *const u8,
            length: usize,
        ) -> Reply;
        pub fn nataqvoju_plain(
            board: *mut Board,
            kind: u64,
            p: u64,
            q: u64,
            r: u64,
            s: u64,
        ) -> Reply;
        pub fn nataqvoju_salvage(
            log: *const u8,
            log_length: usize,
            kept: *mut u8,
            kept_length: usize,
            list: *mut u64,
            list_length: usize,
        ) -> Salvaged;
    }
}

// SAFETY, for every call below: what is lent is lent for the length of the call, and the entry answers any
// bytes in it.

/// Resets the board.
pub fn reset(board: &mut Board) -> Reply {
    unsafe { entry::nataqvoju_reset(board) }
}

/// Resets the board with a settings record. The record may be written, so that a call that does it shows.
pub fn reset_settings(board: &mut Board, record: &mut [u8]) -> Reply {
    let (record, length) = (record.as_mut_ptr(), record.len());
    unsafe { entry::nataqvoju_reset_settings(board, record, length) }
}

/// Reads a register. The board may be written, so that a read that does it shows.
pub fn read(board: &mut Board, window: u64, width: u64, offset: u64) -> Reply {
    unsafe { entry::nataqvoju_read(board, window, width, offset) }
}

/// Writes a register.
pub fn write(board: &mut Board, window: u64, width: u64, offset: u64, value: u64) -> Reply {
    unsafe { entry::nataqvoju_write(board, window, width, offset, value) }
}

/// Sets an outside wire.
pub fn wire(board: &mut Board, pin: u64, level: u64) -> Reply {
    unsafe { entry::nataqvoju_wire(board, pin, level) }
}

/// End of interrupt.
pub fn end(board: &mut Board, vector: u8) -> Reply {
    unsafe { entry::nataqvoju_end(board, vector) }
}

/// Lets time pass.
pub fn advance(board: &mut Board, ticks: u32) -> Reply {
    unsafe { entry::nataqvoju_advance(board, ticks) }
}

/// The delivery step.
pub fn deliver(board: &mut Board) -> Reply {
    unsafe { entry::nataqvoju_deliver(board) }
}

/// Makes any call.
pub fn call(board: &mut Board, call: Call) -> Reply {
    match call {
        Call::Reset => reset(board),
        Call::Read { window, width, offset } => read(board, window, width, offset),
        Call::Write { window, width, offset, value } => write(board, window, width, offset, value),
        Call::Wire { pin, level } => wire(board, pin, level),
        Call::End { vector } => end(board, vector),
        Call::Advance { ticks } => advance(board, ticks),
        Call::Deliver => deliver(board),
    }
}

/// Makes any call of the mill.
pub fn mill(mill: &mut Mill, MillCall { kind, numbers: [a, b, c, d] }: MillCall) -> Reply {
    unsafe { entry::nataqvoju_mill(mill, kind, a, b, c, d) }
}

/// Resets the mill with a settings record, which may be written too.
pub fn mill_reset_settings(mill: &mut Mill, record: &mut [u8]) -> Reply {
    let (record, length) = (record.as_mut_ptr(), record.len());
    unsafe { entry::nataqvoju_mill_reset_settings(mill, record, length) }
}

/// Makes any call of the plain engine.
pub fn plain(board: &mut Board, PlainCall { kind, numbers: [p, q, r, s] }: PlainCall) -> Reply {
    unsafe { entry::nataqvoju_plain(board, kind, p, q, r, s) }
}

/// Salvages a log. The log may be written, so that a call that does it shows.
pub fn salvage(log: &mut [u8], kept: &mut [u8], list: &mut [u64]) -> Salvaged {
    let (log, log_length) = (log.as_mut_ptr(), log.len());
    let (kept, kept_length) = (kept.as_mut_ptr(), kept.len());
    let (list, list_length) = (list.as_mut_ptr(), list.len());
    unsafe { entry::nataqvoju_salvage(log, log_length, kept, kept_length, list, list_length) }
}
