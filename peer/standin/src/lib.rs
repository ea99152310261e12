//! A stand-in for the first program's library: the second program's model behind the same C
//! interface. With it `lent-check`, `mill-check`, `plain-check`, `salvage-check` and the benchmarks can be tried
//! without the libraries, and have to pass.

use std::slice::{from_raw_parts, from_raw_parts_mut};

use peer::abi::mill::{Mill, MillCall};
use peer::abi::plain::PlainCall;
use peer::abi::salvage::{salvage, Salvaged};
use peer::abi::settings::Resettable;
use peer::abi::{Board, Call, Reply};

fn answer(board: *mut Board, call: Call) -> Reply {
    // SAFETY: the caller lends a board for the length of the call, as the interface asks.
    call.answer(unsafe { &mut *board })
}

fn answer_copy(board: *const Board, call: Call) -> Reply {
    // SAFETY: as above; the board itself stays as it is.
    call.answer(&mut unsafe { *board })
}

fn answer_mill(mill: *mut Mill, call: MillCall) -> Reply {
    // SAFETY: as above, for a mill.
    call.answer(unsafe { &mut *mill })
}

fn answer_plain(board: *mut Board, call: PlainCall) -> Reply {
    // SAFETY: as above, for a board.
    call.answer(unsafe { &mut *board })
}

/// Resets the board.
#[no_mangle]
pub extern "C" fn nataqvoju_reset(board: *mut Board) -> Reply {
    answer(board, Call::Reset)
}

/// Resets the board with a settings record.
///
/// # Safety
///
/// Neither is null, the record has as many bytes as its length says, and both are lent for the length of the call.
#[no_mangle]
pub unsafe extern "C" fn nataqvoju_reset_settings(
    board: *mut Board,
    record: *const u8,
    length: usize,
) -> Reply {
    (*board).reset_settings(from_raw_parts(record, length))
}

/// Reads a register.
#[no_mangle]
pub extern "C" fn nataqvoju_read(
    board: *const Board,
    window: u64,
    width: u64,
    offset: u64,
) -> Reply {
    answer_copy(board, Call::Read { window, width, offset })
}

/// Writes a register.
#[no_mangle]
pub extern "C" fn nataqvoju_write(
    board: *mut Board,
    window: u64,
    width: u64,
    offset: u64,
    value: u64,
) -> Reply {
    answer(board, Call::Write { window, width, offset, value })
}

/// Sets an outside wire.
#[no_mangle]
pub extern "C" fn nataqvoju_wire(board: *mut Board, pin: u64, level: u64) -> Reply {
    answer(board, Call::Wire { pin, level })
}

/// End of interrupt.
#[no_mangle]
pub extern "C" fn nataqvoju_end(board: *mut Board, vector: u8) -> Reply {
    answer(board, Call::End { vector })
}

/// Lets time pass.
#[no_mangle]
pub extern "C" fn nataqvoju_advance(board: *mut Board, ticks: u32) -> Reply {
    answer(board, Call::Advance { ticks })
}

/// The delivery step.
#[no_mangle]
pub extern "C" fn nataqvoju_deliver(board: *mut Board) -> Reply {
    answer(board, Call::Deliver)
}

/// Any call of the mill.
#[no_mangle]
pub extern "C" fn nataqvoju_mill(
    mill: *mut Mill,
    kind: u64,
    a: u64,
    b: u64,
    c: u64,
    d: u64,
) -> Reply {
    answer_mill(mill, MillCall { kind, numbers: [a, b, c, d] })
}

/// Resets the mill with a settings record.
///
/// # Safety
///
/// As for a board.
#[no_mangle]
pub unsafe extern "C" fn nataqvoju_mill_reset_settings(
    mill: *mut Mill,
    record: *const u8,
    length: usize,
) -> Reply {
    (*mill).reset_settings(from_raw_parts(record, length))
}

/// Any call of the plain engine.
#[no_mangle]
pub extern "C" fn nataqvoju_plain(
    board: *mut Board,
    kind: u64,
    p: u64,
    q: u64,
    r: u64,
    s: u64,
) -> Reply {
    answer_plain(board, PlainCall { kind, numbers: [p, q, r, s] })
}

/// The records of a damaged log, and the list of what was skipped.
///
/// # Safety
///
/// None of the three is null, and each has as many elements as its length says, lent for the length of the
/// call.
#[no_mangle]
pub unsafe extern "C" fn nataqvoju_salvage(
    log: *const u8,
    log_length: usize,
    kept: *mut u8,
    kept_length: usize,
    list: *mut u64,
    list_length: usize,
) -> Salvaged {
    let log = from_raw_parts(log, log_length);
    let kept = from_raw_parts_mut(kept, kept_length);
    let list = from_raw_parts_mut(list, list_length);
    salvage(log, kept, list)
}
