//! The calls of the lent entry, and what each has to answer.

use super::Board;
use crate::board::{self, Calls, Refusal};
use crate::controller::Delivery;
use crate::log::Record;
use crate::timers::TIMERS;

/// What a call answers.
#[repr(C)]
#[derive(Clone, Copy, PartialEq, Eq, Debug, Default)]
pub struct Reply {
    /// A done read's value, else 0.
    pub value: u64,
    /// The paper's number: 0 to 5; of an entry over a kind also 7, of a mill also 14.
    pub number: u32,
    /// 1 exactly when a pin was delivered.
    pub delivered: u32,
    /// A done advance's counts, else 0.
    pub fired: [u32; TIMERS],
    /// The delivered pin, else 0.
    pub pin: u8,
    /// Its vector, else 0.
    pub vector: u8,
    /// Its destination, else 0.
    pub destination: u8,
    /// Its bit 11, else 0.
    pub logical: u8,
}

/// A call of the lent entry.
#[derive(Clone, Copy, PartialEq, Eq, Debug)]
#[allow(missing_docs)] // the arguments of the calls
pub enum Call {
    /// `nataqvoju_reset`
    Reset,
    /// `nataqvoju_read`
    Read { window: u64, width: u64, offset: u64 },
    /// `nataqvoju_write`
    Write { window: u64, width: u64, offset: u64, value: u64 },
    /// `nataqvoju_wire`
    Wire { pin: u64, level: u64 },
    /// `nataqvoju_end`
    End { vector: u8 },
    /// `nataqvoju_advance`
    Advance { ticks: u32 },
    /// `nataqvoju_deliver`
    Deliver,
}

/// The kinds of the board's calls, for the entries that take one.
#[allow(missing_docs)] // the names of the calls
pub mod kind {
    pub const READ: u64 = 1;
    pub const WRITE: u64 = 2;
    pub const WIRE: u64 = 3;
    pub const END: u64 = 4;
    pub const ADVANCE: u64 = 5;
    pub const DELIVER: u64 = 6;
    pub const RESET: u64 = 7;
}

impl Call {
    /// Its kind and four numbers, with nothing in those that it ignores.
    pub fn as_numbers(self) -> (u64, [u64; 4]) {
        match self {
            Call::Read { window, width, offset } => (kind::READ, [window, width, offset, 0]),
            Call::Write { window, width, offset, value } => {
                (kind::WRITE, [window, width, offset, value])
            }
            Call::Wire { pin, level } => (kind::WIRE, [pin, level, 0, 0]),
            Call::End { vector } => (kind::END, [vector.into(), 0, 0, 0]),
            Call::Advance { ticks } => (kind::ADVANCE, [ticks.into(), 0, 0, 0]),
            Call::Deliver => (kind::DELIVER, [0; 4]),
            Call::Reset => (kind::RESET, [0; 4]),
        }
    }

    /// What a kind and four numbers ask for, unless the kind is none of the board's. A vector is the low
    /// eight bits of its number, ticks the low 32.
    pub fn from_numbers(kind: u64, [a, b, c, d]: [u64; 4]) -> Option<Call> {
        Some(match kind {
            kind::READ => Call::Read { window: a, width: b, offset: c },
            kind::WRITE => Call::Write { window: a, width: b, offset: c, value: d },
            kind::WIRE => Call::Wire { pin: a, level: b },
            kind::END => Call::End { vector: a as u8 },
            kind::ADVANCE => Call::Advance { ticks: a as u32 },
            kind::DELIVER => Call::Deliver,
            kind::RESET => Call::Reset,
            _ => return None,
        })
    }

    /// Makes the call as the model answers it.
    pub fn answer(self, lent: &mut Board) -> Reply {
        let Some(mut model) = lent.model() else { return self.answer_memory(lent) };
        let reply = self.ask(&mut model);
        *lent = Board::from(&model);
        reply
    }

    /// The answer on memory that no model can hold, which isn't well formed.
    fn answer_memory(self, lent: &mut Board) -> Reply {
        if self == Call::Reset {
            *lent = Board::from(&board::Board::RESET);
            Reply::default()
        } else {
            refused(Refusal::State)
        }
    }

    /// Makes the call on a model, right or wrong.
    pub fn ask(self, model: &mut impl Calls) -> Reply {
        self.try_on(model).unwrap_or_else(refused)
    }

    fn try_on(self, model: &mut impl Calls) -> Result<Reply, Refusal> {
        let mut reply = Reply::default();
        match self {
            Call::Reset => model.reset()?,
            Call::Read { window, width, offset } => {
                reply.value = model.read(window, width, offset)?;
            }
            Call::Write { window, width, offset, value } => {
                model.write(window, width, offset, value)?;
            }
            Call::Wire { pin, level } => model.wire(pin, level)?,
            Call::End { vector } => model.end(vector)?,
            Call::Advance { ticks } => reply.fired = model.advance(ticks)?,
            Call::Deliver => reply.set_delivery(model.deliver()?),
        }
        Ok(reply)
    }
}

impl From<Record> for Call {
    fn from(record: Record) -> Call {
        match record {
            Record::Read { window, width, offset } => {
                Call::Read { window: window.into(), width: width.into(), offset: offset.into() }
            }
            Record::Write { window, width, offset, value } => Call::Write {
                window: window.into(),
                width: width.into(),
                offset: offset.into(),
                value,
            },
            Record::Wire { pin, level } => Call::Wire { pin: pin.into(), level: level.into() },
            Record::End { vector } => Call::End { vector },
            Record::Advance { ticks } => Call::Advance { ticks },
            Record::Deliver => Call::Deliver,
        }
    }
}

impl Reply {
    fn set_delivery(&mut self, delivery: Option<Delivery>) {
        if let Some(to) = delivery {
            self.delivered = 1;
            self.pin = to.pin;
            self.vector = to.vector;
            self.destination = to.destination;
            self.logical = u8::from(to.logical);
        }
    }
}

pub(crate) fn refused(refusal: Refusal) -> Reply {
    Reply { number: u32::from(refusal.number()), ..Reply::default() }
}
