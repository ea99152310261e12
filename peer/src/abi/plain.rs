//! The plain engine's lent entry: one function over a kind and four numbers, on the board's memory.

use super::{kind, refused, Board, Call, Reply};
use crate::board::Refusal;

/// A call of `nataqvoju_plain`, as the numbers that it is made with.
#[derive(Clone, Copy, PartialEq, Eq, Debug)]
pub struct PlainCall {
    /// The kind; any number.
    pub kind: u64,
    /// The numbers p, q, r, s; a kind ignores those that it doesn't name.
    pub numbers: [u64; 4],
}

impl PlainCall {
    /// The call, with nothing in the numbers that it ignores.
    pub fn new(call: Call) -> PlainCall {
        let (kind, numbers) = call.as_numbers();
        PlainCall { kind, numbers }
    }

    /// The board's call that the numbers ask for, unless the kind is unknown.
    pub fn asked(self) -> Option<Call> {
        Call::from_numbers(self.kind, self.numbers)
    }

    /// It is a reset, which takes any memory.
    pub fn is_reset(self) -> bool {
        self.kind == kind::RESET
    }

    /// Makes the call as the model answers it: 5 before an unknown kind, and a reset before both.
    pub fn answer(self, lent: &mut Board) -> Reply {
        match self.asked() {
            Some(call) => call.answer(lent),
            None if lent.is_well_formed() => refused(Refusal::Kind),
            None => refused(Refusal::State),
        }
    }
}
