//! The mill's lent entry: its memory layout, and its one function over a kind and four numbers.

use super::call::refused;
use super::{Board, Call, Reply};
use crate::board::Refusal;
use crate::mill::{self, MillCalls, Stage};

/// The pause screen as numbers.
#[repr(C)]
#[derive(Clone, Copy, PartialEq, Eq, Debug)]
pub struct Screen {
    /// 1 if a pin was told, else 0.
    pub told: u16,
    /// The pause key, at most 23; 0 if none was told.
    pub pin: u16,
    /// 0 running, 1 asked, 2 taken, 3 paused; 0 if no pin was told.
    pub word: u16,
    /// The remembered vector in taken and paused, else 0.
    pub vector: u16,
}

/// A board with its pause screen.
#[repr(C)]
#[derive(Clone, Copy, PartialEq, Eq, Debug)]
pub struct Mill {
    /// The board.
    pub board: Board,
    /// The screen.
    pub screen: Screen,
}

const _: () = assert!(size_of::<Screen>() == 8 && size_of::<Mill>() == 312);

/// The kinds of calls: the board's and two further ones.
#[allow(missing_docs)] // the names of the calls
pub mod kind {
    pub use crate::abi::kind::*;
    pub const TELL: u64 = 8;
    pub const RESUME: u64 = 9;
}

/// A call of `nataqvoju_mill`, as the numbers that it is made with.
#[derive(Clone, Copy, PartialEq, Eq, Debug)]
pub struct MillCall {
    /// The kind; any number.
    pub kind: u64,
    /// The numbers a, b, c, d; a kind ignores those that it doesn't name.
    pub numbers: [u64; 4],
}

/// What the numbers ask for.
#[derive(Clone, Copy, PartialEq, Eq, Debug)]
pub enum Asked {
    /// A call of the board.
    Board(Call),
    /// The telling of this pin.
    Tell(u64),
    /// A resume.
    Resume,
    /// An unknown kind.
    Unknown,
}

impl MillCall {
    /// The call that asks for this, with nothing in the numbers that it ignores.
    pub fn new(asked: Asked) -> MillCall {
        let (kind, numbers) = match asked {
            Asked::Board(call) => call.as_numbers(),
            Asked::Tell(pin) => (kind::TELL, [pin, 0, 0, 0]),
            Asked::Resume => (kind::RESUME, [0; 4]),
            Asked::Unknown => (0, [0; 4]),
        };
        MillCall { kind, numbers }
    }

    /// What the numbers ask for.
    pub fn asked(self) -> Asked {
        match self.kind {
            kind::TELL => Asked::Tell(self.numbers[0]),
            kind::RESUME => Asked::Resume,
            _ => Call::from_numbers(self.kind, self.numbers).map_or(Asked::Unknown, Asked::Board),
        }
    }

    /// It is a reset, which takes any memory.
    pub fn is_reset(self) -> bool {
        self.asked() == Asked::Board(Call::Reset)
    }

    /// Makes the call as the model answers it.
    pub fn answer(self, lent: &mut Mill) -> Reply {
        if self.is_reset() {
            *lent = Mill::from(&mill::Mill::RESET);
            return Reply::default();
        }
        let Some(mut model) = lent.model().filter(mill::Mill::is_well_formed) else {
            return refused(Refusal::State);
        };
        let reply = self.asked().ask(&mut model);
        *lent = Mill::from(&model);
        reply
    }
}

impl Asked {
    /// Makes the call on a well-formed mill, right or wrong.
    pub fn ask(self, model: &mut impl MillCalls) -> Reply {
        let done = match self {
            Asked::Board(call) => return call.ask(model),
            Asked::Tell(pin) => model.tell(pin),
            Asked::Resume => model.resume(),
            Asked::Unknown => Err(Refusal::Kind),
        };
        done.map_or_else(refused, |()| Reply::default())
    }
}

impl Mill {
    /// The model's state, unless there is none for these numbers.
    pub fn model(&self) -> Option<mill::Mill> {
        Some(mill::Mill { board: self.board.model()?, screen: self.screen.model()? })
    }

    /// "Well formed", for any memory.
    pub fn is_well_formed(&self) -> bool {
        self.model().is_some_and(|model| model.is_well_formed())
    }
}

impl Screen {
    /// A screen before its telling.
    pub const UNTOLD: Screen = Screen { told: 0, pin: 0, word: 0, vector: 0 };

    fn model(self) -> Option<Option<mill::Screen>> {
        if self == Screen::UNTOLD {
            return Some(None);
        }
        let key = u8::try_from(self.pin).ok()?;
        let vector = u8::try_from(self.vector).ok()?;
        let stage = match (self.told, self.word) {
            (1, 0) if vector == 0 => Stage::Running,
            (1, 1) if vector == 0 => Stage::Asked,
            (1, 2) => Stage::Taken { vector },
            (1, 3) => Stage::Paused { vector },
            _ => return None,
        };
        Some(Some(mill::Screen { key, stage }))
    }
}

impl From<&mill::Mill> for Mill {
    fn from(model: &mill::Mill) -> Mill {
        let screen = model.screen.map_or(Screen::UNTOLD, |mill::Screen { key, stage }| {
            let (word, vector) = match stage {
                Stage::Running => (0, 0),
                Stage::Asked => (1, 0),
                Stage::Taken { vector } => (2, vector.into()),
                Stage::Paused { vector } => (3, vector.into()),
            };
            Screen { told: 1, pin: key.into(), word, vector }
        });
        Mill { board: Board::from(&model.board), screen }
    }
}
