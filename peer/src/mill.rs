//! The mill: a board with its pause screen.

use crate::board::{refuse_unless, Board, Calls, Refusal};
use crate::controller::Delivery;
use crate::pin::{Pin, PINS};
use crate::settings::Settings;
use crate::timers::TIMERS;

/// How far a pause has come.
#[derive(Clone, Copy, PartialEq, Eq, Debug)]
pub enum Stage {
    /// Nobody asked for one.
    Running,
    /// The pause key held an edge.
    Asked,
    /// The pause key was delivered.
    Taken {
        /// With this vector.
        vector: u8,
    },
    /// The delivered vector was ended.
    Paused {
        /// It.
        vector: u8,
    },
}

impl Stage {
    /// The word on the screen.
    pub fn word(self) -> &'static str {
        match self {
            Stage::Running => "running",
            Stage::Asked => "asked",
            Stage::Taken { .. } => "taken",
            Stage::Paused { .. } => "paused",
        }
    }
}

/// A screen that was told its pause key.
#[derive(Clone, Copy, PartialEq, Eq, Debug)]
pub struct Screen {
    /// The pin of the pause key.
    pub key: u8,
    /// How far a pause has come since the telling, or since the last resume that took effect.
    pub stage: Stage,
}

/// What a done call means to the screen, beside the edge that the key may hold now.
#[derive(Clone, Copy)]
pub(crate) enum News {
    Nothing,
    Delivered(Delivery),
    Ended(u8),
}

/// The calls of a mill: the board's, and two of its own.
pub trait MillCalls: Calls {
    /// Says which pin is the pause key.
    fn tell(&mut self, pin: u64) -> Result<(), Refusal>;
    /// The work goes on after a pause.
    fn resume(&mut self) -> Result<(), Refusal>;
    /// The word on the screen; it isn't a call and is never refused.
    fn word(&self) -> &'static str;
}

/// The mill's state.
#[derive(Clone, Copy, PartialEq, Eq, Debug)]
pub struct Mill {
    /// The board.
    pub board: Board,
    /// The screen, once it is told.
    pub screen: Option<Screen>,
}

impl Mill {
    /// The mill after a reset: no pin, and so running.
    pub const RESET: Mill = Mill { board: Board::RESET, screen: None };

    /// A board reset with settings: no pin afterwards. Refused, the screen stays too.
    pub fn reset_with(&mut self, settings: &Settings) -> Result<(), Refusal> {
        self.board.reset_with(settings)?;
        self.screen = None;
        Ok(())
    }

    /// The pin of that number, if there is one.
    pub fn pin(&self, number: u64) -> Option<&Pin> {
        usize::try_from(number).ok().and_then(|number| self.board.controller.pins.get(number))
    }

    fn holds_edge(&self, key: u8) -> bool {
        self.pin(key.into()).is_some_and(|pin| pin.held)
    }

    /// "Well formed": the board, and a screen that could have come about.
    pub fn is_well_formed(&self) -> bool {
        self.board.is_well_formed() && self.screen.is_none_or(|screen| self.allows(screen))
    }

    /// A key's edge is never held while the screen says running.
    fn allows(&self, Screen { key, stage }: Screen) -> bool {
        usize::from(key) < PINS && !(stage == Stage::Running && self.holds_edge(key))
    }

    fn check_state(&self) -> Result<(), Refusal> {
        refuse_unless(self.is_well_formed(), Refusal::State)
    }

    /// The screen at its start: at a telling, and at a resume in paused.
    pub(crate) fn start(&mut self, key: u8) {
        let stage = if self.holds_edge(key) { Stage::Asked } else { Stage::Running };
        self.screen = Some(Screen { key, stage });
    }

    /// What the screen makes of a call that was done.
    pub(crate) fn follow(&mut self, news: News) {
        let Some(Screen { key, stage }) = self.screen else { return };
        let stage = match (stage, news) {
            (Stage::Running, _) if self.holds_edge(key) => Stage::Asked,
            (Stage::Asked, News::Delivered(to)) if to.pin == key => {
                Stage::Taken { vector: to.vector }
            }
            (Stage::Taken { vector }, News::Ended(ended)) if ended == vector => {
                Stage::Paused { vector }
            }
            (stage, _) => stage,
        };
        self.screen = Some(Screen { key, stage });
    }

    /// A call of the board, followed by the screen. A refused one changes nothing.
    fn follow_call<T>(
        &mut self,
        call: impl FnOnce(&mut Board) -> Result<T, Refusal>,
        news: impl FnOnce(&T) -> News,
    ) -> Result<T, Refusal> {
        self.check_state()?;
        let answer = call(&mut self.board)?;
        self.follow(news(&answer));
        Ok(answer)
    }
}

impl Calls for Mill {
    fn reset(&mut self) -> Result<(), Refusal> {
        *self = Mill::RESET;
        Ok(())
    }

    fn read(&mut self, window: u64, width: u64, offset: u64) -> Result<u64, Refusal> {
        self.follow_call(|board| board.read(window, width, offset), |_| News::Nothing)
    }

    fn write(&mut self, window: u64, width: u64, offset: u64, value: u64) -> Result<(), Refusal> {
        self.follow_call(|board| board.write(window, width, offset, value), |()| News::Nothing)
    }

    fn wire(&mut self, pin: u64, level: u64) -> Result<(), Refusal> {
        self.follow_call(|board| board.wire(pin, level), |()| News::Nothing)
    }

    fn end(&mut self, vector: u8) -> Result<(), Refusal> {
        self.follow_call(|board| board.end(vector), |()| News::Ended(vector))
    }

    fn advance(&mut self, ticks: u32) -> Result<[u32; TIMERS], Refusal> {
        self.follow_call(|board| board.advance(ticks), |_| News::Nothing)
    }

    fn deliver(&mut self) -> Result<Option<Delivery>, Refusal> {
        self.follow_call(Board::deliver, |to| to.map_or(News::Nothing, News::Delivered))
    }
}

impl MillCalls for Mill {
    fn tell(&mut self, pin: u64) -> Result<(), Refusal> {
        self.check_state()?;
        let entry = self.pin(pin).ok_or(Refusal::Pin)?;
        refuse_unless(!entry.is_level(), Refusal::Trigger)?;
        self.start(pin as u8);
        Ok(())
    }

    fn resume(&mut self) -> Result<(), Refusal> {
        self.check_state()?;
        if let Some(Screen { key, stage: Stage::Paused { .. } }) = self.screen {
            self.start(key);
        }
        Ok(())
    }

    fn word(&self) -> &'static str {
        self.screen.map_or(Stage::Running, |screen| screen.stage).word()
    }
}
