//! Wrong mills: the right one with one deliberate mistake in its screen.
//!
//! A wrong mill doesn't test its own screen: what a mistake leads to shows in the words and in the
//! memory, and not as a refusal 5 that gives it away.

mod calls;
mod entry;
mod mistake;
mod text;

pub use entry::answer;
pub use mistake::ScreenMistake;
pub use text::output;

use crate::board::Board;
use crate::mill::{Mill, News, Screen, Stage};
use crate::pin::Pin;
use ScreenMistake as Mistake;

/// A mill with a mistake.
pub struct WrongMill {
    mistake: Mistake,
    mill: Mill,
    /// The vector that the key's entry had when it was asked.
    pressed: u8,
}

/// The call that was done.
#[derive(Clone, Copy, PartialEq, Eq)]
enum Source {
    Wire,
    Advance,
    Register,
    Other,
}

/// A done call, seen from the pause key.
struct Turn {
    key: u8,
    /// The key's pin before and after the call.
    old: Pin,
    new: Pin,
    source: Source,
    news: News,
    /// The call changed the board.
    changed: bool,
}

impl WrongMill {
    /// The wrong mill in a state.
    pub fn new(mistake: Mistake, mill: Mill) -> WrongMill {
        WrongMill { mistake, mill, pressed: 0 }
    }

    fn has(&self, mistake: Mistake) -> bool {
        self.mistake == mistake
    }

    fn follow(&mut self, before: &Board, source: Source, news: News) {
        let Some(Screen { key, stage }) = self.mill.screen else { return };
        let (old, new) = (&before.controller, &self.mill.board.controller);
        let pin = usize::from(key);
        let changed = before != &self.mill.board;
        let turn = Turn { key, old: old.pins[pin], new: new.pins[pin], source, news, changed };
        match self.wrong_stage(stage, &turn) {
            Some(stage) => self.mill.screen = Some(Screen { key, stage }),
            None => self.mill.follow(news),
        }
        if stage == Stage::Running {
            self.pressed = turn.new.vector();
        }
    }

    /// The next stage, if it is the mistake that decides.
    fn wrong_stage(&self, stage: Stage, turn: &Turn) -> Option<Stage> {
        match stage {
            Stage::Running => self.after_running(turn),
            Stage::Asked => self.after_asked(turn),
            Stage::Taken { vector } => self.after_taken(turn, vector),
            Stage::Paused { vector } => self.after_paused(turn, vector),
        }
    }

    fn after_running(&self, turn: &Turn) -> Option<Stage> {
        let Turn { old, new, source, .. } = *turn;
        let press = source != Source::Other && !old.is_asserted() && new.is_asserted();
        match self.mistake {
            Mistake::AskedByWireOnly if source != Source::Wire => Some(Stage::Running),
            Mistake::AdvanceUnseen if source == Source::Advance => Some(Stage::Running),
            Mistake::RegisterUnseen if source == Source::Register => Some(Stage::Running),
            Mistake::MaskedPressAsks if press && !new.is_level() => Some(Stage::Asked),
            Mistake::LevelAsks if new.is_level() && new.is_eligible() => Some(Stage::Asked),
            Mistake::AskedIfEligible if !new.is_eligible() => Some(Stage::Running),
            Mistake::RunningDeliveryTakes => turn.key_vector().map(taken),
            _ => None,
        }
    }

    fn after_asked(&self, turn: &Turn) -> Option<Stage> {
        let Turn { old, new, .. } = *turn;
        let dropped = old.held && !new.held && new.is_level();
        match (self.mistake, turn.news) {
            (Mistake::DroppedEdgeUnasks, _) if dropped => Some(Stage::Running),
            (Mistake::MaskingUnasks, _) if new.is_masked() => Some(Stage::Running),
            (Mistake::LevelDeliveryIgnored, _) if new.is_level() => Some(Stage::Asked),
            (Mistake::OtherPinTakes, News::Delivered(to)) => Some(taken(to.vector)),
            (Mistake::SameVectorTakes, News::Delivered(to)) if to.vector == old.vector() => {
                Some(taken(to.vector))
            }
            (Mistake::DroppedEdgeTakes, _) if dropped => Some(taken(new.vector())),
            (Mistake::PausedAtDelivery, _) => turn.key_vector().map(paused),
            (Mistake::VectorAtPress, _) => turn.key_vector().map(|_| taken(self.pressed)),
            (Mistake::EndBeforeDelivery, News::Ended(ended)) if ended == old.vector() => {
                Some(paused(ended))
            }
            _ => None,
        }
    }

    fn after_taken(&self, turn: &Turn, vector: u8) -> Option<Stage> {
        let Turn { old, new, changed, .. } = *turn;
        match (self.mistake, turn.news) {
            (Mistake::AnyEndPauses, News::Ended(_)) => Some(paused(vector)),
            (Mistake::PresentVector, News::Ended(ended)) => {
                Some(if ended == new.vector() { paused(vector) } else { taken(vector) })
            }
            (Mistake::EitherVector, News::Ended(ended)) if ended == new.vector() => {
                Some(paused(vector))
            }
            (Mistake::SecondDeliveryReplaces, _) => turn.key_vector().map(taken),
            (Mistake::RewriteReplaces, _) if old.vector() != new.vector() => {
                Some(taken(new.vector()))
            }
            (Mistake::FreeingEndOnly, News::Ended(_)) if !changed => Some(taken(vector)),
            (Mistake::NeverPaused, _) => Some(taken(vector)),
            (Mistake::PressUntakes, _) if !old.held && new.held => Some(Stage::Asked),
            (Mistake::EdgeWritePauses, _) if turn.is_freed_as_edge() => Some(paused(vector)),
            (Mistake::EdgeWriteUntakes, _) if turn.is_freed_as_edge() => Some(Stage::Running),
            _ => None,
        }
    }

    fn after_paused(&self, turn: &Turn, vector: u8) -> Option<Stage> {
        let Turn { old, new, .. } = *turn;
        match (self.mistake, turn.news) {
            (Mistake::PressUnpauses, _) if !old.held && new.held => Some(Stage::Asked),
            (Mistake::DeliveryUnpauses, _) => turn.key_vector().map(taken),
            (Mistake::EndUnpauses, News::Ended(ended)) if ended == vector => Some(Stage::Running),
            _ => None,
        }
    }
}

impl Turn {
    /// An edge write cleared the key's remote IRR.
    fn is_freed_as_edge(&self) -> bool {
        self.old.remote_irr() && !self.new.is_level()
    }

    /// The vector that the key was delivered with.
    fn key_vector(&self) -> Option<u8> {
        match self.news {
            News::Delivered(to) if to.pin == self.key => Some(to.vector),
            _ => None,
        }
    }
}

fn taken(vector: u8) -> Stage {
    Stage::Taken { vector }
}

fn paused(vector: u8) -> Stage {
    Stage::Paused { vector }
}
