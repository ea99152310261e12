//! A wrong mill's calls.

use super::{Mistake, Source, WrongMill};
use crate::board::{refuse_unless, Board, Calls, Refusal, TIMER_BLOCK};
use crate::controller::Delivery;
use crate::mill::{Mill, MillCalls, News, Screen, Stage};
use crate::timers::TIMERS;

impl WrongMill {
    fn follow_call<T>(
        &mut self,
        source: Source,
        call: impl FnOnce(&mut Board) -> Result<T, Refusal>,
        news: impl FnOnce(&T) -> News,
    ) -> Result<T, Refusal> {
        let before = self.mill.board;
        let answer = call(&mut self.mill.board)?;
        self.follow(&before, source, news(&answer));
        Ok(answer)
    }

    /// The screen at its start, with a mistake in how the key is looked at.
    fn start(&mut self, key: u8) {
        let pin = self.mill.board.controller.pins[usize::from(key)];
        let asked = match self.mistake {
            Mistake::MaskedEdgeUncounted => pin.held && !pin.is_masked(),
            Mistake::AssertedAsks => pin.is_asserted(),
            _ => pin.held,
        };
        let stage = if asked { Stage::Asked } else { Stage::Running };
        self.mill.screen = Some(Screen { key, stage });
    }

    /// The refusals of a telling, and the pin that it is about.
    fn told_pin(&self, pin: u64) -> Result<u8, Refusal> {
        let pin = match self.mistake {
            Mistake::PinModulo => pin % 24,
            Mistake::PinEightBits => pin & 0xFF,
            _ => pin,
        };
        let above =
            if self.has(Mistake::TriggerBeforePin) { Refusal::Trigger } else { Refusal::Pin };
        let entry = self.mill.pin(pin).ok_or(above)?;
        let refused = match self.mistake {
            Mistake::MaskedRefused => entry.is_masked(),
            Mistake::TriggerUntested => false,
            _ => entry.is_level(),
        };
        refuse_unless(!refused, Refusal::Trigger)?;
        Ok(pin as u8)
    }
}

impl Calls for WrongMill {
    fn reset(&mut self) -> Result<(), Refusal> {
        let screen = self.mill.screen;
        self.mill = Mill::RESET;
        match self.mistake {
            Mistake::ResetKeepsScreen => self.mill.screen = screen,
            Mistake::ResetKeepsPin => {
                self.mill.screen = screen.map(|screen| Screen { stage: Stage::Running, ..screen });
            }
            _ => {}
        }
        Ok(())
    }

    fn read(&mut self, window: u64, width: u64, offset: u64) -> Result<u64, Refusal> {
        let call = |board: &mut Board| board.read(window, width, offset);
        self.follow_call(Source::Other, call, |_| News::Nothing)
    }

    fn write(&mut self, window: u64, width: u64, offset: u64, value: u64) -> Result<(), Refusal> {
        let source = if window == TIMER_BLOCK { Source::Register } else { Source::Other };
        let call = |board: &mut Board| board.write(window, width, offset, value);
        self.follow_call(source, call, |()| News::Nothing)
    }

    fn wire(&mut self, pin: u64, level: u64) -> Result<(), Refusal> {
        self.follow_call(Source::Wire, |board| board.wire(pin, level), |()| News::Nothing)
    }

    fn end(&mut self, vector: u8) -> Result<(), Refusal> {
        self.follow_call(Source::Other, |board| board.end(vector), |()| News::Ended(vector))
    }

    fn advance(&mut self, ticks: u32) -> Result<[u32; TIMERS], Refusal> {
        self.follow_call(Source::Advance, |board| board.advance(ticks), |_| News::Nothing)
    }

    fn deliver(&mut self) -> Result<Option<Delivery>, Refusal> {
        self.follow_call(Source::Other, Board::deliver, |to| {
            to.map_or(News::Nothing, News::Delivered)
        })
    }
}

impl MillCalls for WrongMill {
    fn tell(&mut self, pin: u64) -> Result<(), Refusal> {
        if self.has(Mistake::TwentyFourTold) && pin == 24 {
            return Ok(());
        }
        let told = self.told_pin(pin);
        match (self.mistake, told) {
            (Mistake::RefusedTellingTells, Err(Refusal::Trigger)) => self.start(pin as u8),
            (Mistake::RefusedTellingForgets, Err(_)) => self.mill.screen = None,
            _ => {}
        }
        let key = told?;
        match (self.mistake, self.mill.screen) {
            (Mistake::TellingKeepsWord, Some(Screen { stage, .. })) => {
                self.mill.screen = Some(Screen { key, stage });
            }
            (Mistake::TellingRuns, _) => {
                self.mill.screen = Some(Screen { key, stage: Stage::Running });
            }
            (Mistake::TellingOnce, Some(_)) => {}
            (Mistake::TellingInRunning, _) if self.word() != "running" => {}
            _ => self.start(key),
        }
        Ok(())
    }

    fn resume(&mut self) -> Result<(), Refusal> {
        let Some(Screen { key, stage }) = self.mill.screen else { return Ok(()) };
        let is_paused = matches!(stage, Stage::Paused { .. });
        let is_taken = matches!(stage, Stage::Taken { .. });
        match self.mistake {
            Mistake::ResumeAlways => self.start(key),
            Mistake::ResumeInTaken if is_taken => self.start(key),
            Mistake::ResumeRefused if !is_paused => return Err(Refusal::Kind),
            Mistake::ResumeRuns if is_paused => {
                self.mill.screen = Some(Screen { key, stage: Stage::Running });
            }
            Mistake::ResumeNothing => {}
            Mistake::ResumeForgets if is_paused => self.mill.screen = None,
            _ if is_paused => self.start(key),
            _ => {}
        }
        Ok(())
    }

    fn word(&self) -> &'static str {
        self.mill.word()
    }
}
