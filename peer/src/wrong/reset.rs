//! Mistakes in a reset. No log has one; they show in sequences of calls, as those in what is refused with 5 do.

use super::irr::answer_stray;
use super::{Memory, Mistake, Wrong};
use crate::abi::{self, Call, Reply};
use crate::board::{Board, Calls, Refusal};
use crate::pin::{MASK, REMOTE_IRR};
use crate::sequence::{broken, Sequence};
use crate::settings::{is_mask, is_period, Settings};
use crate::timer::Timer;

impl Mistake {
    /// It is one in a reset.
    fn is_of_reset(self) -> bool {
        matches!(
            self,
            Mistake::ResetRefuses
                | Mistake::ResetMendsNothing
                | Mistake::ResetKeepsOutside
                | Mistake::ResetKeepsEdges
                | Mistake::ResetKeepsRunning
                | Mistake::ResetKeepsIndex
                | Mistake::ResetKeepsId
                | Mistake::ResetKeepsIrr
                | Mistake::ResetKeepsDestination
                | Mistake::ResetUnmasks
                | Mistake::ResetKeepsCounter
                | Mistake::ResetKeepsPeriod
                | Mistake::ResetZeroComparator
                | Mistake::ResetKeepsSettings
                | Mistake::ResetKeepsVendor
                | Mistake::ResetKeepsTickPeriod
                | Mistake::ResetKeepsMasks
                | Mistake::ResetKeepsRoutes
        )
    }

    /// The clause of "well formed" that isn't tested.
    fn missing_clause(self) -> Option<&'static str> {
        Some(match self {
            Mistake::TickPeriodUntested => "the tick period is 1 to 100,000,000",
            Mistake::VendorUntested => "the vendor fits 16 bits",
            Mistake::MaskZeroUntested => "masks are not 0",
            Mistake::MaskAboveUntested => "masks are below 2^24",
            Mistake::RouteUntested => "routes are in their masks",
            _ => return None,
        })
    }

    /// It is one in what is refused with 5.
    fn is_of_state(self) -> bool {
        self.missing_clause().is_some() || self.is_of_stray_irr()
    }

    /// It shows in some log: every log starts at reset, and has neither a reset nor a board that is refused with 5.
    pub fn shows_in_logs(self) -> bool {
        !self.is_of_reset() && !self.is_of_state()
    }
}

/// What a lent entry with a mistake that no log shows answers to the calls of a sequence.
pub fn replies(sequence: &Sequence, mistake: Mistake) -> Vec<Reply> {
    let mut lent = sequence.start;
    sequence.calls.iter().map(|&call| answer(call, &mut lent, mistake)).collect()
}

/// Other calls, and memory that no model can hold, are answered rightly. The mistake is only rarer
/// for that, and no difference comes from anything else.
fn answer(call: Call, lent: &mut abi::Board, mistake: Mistake) -> Reply {
    match lent.model() {
        Some(board) if call == Call::Reset => {
            let mut wrong = Wrong { board, ..Wrong::new(mistake, &Settings::USUAL) };
            let reply = call.ask(&mut wrong);
            *lent = abi::Board::from(&wrong.board);
            reply
        }
        _ if mistake.is_of_state() && call != Call::Reset => {
            if mistake.missing_clause().is_some_and(|clause| broken(lent) == [clause]) {
                return Reply::default();
            }
            answer_stray(call, lent, mistake).unwrap_or_else(|| call.answer(lent))
        }
        _ => call.answer(lent),
    }
}

impl Wrong {
    pub(super) fn wrong_reset(&mut self) -> Result<(), Refusal> {
        let before = self.board;
        let broken = !before.is_well_formed();
        match self.mistake {
            Mistake::AlwaysRefuses => return Err(Refusal::State),
            Mistake::ResetRefuses if broken => return Err(Refusal::State),
            Mistake::ResetMendsNothing if broken => return Ok(()),
            _ => {}
        }
        self.board.reset()?;
        self.memory = Memory::default();
        self.damage_reset(&before);
        Ok(())
    }

    fn damage_reset(&mut self, before: &Board) {
        let Board { timers, controller, outside } = &mut self.board;
        let pins = controller.pins.iter_mut().zip(&before.controller.pins);
        let timer = timers.timer.iter_mut().zip(&before.timers.timer);
        match self.mistake {
            Mistake::ResetKeepsOutside => {
                *outside = before.outside;
                self.board.settle();
            }
            Mistake::ResetKeepsEdges => self.restore_held(before),
            Mistake::ResetKeepsRunning => timers.enabled = before.timers.enabled,
            Mistake::ResetKeepsIndex => controller.index = before.controller.index,
            Mistake::ResetKeepsId => controller.id = before.controller.id,
            Mistake::ResetKeepsIrr => pins.for_each(|(pin, old)| pin.low |= old.low & REMOTE_IRR),
            Mistake::ResetKeepsDestination => {
                pins.for_each(|(pin, old)| pin.destination = old.destination);
            }
            Mistake::ResetUnmasks => pins.for_each(|(pin, _)| pin.low &= !MASK),
            Mistake::ResetKeepsCounter => timers.counter = before.timers.counter,
            Mistake::ResetKeepsPeriod => timer.for_each(|(timer, old)| timer.period = old.period),
            Mistake::ResetZeroComparator => timer.for_each(|(timer, _)| timer.comparator = 0),
            Mistake::ResetKeepsRoutes => {
                let kept = timer.filter(|(timer, old)| timer.allows(old.route));
                kept.for_each(|(timer, old)| timer.route = old.route);
            }
            _ => self.keep_settings(before),
        }
    }

    /// A reset without settings that keeps some of those that the board has, where they are in range.
    fn keep_settings(&mut self, before: &Board) {
        let keeps =
            |one: Mistake| self.mistake == one || self.mistake == Mistake::ResetKeepsSettings;
        let (vendor, period, masks) = (
            keeps(Mistake::ResetKeepsVendor),
            keeps(Mistake::ResetKeepsTickPeriod),
            keeps(Mistake::ResetKeepsMasks),
        );
        let timers = &mut self.board.timers;
        if vendor {
            timers.vendor = before.timers.vendor;
        }
        if period && is_period(before.timers.tick_period) {
            timers.tick_period = before.timers.tick_period;
        }
        for (timer, old) in timers.timer.iter_mut().zip(&before.timers.timer) {
            if masks && is_mask(old.mask) {
                *timer = Timer::reset_to(old.mask);
            }
        }
    }
}
