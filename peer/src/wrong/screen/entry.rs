//! A wrong mill behind its lent entry.

use super::{Mistake, WrongMill};
use crate::abi::mill::{kind, Asked, Mill, MillCall};
use crate::abi::{refused, Board, Reply};
use crate::board::Refusal;
use crate::sequence::mill::broken;
use crate::sequence::{broken as broken_board, stray_irr, SETTINGS_CLAUSES};

/// Makes a call as an entry with a mistake answers it.
pub fn answer(call: MillCall, lent: &mut Mill, mistake: Mistake) -> Reply {
    let call = wrong_numbers(call, mistake);
    if call.is_reset() {
        return wrong_reset(call, lent, mistake);
    }
    if let Some(reply) = before_the_state(call, lent, mistake) {
        return reply;
    }
    let Some(model) = lent.model().filter(|model| model.is_well_formed()) else {
        return refused(Refusal::State);
    };
    match (call.asked(), mistake) {
        (Asked::Unknown, Mistake::UnknownDone) => return Reply::default(),
        (Asked::Unknown, Mistake::UnknownIsState) => return refused(Refusal::State),
        _ => {}
    }
    let mut wrong = WrongMill::new(mistake, model);
    let reply = call.asked().ask(&mut wrong);
    let vector = lent.screen.vector;
    *lent = Mill::from(&wrong.mill);
    if mistake == Mistake::VectorLeft && lent.screen.told == 1 && lent.screen.vector == 0 {
        lent.screen.vector = vector;
    }
    reply
}

fn wrong_numbers(mut call: MillCall, mistake: Mistake) -> MillCall {
    let [a, ..] = &mut call.numbers;
    match mistake {
        Mistake::KindEightBits => call.kind &= 0xFF,
        Mistake::WideEndIgnored if call.kind == kind::END && *a > 0xFF => {
            return MillCall { kind: kind::WRITE, numbers: [1, 8, 0, 0] };
        }
        Mistake::WideTicksLargest if call.kind == kind::ADVANCE => *a = (*a).min(u32::MAX.into()),
        _ => {}
    }
    call
}

fn wrong_reset(call: MillCall, lent: &mut Mill, mistake: Mistake) -> Reply {
    match lent.model() {
        _ if mistake == Mistake::ResetTestsScreen && !broken(lent).is_empty() => {
            refused(Refusal::State)
        }
        Some(model) => {
            let mut wrong = WrongMill::new(mistake, model);
            let reply = call.asked().ask(&mut wrong);
            *lent = Mill::from(&wrong.mill);
            reply
        }
        None => call.answer(lent),
    }
}

/// What the entry answers without a test of the state, or without one of its clauses. A call that
/// should be refused is done and does nothing.
fn before_the_state(call: MillCall, lent: &Mill, mistake: Mistake) -> Option<Reply> {
    let missed = mistake.missing_clause().is_some_and(|clause| broken(lent) == [clause]);
    if missed && lent.board.is_well_formed() {
        return Some(Reply::default());
    }
    let entry =
        |pin: u64| lent.board.controller.entries.low.get(usize::try_from(pin).ok()?).copied();
    match (mistake, call.asked()) {
        (Mistake::BoardUntested, Asked::Resume)
            if broken(lent).is_empty() && !lent.board.is_well_formed() =>
        {
            Some(Reply::default())
        }
        (Mistake::EdgeIrrUntested, _)
            if broken(lent).is_empty() && !stray_irr(&lent.board).is_empty() =>
        {
            Some(Reply::default())
        }
        (Mistake::SettingsUntested, _)
            if broken(lent).is_empty() && breaks_settings(&lent.board, is_of_ranges) =>
        {
            Some(Reply::default())
        }
        (Mistake::RouteUntested, _)
            if broken(lent).is_empty()
                && breaks_settings(&lent.board, |name| !is_of_ranges(name)) =>
        {
            Some(Reply::default())
        }
        (Mistake::PinBeforeState, Asked::Tell(pin)) if pin > 23 => Some(refused(Refusal::Pin)),
        (Mistake::TriggerBeforeState, Asked::Tell(pin)) => {
            entry(pin).filter(|low| low & 1 << 15 != 0).map(|_| refused(Refusal::Trigger))
        }
        (Mistake::UnknownBeforeState, Asked::Unknown) => Some(refused(Refusal::Kind)),
        _ => None,
    }
}

/// The board is ill-formed for its settings alone, and by a clause of this sort.
fn breaks_settings(board: &Board, is_it: impl Fn(&str) -> bool) -> bool {
    match broken_board(board).as_slice() {
        [name] => SETTINGS_CLAUSES.contains(name) && is_it(name),
        _ => false,
    }
}

/// The clause is about the settings themselves, not about a route.
fn is_of_ranges(name: &str) -> bool {
    !name.contains("routes")
}
