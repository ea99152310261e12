//! Lent resets with settings, and the writer, with a mistake.

use super::{are_in_range, read, record_of, Mistake};
use crate::abi::mill::{Mill, Screen};
use crate::abi::settings::Resettable;
use crate::abi::{refused, Board, Controller, Entries, Reply, Timer, Timers};
use crate::board::{self, refuse_unless, Refusal};
use crate::sequence::mill::broken;
use crate::settings::{is_mask, Settings, LENGTH};

/// `nataqvoju_reset_settings` with a mistake.
pub fn reset_board(lent: &mut Board, record: &[u8], mistake: Mistake) -> Reply {
    let is_whole = lent.is_well_formed();
    if mistake == Mistake::TestsState && !is_whole {
        return refused(Refusal::State);
    }
    let answer = match read(record, mistake) {
        Ok(settings) => {
            *lent = after_reset(lent, &settings, mistake);
            return Reply::default();
        }
        Err(_) if mistake == Mistake::RefusedTestsState && !is_whole => Refusal::State,
        Err(refusal) => refusal,
    };
    match mistake {
        Mistake::RefusedResets => *lent = Board::from(&board::Board::RESET),
        Mistake::RefusedClears => *lent = zeros(),
        Mistake::RefusedTakesId => {
            if let Some(id) = record.get(21) {
                lent.controller.id = (*id).into();
            }
        }
        _ => {}
    }
    refused(answer)
}

fn after_reset(before: &Board, settings: &Settings, mistake: Mistake) -> Board {
    let mut board = Board::reset_to(settings);
    let Board { timers, controller, outside } = &mut board;
    let timer = timers.timer.iter_mut().zip(&before.timers.timer);
    match mistake {
        Mistake::IgnoresRecord => board = Board::from(&board::Board::RESET),
        Mistake::KeepsId => controller.id = before.controller.id,
        Mistake::KeepsIndex => controller.index = before.controller.index,
        Mistake::KeepsCounter => timers.counter = before.timers.counter,
        Mistake::KeepsRunning => timers.enabled = before.timers.enabled,
        Mistake::KeepsEntries => controller.entries = before.controller.entries,
        Mistake::KeepsOutside => *outside = before.outside,
        Mistake::KeepsTimers => {
            timer.for_each(|(timer, old)| *timer = Timer { route: timer.route, ..*old })
        }
        Mistake::RouteZero => timer.for_each(|(timer, _)| timer.route = 0),
        Mistake::RouteHighest => {
            let masks = timers.masks.into_iter().filter(|&mask| is_mask(mask));
            let highest = masks.map(|mask| 31 - mask.leading_zeros() as u16);
            timers.timer.iter_mut().zip(highest).for_each(|(timer, pin)| timer.route = pin);
        }
        Mistake::KeepsRoutes => {
            for ((timer, old), mask) in timer.zip(timers.masks) {
                if old.route <= 23 && mask >> old.route & 1 != 0 {
                    timer.route = old.route;
                }
            }
        }
        _ => {}
    }
    board
}

/// A board whose every byte is 0.
fn zeros() -> Board {
    let timer = Timer {
        comparator: 0,
        period: 0,
        route: 0,
        level_type: 0,
        interrupt: 0,
        periodic: 0,
        set_comparator: 0,
        narrow: 0,
        status: 0,
    };
    let entries = Entries { low: [0; 24], destination: [0; 24], level: [0; 24], held: [0; 24] };
    Board {
        timers: Timers {
            counter: 0,
            tick_period: 0,
            vendor: 0,
            masks: [0; 3],
            enabled: 0,
            timer: [timer; 3],
        },
        controller: Controller { id: 0, index: 0, entries },
        outside: [0; 24],
    }
}

/// `nataqvoju_mill_reset_settings` with a mistake.
pub fn reset_mill(lent: &mut Mill, record: &[u8], mistake: Mistake) -> Reply {
    if mistake == Mistake::TestsScreen && !broken(lent).is_empty() {
        return refused(Refusal::State);
    }
    let reply = reset_board(&mut lent.board, record, mistake);
    let Screen { told, pin, .. } = lent.screen;
    match (reply.number, mistake) {
        (0, Mistake::KeepsScreen) => {}
        (0, Mistake::KeepsPin) => lent.screen = Screen { told, pin, ..Screen::UNTOLD },
        (0, _) | (_, Mistake::RefusedForgets) => lent.screen = Screen::UNTOLD,
        _ => {}
    }
    reply
}

/// The writer with a mistake.
pub fn write(settings: &Settings, buffer: &mut [u8], mistake: Mistake) -> Result<(), Refusal> {
    let answer = tests(settings, buffer, mistake);
    let mut record = record_of(settings, mistake);
    match mistake {
        Mistake::WriterFormZero => record[2] = 0,
        Mistake::WriterRefusedUsual if answer.is_err() => record = Settings::USUAL.record(),
        Mistake::WriterRefusedFills => {}
        _ => answer?,
    }
    let length = buffer.len().min(LENGTH);
    let start = if mistake == Mistake::WriterFillsEnd { buffer.len() - length } else { 0 };
    buffer[start..start + length].copy_from_slice(&record[..length]);
    answer
}

fn tests(settings: &Settings, buffer: &[u8], mistake: Mistake) -> Result<(), Refusal> {
    let fits = match mistake {
        Mistake::WriterFillsLonger | Mistake::WriterFillsEnd => buffer.len() >= LENGTH,
        Mistake::WriterFillsShorter => buffer.len() <= LENGTH,
        _ => buffer.len() == LENGTH,
    };
    let in_range = mistake == Mistake::WriterRangeUntested || are_in_range(settings, mistake);
    if mistake == Mistake::WriterLengthFirst {
        refuse_unless(fits, Refusal::Short)?;
    }
    refuse_unless(in_range, Refusal::Range)?;
    refuse_unless(fits, Refusal::Short)
}
