//! Wrong mills differ from the right one by their mistake alone.
#![allow(missing_docs)]

use peer::fuzz::{Screen, Subject, FIXED_SEED};
use peer::generate::Profile;
use peer::sequence::mill::{Maker, Step};
use peer::wrong::screen::{answer, output, ScreenMistake};

fn steps(rounds: usize) -> Vec<Step> {
    let mut maker = Maker::new(FIXED_SEED);
    let sequences = (0..rounds).flat_map(|_| maker.round());
    sequences.flat_map(|sequence| sequence.steps().collect::<Vec<_>>()).collect()
}

/// The wrong entry's reply or memory isn't the right one's.
fn shows(step: &Step, mistake: ScreenMistake) -> bool {
    let mut lent = step.before;
    let reply = answer(step.call, &mut lent, mistake);
    (reply, lent) != (step.reply, step.after)
}

#[test]
fn what_shows_in_calls_alone_prints_the_right_text() {
    for number in 0..60 {
        let case = Screen::case(Profile::ALL[number as usize % 6], 2, number);
        let (pin, right) = (case.pin.as_deref().unwrap(), Screen::output(&case));
        for &mistake in ScreenMistake::ALL.iter().filter(|mistake| !mistake.shows_in_logs()) {
            let wrong = output(case.settings.as_deref(), pin, &case.log, mistake);
            assert_eq!(wrong, right, "{mistake:?}");
        }
    }
}

#[test]
fn what_shows_in_logs_alone_gives_the_right_replies() {
    let steps = steps(2);
    // The vector at the press isn't in lent memory, so an entry can't remember it.
    let of_the_text = |mistake: &&ScreenMistake| {
        !mistake.shows_in_calls() && **mistake != ScreenMistake::VectorAtPress
    };
    for &mistake in ScreenMistake::ALL.iter().filter(of_the_text) {
        assert!(!steps.iter().any(|step| shows(step, mistake)), "{mistake:?}");
    }
}

#[test]
fn a_missing_clause_shows_where_it_alone_is_broken() {
    for step in steps(2) {
        if shows(&step, ScreenMistake::RunningEdgeUntested) {
            let screen = step.before.screen;
            let held = step.before.board.controller.entries.held[usize::from(screen.pin)];
            assert_eq!((screen.told, screen.word, held, step.reply.number), (1, 0, 1, 5));
        }
    }
}
