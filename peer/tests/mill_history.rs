//! The word, worked out from the list of calls and their answers alone: since the last telling that
//! was done or resume that took effect, with no reset after it, the pin held an edge, then was
//! delivered, then the delivered vector was ended. Both ways: the screen neither lies nor sleeps.
#![allow(missing_docs)]

use peer::abi::mill::{Asked, Mill, Screen};
use peer::abi::Call;
use peer::sequence::mill::{Kind, Maker, Step};

/// What a done call shows of a pin.
struct Moment {
    held: bool,
    delivered: Option<u8>,
    ended: Option<u8>,
}

/// The moments since the split, the board right after it included.
struct Since {
    pin: u64,
    moments: Vec<Moment>,
}

impl Since {
    fn new(pin: u64, after: &Mill) -> Since {
        let held = held(after, pin);
        Since { pin, moments: vec![Moment { held, delivered: None, ended: None }] }
    }

    /// The word that the sentences give.
    fn word(&self) -> u16 {
        let mut moments = self.moments.iter();
        if !moments.any(|moment| moment.held) {
            return 0;
        }
        let Some(vector) = moments.find_map(|moment| moment.delivered) else { return 1 };
        if moments.any(|moment| moment.ended == Some(vector)) {
            3
        } else {
            2
        }
    }
}

fn held(mill: &Mill, pin: u64) -> bool {
    mill.board.controller.entries.held[pin as usize] == 1
}

/// Goes on with a history by a step. Of the screen it uses nothing.
fn go_on(since: Option<Since>, step: &Step) -> Option<Since> {
    let done = step.reply.number == 0;
    match (step.call.asked(), since) {
        (Asked::Board(Call::Reset), _) => None,
        (Asked::Tell(pin), _) if done => Some(Since::new(pin, &step.after)),
        (Asked::Resume, Some(since)) if since.word() == 3 => {
            Some(Since::new(since.pin, &step.after))
        }
        (asked, Some(mut since)) => {
            let reply = &step.reply;
            let given = reply.delivered == 1 && u64::from(reply.pin) == since.pin;
            let ended = match asked {
                Asked::Board(Call::End { vector }) => Some(vector),
                _ => None,
            };
            since.moments.push(Moment {
                held: held(&step.after, since.pin),
                delivered: given.then_some(reply.vector),
                ended,
            });
            Some(since)
        }
        (_, None) => None,
    }
}

#[test]
fn the_word_is_what_the_calls_say() {
    let mut maker = Maker::new(4);
    let mut seen = [0; 4];
    for sequence in (0..120).flat_map(|_| maker.round()) {
        // From reset: the lives, and what comes behind a reset elsewhere.
        let mut from_reset = sequence.kind == Kind::Life;
        assert!(!from_reset || sequence.start.screen == Screen::UNTOLD);
        let mut since = None;
        for step in sequence.steps() {
            since = go_on(since, &step);
            from_reset |= step.call.is_reset();
            if from_reset {
                let word = since.as_ref().map_or(0, Since::word);
                assert_eq!(step.after.screen.word, word, "{:?} on {:?}", step.call, step.before);
                seen[usize::from(word)] += 1;
            }
        }
    }
    assert!(seen.iter().all(|&count| count > 1_000), "{seen:?}");
}
