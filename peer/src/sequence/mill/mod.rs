//! Random sequences of a mill's calls on lent memory.

mod calls;
mod clauses;

use super::calls::{rewrites, waiting_pin};
use super::memory;
use crate::abi::mill::{Asked, Mill, MillCall, Screen};
use crate::abi::settings::Resettable;
use crate::abi::{Board, Call, Reply};
use crate::generate::{log_for, random_board, random_settings, Pace, Profile};
use crate::log::records_of;
use crate::random::Random;
use crate::settings::Settings;
use calls::littered;

pub use clauses::broken;
use clauses::CLAUSES;

/// What a sequence is about.
#[derive(Clone, Copy, PartialEq, Eq, Debug)]
pub enum Kind {
    /// The life of a pause key, with tellings, resumes and resets in it.
    Life,
    /// Any calls on a random well-formed mill.
    State,
    /// Numbers that a call cuts, or must not cut.
    Wide,
    /// A mill with one clause of its board broken.
    Board,
    /// A mill with one clause of its screen broken.
    Screen,
    /// A mill with a few bits flipped.
    Flipped,
    /// Random memory.
    Memory,
}

impl Kind {
    /// All kinds, in the order of their numbers.
    pub const ALL: [Kind; 7] = [
        Kind::Life,
        Kind::State,
        Kind::Wide,
        Kind::Board,
        Kind::Screen,
        Kind::Flipped,
        Kind::Memory,
    ];

    /// What its calls are, in words.
    pub fn text(self) -> &'static str {
        match self {
            Kind::Life => "calls of a pause key's life",
            Kind::State => "calls on random well-formed mills",
            Kind::Wide => "calls with wide numbers",
            Kind::Board => "calls on mills with a clause of the board broken",
            Kind::Screen => "calls on mills with a clause of the screen broken",
            Kind::Flipped => "calls on mills with a few bits flipped",
            Kind::Memory => "calls on random memory",
        }
    }
}

/// Calls one after the other on the same memory.
pub struct Sequence {
    /// What it is about.
    pub kind: Kind,
    /// The memory before the first call.
    pub start: Mill,
    /// The calls.
    pub calls: Vec<MillCall>,
}

/// A call of a sequence, as the model answers it.
pub struct Step {
    /// The mill before the call.
    pub before: Mill,
    /// The call.
    pub call: MillCall,
    /// The mill after it.
    pub after: Mill,
    /// What it answers.
    pub reply: Reply,
}

impl Sequence {
    /// The calls one by one.
    pub fn steps(&self) -> impl Iterator<Item = Step> + '_ {
        let mut after = self.start;
        self.calls.iter().map(move |&call| {
            let before = after;
            let reply = call.answer(&mut after);
            Step { before, call, after, reply }
        })
    }
}

/// Makes sequences, round by round; the seed decides them.
pub struct Maker {
    random: Random,
    seed: u64,
    round: u64,
    sequences: Vec<Sequence>,
}

impl Maker {
    /// A maker before its first round.
    pub fn new(seed: u64) -> Maker {
        Maker { random: Random::new(!seed), seed, round: 0, sequences: Vec::new() }
    }

    /// The next round's sequences, of every kind.
    pub fn round(&mut self) -> Vec<Sequence> {
        for _ in 0..6 {
            self.life();
        }
        for _ in 0..30 {
            let start = self.mill();
            self.grow(Kind::State, start, 8, calls::any);
        }
        for _ in 0..8 {
            self.rewrites();
        }
        for _ in 0..6 {
            let start = self.mill();
            self.grow(Kind::Wide, start, 4, calls::wide);
        }
        self.broken_clauses();
        for _ in 0..12 {
            let start = self.flipped();
            self.mend(Kind::Flipped, start);
        }
        for _ in 0..3 {
            let board = memory::random_memory(&mut self.random);
            let screen = self.random_screen();
            self.mend(Kind::Memory, Mill { board, screen });
        }
        std::mem::take(&mut self.sequences)
    }

    /// A random well-formed mill.
    fn mill(&mut self) -> Mill {
        let board = Board::from(&random_board(&mut self.random));
        let pin = self.random.below(24) as u16;
        let held = u16::from(board.controller.entries.held[usize::from(pin)]);
        let vector = if self.random.percent(60) {
            board.controller.entries.low[usize::from(pin)] as u16 & 0xFF
        } else {
            0x30 + self.random.below(4) as u16
        };
        let screen = match self.random.below(9) {
            0 => Screen::UNTOLD,
            1 | 2 => Screen { told: 1, pin, word: held, vector: 0 },
            3 | 4 => Screen { told: 1, pin, word: 1, vector: 0 },
            5 | 6 => Screen { told: 1, pin, word: 2, vector },
            _ => Screen { told: 1, pin, word: 3, vector },
        };
        Mill { board, screen }
    }

    fn random_screen(&mut self) -> Screen {
        let mut number = || self.random.any() as u16;
        Screen { told: number(), pin: number(), word: number(), vector: number() }
    }

    fn flipped(&mut self) -> Mill {
        let mut mill = self.mill();
        let bit = 1 << self.random.below(16);
        match self.random.below(8) {
            0 => mill.screen.told ^= bit,
            1 => mill.screen.told ^= 1,
            2 => mill.screen.pin ^= bit,
            3 => mill.screen.word ^= bit,
            4 => mill.screen.word ^= self.random.choose(&[1, 2]),
            5 => mill.screen.vector ^= bit,
            _ => memory::flip_bit(&mut mill.board, &mut self.random),
        }
        mill
    }

    /// So many calls, each chosen after the ones before it.
    fn grow(
        &mut self,
        kind: Kind,
        start: Mill,
        length: usize,
        choose: fn(&Mill, &mut Random) -> MillCall,
    ) {
        let mut mill = start;
        let mut calls = Vec::new();
        for _ in 0..length {
            let call = choose(&mill, &mut self.random);
            call.answer(&mut mill);
            calls.push(call);
        }
        self.sequences.push(Sequence { kind, start, calls });
    }

    /// Low-word writes, mostly to the key's entry.
    fn rewrites(&mut self) {
        let start = self.mill();
        let Screen { told, pin: key, .. } = start.screen;
        let pin = if told == 1 && self.random.percent(60) {
            key.into()
        } else {
            waiting_pin(&start.board, &mut self.random)
        };
        let calls = rewrites(&start.board, pin, &mut self.random).into_iter();
        let calls = calls.map(|call| littered(Asked::Board(call), &mut self.random)).collect();
        self.sequences.push(Sequence { kind: Kind::State, start, calls });
    }

    /// A log of a pause key's life, on a mill that was reset with settings or without, told at the start, and between
    /// its records what no log has.
    fn life(&mut self) {
        let has_settings = self.random.percent(40);
        let settings =
            if has_settings { random_settings(&mut self.random) } else { Settings::USUAL };
        let log = log_for(&settings, Profile::Pause, Pace::Any, self.seed, self.round);
        self.round += 1;
        let (records, _) = records_of(&log.bytes);
        let start = Mill::reset_to(&settings);
        let mut calls = vec![MillCall::new(Asked::Tell(log.key.into()))];
        for record in records {
            calls.push(littered(Asked::Board(Call::from(record)), &mut self.random));
            if self.random.percent(12) {
                let key = log.key.into();
                let other = self.random.below(24);
                let asked = match self.random.below(24) {
                    0..10 => Asked::Resume,
                    10..18 => Asked::Tell(key),
                    18..20 => Asked::Tell(other),
                    20 => Asked::Tell(24 + other),
                    21 => Asked::Board(Call::Reset),
                    _ => Asked::Board(Call::Deliver),
                };
                calls.push(littered(asked, &mut self.random));
            }
        }
        self.sequences.push(Sequence { kind: Kind::Life, start, calls });
    }

    fn broken_clauses(&mut self) {
        for clause in super::CLAUSES {
            let mut start = self.mill();
            clause.break_alone(&mut start.board, &mut self.random);
            // The screen stays whole, whatever became of the held edges.
            let Mill { board, screen } = &mut start;
            if screen.word == 0 && board.controller.entries.held[usize::from(screen.pin)] != 0 {
                screen.word = screen.told;
            }
            assert_eq!(broken(&start), [""; 0]);
            self.mend(Kind::Board, start);
        }
        for clause in CLAUSES {
            let mut start = self.mill();
            clause.break_alone(&mut start, &mut self.random);
            self.mend(Kind::Screen, start);
        }
    }

    /// Every call, then a reset and every call again.
    fn mend(&mut self, kind: Kind, start: Mill) {
        let mut calls = calls::each(&mut self.random);
        calls.push(littered(Asked::Board(Call::Reset), &mut self.random));
        calls.extend(calls::each(&mut self.random));
        self.sequences.push(Sequence { kind, start, calls });
    }
}
