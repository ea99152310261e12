//! Random sequences of calls on lent memory, resets among them: the board's here, the mill's in
//! [`mill`], the plain engine's in [`plain`]. A salvage keeps nothing from call to call; its calls are in [`salvage`],
//! and resets with a settings record in [`settings`].
//!
//! A sequence starts from any memory. Ill-formed memory stays as it is until a reset mends it.
//! From then on the sequence goes on from the reset board, with the first records of a log, so
//! that something happens there.

mod calls;
mod clauses;
mod memory;
pub mod mill;
pub mod plain;
pub mod salvage;
pub mod settings;

use crate::abi::settings::Resettable;
use crate::abi::{Board, Call, Reply};
use crate::board;
use crate::generate::{self, log_for, random_board, random_settings, Pace, Profile};
use crate::log::records_of;
use crate::random::Random;
use clauses::CLAUSES;

pub use clauses::{broken, stray_irr, SETTINGS_CLAUSES};

/// What a sequence is about.
#[derive(Clone, Copy, PartialEq, Eq, Debug)]
pub enum Kind {
    /// A reset of any memory, then a random log.
    Log,
    /// A random log on a board that was reset with settings.
    Settings,
    /// Any calls on a random well-formed state.
    State,
    /// Arguments that a log can't have.
    Wide,
    /// A state with one clause broken.
    Broken,
    /// A state with a few bits flipped.
    Flipped,
    /// Random memory.
    Memory,
}

impl Kind {
    /// All kinds, in the order of their numbers.
    pub const ALL: [Kind; 7] = [
        Kind::Log,
        Kind::Settings,
        Kind::State,
        Kind::Wide,
        Kind::Broken,
        Kind::Flipped,
        Kind::Memory,
    ];

    /// What its calls are, in words.
    pub fn text(self) -> &'static str {
        match self {
            Kind::Log => "calls of random logs, behind a reset",
            Kind::Settings => "calls of random logs, behind a reset with settings",
            Kind::State => "calls on random well-formed states",
            Kind::Wide => "calls with wide arguments",
            Kind::Broken => "calls on states with one clause broken",
            Kind::Flipped => "calls on states with a few bits flipped",
            Kind::Memory => "calls on random memory",
        }
    }
}

/// Calls one after the other on the same memory.
pub struct Sequence {
    /// What it is about.
    pub kind: Kind,
    /// The memory before the first call.
    pub start: Board,
    /// The calls.
    pub calls: Vec<Call>,
}

/// A call of a sequence, as the model answers it.
pub struct Step {
    /// The board before the call.
    pub before: Board,
    /// The call.
    pub call: Call,
    /// The board after it.
    pub after: Board,
    /// What it answers.
    pub reply: Reply,
}

impl Sequence {
    /// The calls one by one.
    pub fn steps(&self) -> impl Iterator<Item = Step> + '_ {
        let mut after = self.start;
        self.calls.iter().map(move |&call| {
            let before = after;
            let reply = call.answer(&mut after);
            Step { before, call, after, reply }
        })
    }
}

/// Makes sequences, round by round; the seed decides them.
pub struct Maker {
    pace: Pace,
    random: Random,
    seed: u64,
    round: u64,
    /// The calls of this round's log. It was made from the reset board, and fits behind a reset.
    log: Vec<Call>,
    sequences: Vec<Sequence>,
}

impl Maker {
    /// A maker before its first round.
    pub fn new(seed: u64) -> Maker {
        Maker::paced(Pace::Any, seed)
    }

    /// The same, with advances that are as long as said.
    pub fn paced(pace: Pace, seed: u64) -> Maker {
        let (random, log, sequences) = (Random::new(seed), Vec::new(), Vec::new());
        Maker { pace, random, seed, round: 0, log, sequences }
    }

    /// The next round's sequences, of every kind.
    pub fn round(&mut self) -> Vec<Sequence> {
        let profile = Profile::ALL[(self.round % 4) as usize];
        let log = match self.pace {
            Pace::Any => generate::log(profile, self.seed, self.round),
            Pace::Short => generate::short_log(profile, self.seed, self.round),
        };
        let (records, _) = records_of(&log);
        self.log = records.into_iter().take(2_000).map(Call::from).collect();
        self.round += 1;
        self.reset_and_log();
        self.log_with_settings();
        self.calls_on_states();
        self.rewrites();
        self.wide_calls();
        self.broken_clauses();
        for _ in 0..20 {
            let flipped = self.flipped_state();
            self.mend(Kind::Flipped, flipped);
        }
        for _ in 0..5 {
            let memory = memory::random_memory(&mut self.random);
            self.mend(Kind::Memory, memory);
        }
        std::mem::take(&mut self.sequences)
    }

    fn push(&mut self, kind: Kind, start: Board, calls: Vec<Call>) {
        self.sequences.push(Sequence { kind, start, calls });
    }

    fn state(&mut self) -> Board {
        Board::from(&random_board(&mut self.random))
    }

    fn broken_state(&mut self, clause: usize) -> Board {
        let mut board = self.state();
        CLAUSES[clause].break_alone(&mut board, &mut self.random);
        board
    }

    /// A few bits of a well-formed state flipped: well formed or not, the model knows.
    fn flipped_state(&mut self) -> Board {
        let mut board = self.state();
        for _ in 0..1 + self.random.below(2) {
            memory::flip_bit(&mut board, &mut self.random);
        }
        board
    }

    fn reset_and_log(&mut self) {
        let start = match self.random.below(4) {
            0 => Board::from(&board::Board::RESET),
            1 => self.state(),
            2 => {
                let clause = self.random.below(CLAUSES.len() as u64) as usize;
                self.broken_state(clause)
            }
            _ => memory::random_memory(&mut self.random),
        };
        let mut calls = vec![Call::Reset];
        calls.append(&mut self.log.clone());
        self.push(Kind::Log, start, calls);
    }

    /// The resets themselves are in [`settings`]: here is what goes on behind them.
    fn log_with_settings(&mut self) {
        for turn in 0..2 {
            let settings = random_settings(&mut self.random);
            let profile = Profile::SOUND[(self.round + turn) as usize % Profile::SOUND.len()];
            let number = 2 * self.round + turn;
            let log = log_for(&settings, profile, self.pace, self.seed, number);
            let (records, _) = records_of(&log.bytes);
            let calls = records.into_iter().take(300).map(Call::from).collect();
            self.push(Kind::Settings, Board::reset_to(&settings), calls);
        }
    }

    fn calls_on_states(&mut self) {
        for _ in 0..40 {
            let start = self.state();
            let calls = (0..6).map(|_| calls::any(self.pace, &mut self.random)).collect();
            self.push(Kind::State, start, calls);
        }
    }

    fn rewrites(&mut self) {
        for _ in 0..10 {
            let start = self.state();
            let pin = calls::waiting_pin(&start, &mut self.random);
            let calls = calls::rewrites(&start, pin, &mut self.random);
            self.push(Kind::State, start, calls);
        }
    }

    fn wide_calls(&mut self) {
        for _ in 0..4 {
            let start = self.state();
            let calls = (0..4).map(|_| calls::wide(&mut self.random)).collect();
            self.push(Kind::Wide, start, calls);
        }
    }

    fn broken_clauses(&mut self) {
        for clause in 0..CLAUSES.len() {
            let start = self.broken_state(clause);
            self.mend(Kind::Broken, start);
        }
    }

    /// Every call, then a reset and what can follow it; sometimes once more from there.
    fn mend(&mut self, kind: Kind, start: Board) {
        let mut calls = calls::each(self.pace, &mut self.random).to_vec();
        for _ in 0..1 + self.random.below(4) / 3 {
            calls.push(Call::Reset);
            let length = self.random.below(16) as usize;
            calls.extend(self.log.iter().take(length));
            calls.extend(calls::each(self.pace, &mut self.random));
        }
        self.push(kind, start, calls);
    }
}
