//! Random sequences of calls of the plain engine's lent entry: the board's, with short advances, since every
//! tick is walked, in numbers that are wide or littered, and unknown kinds between them.

use super::{calls, Kind};
use crate::abi::plain::PlainCall;
use crate::abi::{kind, Board, Call, Reply};
use crate::generate::{random_board, Pace};
use crate::random::Random;

/// Calls one after the other on the same memory.
pub struct Sequence {
    /// What it is about.
    pub kind: Kind,
    /// The memory before the first call.
    pub start: Board,
    /// The calls.
    pub calls: Vec<PlainCall>,
}

/// A call of a sequence, as the model answers it.
pub struct Step {
    /// The board before the call.
    pub before: Board,
    /// The call.
    pub call: PlainCall,
    /// The board after it.
    pub after: Board,
    /// What it answers.
    pub reply: Reply,
}

impl Sequence {
    /// The calls one by one.
    pub fn steps(&self) -> impl Iterator<Item = Step> + '_ {
        let mut after = self.start;
        self.calls.iter().map(move |&call| {
            let before = after;
            let reply = call.answer(&mut after);
            Step { before, call, after, reply }
        })
    }
}

/// Makes sequences, round by round; the seed decides them.
pub struct Maker {
    random: Random,
    boards: super::Maker,
}

impl Maker {
    /// A maker before its first round.
    pub fn new(seed: u64) -> Maker {
        let random = Random::new(seed.rotate_left(32));
        Maker { random, boards: super::Maker::paced(Pace::Short, seed) }
    }

    /// The next round's sequences, of every kind.
    pub fn round(&mut self) -> Vec<Sequence> {
        let mut sequences = self.boards.round();
        sequences.extend((0..20).map(|_| self.walk()));
        sequences.into_iter().map(|sequence| self.in_numbers(sequence)).collect()
    }

    /// Advances on a random well-formed state, with other calls between them: most states that a reset
    /// leads to are disabled.
    fn walk(&mut self) -> super::Sequence {
        let start = Board::from(&random_board(&mut self.random));
        let calls = (0..8).map(|_| match self.random.below(100) {
            0..40 => calls::any(Pace::Short, &mut self.random),
            40..99 => Call::Advance { ticks: self.random.below(30) as u32 },
            _ => Call::Advance { ticks: self.random.below(2_000) as u32 },
        });
        super::Sequence { kind: Kind::State, start, calls: calls.collect() }
    }

    fn in_numbers(&mut self, sequence: super::Sequence) -> Sequence {
        let super::Sequence { kind, start, calls } = sequence;
        let mut board = start;
        let mut numbers = Vec::new();
        for call in calls {
            if self.random.percent(8) {
                numbers.push(self.unknown());
            }
            let call = self.wide(call, &board);
            call.answer(&mut board);
            numbers.push(call);
        }
        Sequence { kind, start, calls: numbers }
    }

    /// A call in numbers of which it ignores some, or the high bits of one.
    fn wide(&mut self, call: Call, board: &Board) -> PlainCall {
        let mut call = PlainCall::new(call);
        let named = calls::named(call.kind);
        calls::litter(&mut call.numbers[named..], &mut self.random);
        let high = self.random.any() >> self.random.below(40);
        let number = &mut call.numbers[0];
        match call.kind {
            kind::END if self.random.percent(30) => *number |= high << 8,
            kind::ADVANCE if self.random.percent(20) => *number |= high << 32,
            // Refused before the first tick.
            kind::ADVANCE if self.random.percent(40) && !board.is_well_formed() => {
                *number = self.random.choose(&[u32::MAX.into(), u64::MAX, high]);
            }
            _ => {}
        }
        call
    }

    /// An unknown kind, the mill's two among them.
    fn unknown(&mut self) -> PlainCall {
        let kind = calls::unknown_kind(kind::RESET, &mut self.random);
        PlainCall { kind, numbers: [(); 4].map(|()| self.random.below(24)) }
    }
}
