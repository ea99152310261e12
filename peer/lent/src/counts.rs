//! What the calls were, and what they answered.

use lent::{irr, settings};
use peer::abi::Call;
use peer::board::TIMER_BLOCK;
use peer::sequence::{Kind, Step};

/// The paper's numbers that a call can answer: 0 to 5.
const NUMBERS: usize = 6;
const CALLS: [&str; 7] = ["reset", "read", "write", "wire", "end", "advance", "deliver"];

/// Counts of calls.
pub struct Counts {
    kinds: [u64; Kind::ALL.len()],
    numbers: [u64; NUMBERS],
    resets: u64,
    /// Resets of a board that isn't well formed.
    mending: u64,
    /// Calls behind such a reset in the same sequence.
    mended: u64,
    halves: Halves,
    irr: irr::Counts,
    settings: settings::Counts,
    /// Resets with a settings record.
    pub with_record: settings::Resets,
}

/// Counts of 4-byte accesses to the timers.
#[derive(Default)]
struct Halves {
    read: u64,
    written: u64,
    /// Refused for an offset that isn't a multiple of 4.
    unaligned: u64,
    /// Refused for a value of more than 32 bits.
    big: u64,
}

impl Halves {
    fn note(&mut self, step: &Step) {
        match (step.call, step.reply.number) {
            (Call::Read { window: TIMER_BLOCK, width: 4, .. }, 0) => self.read += 1,
            (Call::Write { window: TIMER_BLOCK, width: 4, .. }, 0) => self.written += 1,
            (Call::Write { window: TIMER_BLOCK, width: 4, .. }, 2) => self.unaligned += 1,
            (Call::Write { window: TIMER_BLOCK, width: 4, .. }, 4) => self.big += 1,
            _ => {}
        }
    }
}

impl Counts {
    /// Nothing came yet.
    pub fn new() -> Counts {
        Counts {
            kinds: [0; Kind::ALL.len()],
            numbers: [0; NUMBERS],
            resets: 0,
            mending: 0,
            mended: 0,
            halves: Halves::default(),
            irr: irr::Counts::new(&CALLS),
            settings: settings::Counts::default(),
            with_record: settings::Resets::default(),
        }
    }

    /// Counts a call of a sequence; `mended` if an ill-formed board was reset before it.
    pub fn note(&mut self, kind: Kind, step: &Step, mended: bool) {
        self.kinds[kind as usize] += 1;
        self.numbers[step.reply.number as usize] += 1;
        self.mended += u64::from(mended);
        self.halves.note(step);
        let boards = (&step.before, &step.after);
        self.irr.note(place(step.call), Some(step.call), boards, step.reply.number);
        self.settings.note(Some(step.call), boards, step.reply.number);
        if step.call == Call::Reset {
            self.resets += 1;
            self.mending += u64::from(!step.before.is_well_formed());
        }
    }

    /// What was counted, in words.
    pub fn rows(&self) -> Vec<(String, u64)> {
        let kinds =
            Kind::ALL.iter().map(|&kind| (kind.text().to_string(), self.kinds[kind as usize]));
        let numbers = self.numbers.iter().enumerate();
        let mut rows: Vec<(String, u64)> = kinds.collect();
        rows.extend(numbers.map(|(number, &count)| (format!("answered {number}"), count)));
        let others = [
            ("resets", self.resets),
            ("resets of an ill-formed board", self.mending),
            ("calls that go on behind such a reset", self.mended),
            ("half reads of the timers", self.halves.read),
            ("half writes of the timers", self.halves.written),
            ("half writes refused for their alignment", self.halves.unaligned),
            ("half writes refused for their value", self.halves.big),
        ];
        rows.extend(others.map(|(text, count)| (text.to_string(), count)));
        rows.extend(self.irr.rows());
        rows.extend(self.settings.rows());
        rows.extend(self.with_record.rows());
        rows
    }
}

/// A call's place in the list.
fn place(call: Call) -> usize {
    match call {
        Call::Reset => 0,
        Call::Read { .. } => 1,
        Call::Write { .. } => 2,
        Call::Wire { .. } => 3,
        Call::End { .. } => 4,
        Call::Advance { .. } => 5,
        Call::Deliver => 6,
    }
}
