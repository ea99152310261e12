//! What has to come of remote IRR (K4): low-word writes that clear it and that keep it, and boards that are refused
//! with 5 because an edge entry has it, and for nothing else.

use peer::abi::{Board, Call};
use peer::board::CONTROLLER;
use peer::controller::DATA;
use peer::pin::{DELIVERY_MODE, LEVEL, MASK, REMOTE_IRR, VECTOR};
use peer::sequence::stray_irr;

/// A done low-word write, by the entry's low word before it and after it.
struct Rewrite {
    old: u32,
    new: u32,
}

/// What a low-word write is, in words, and whether it is that.
type Sort = (&'static str, fn(&Rewrite) -> bool);

const REWRITES: [Sort; 7] = [
    ("edge write clears remote IRR, unmasked", |write| write.clears() && write.new & MASK == 0),
    ("edge write clears remote IRR, masked", |write| write.clears() && write.new & MASK != 0),
    ("edge write clears remote IRR, another mode", |write| {
        write.clears() && write.new & DELIVERY_MODE != 0
    }),
    ("edge write clears remote IRR, another vector", |write| {
        write.clears() && (write.old ^ write.new) & VECTOR != 0
    }),
    ("level write keeps remote IRR", |write| write.keeps()),
    ("level write keeps remote IRR, another vector", |write| {
        write.keeps() && (write.old ^ write.new) & VECTOR != 0
    }),
    ("level write of an edge entry", |write| write.old & LEVEL == 0 && write.new & LEVEL != 0),
];

impl Rewrite {
    /// The write that the call was, if it was one.
    fn of(call: Option<Call>, before: &Board, after: &Board) -> Option<Rewrite> {
        let Some(Call::Write { window: CONTROLLER, offset: DATA, .. }) = call else { return None };
        let index = before.controller.index as usize;
        if !matches!(index, 0x10..0x40) || !index.is_multiple_of(2) {
            return None;
        }
        let low = |board: &Board| board.controller.entries.low[(index - 0x10) / 2];
        Some(Rewrite { old: low(before), new: low(after) })
    }

    fn clears(&self) -> bool {
        self.old & REMOTE_IRR != 0 && self.new & REMOTE_IRR == 0
    }

    fn keeps(&self) -> bool {
        self.old & REMOTE_IRR != 0 && self.new & REMOTE_IRR != 0
    }
}

/// How an edge entry is that has remote IRR.
const ENTRIES: [&str; 4] = ["unmasked", "masked", "with a held edge", "without a held edge"];

/// Counts of such calls.
pub struct Counts {
    /// The names of the calls, the reset first.
    names: &'static [&'static str],
    /// Calls on a board that isn't well formed for the remote IRR of an edge entry alone.
    stray: Vec<u64>,
    entries: [u64; ENTRIES.len()],
    rewrites: [u64; REWRITES.len()],
}

impl Counts {
    /// Nothing came yet. The first name is that of the reset.
    pub fn new(names: &'static [&'static str]) -> Counts {
        let (entries, rewrites) = ([0; ENTRIES.len()], [0; REWRITES.len()]);
        Counts { names, stray: vec![0; names.len()], entries, rewrites }
    }

    /// Counts a call: the place of its name, what it asks of the board, the board before it and after it, and the
    /// number that it answers.
    pub fn note(
        &mut self,
        name: usize,
        call: Option<Call>,
        (before, after): (&Board, &Board),
        number: u32,
    ) {
        if number == 5 || (name == 0 && !before.is_well_formed()) {
            self.note_stray(name, before);
        }
        if let Some(write) = Rewrite::of(call, before, after).filter(|_| number == 0) {
            for (count, (_, is_it)) in self.rewrites.iter_mut().zip(REWRITES) {
                *count += u64::from(is_it(&write));
            }
        }
    }

    fn note_stray(&mut self, name: usize, board: &Board) {
        let stray = stray_irr(board);
        self.stray[name] += u64::from(!stray.is_empty());
        for pin in stray {
            let masked = board.controller.entries.low[pin] & MASK != 0;
            let held = board.controller.entries.held[pin] != 0;
            for (count, is_it) in self.entries.iter_mut().zip([!masked, masked, held, !held]) {
                *count += u64::from(is_it);
            }
        }
    }

    /// What was counted, in words; all of it has to come.
    pub fn rows(&self) -> Vec<(String, u64)> {
        let mut rows: Vec<(String, u64)> = Vec::new();
        let calls = self.names.iter().zip(&self.stray);
        rows.extend(calls.map(|(name, &count)| match *name {
            "reset" => ("reset: remote IRR on an edge entry".to_string(), count),
            name => (format!("5 for remote IRR on an edge entry: {name}"), count),
        }));
        let entries = ENTRIES.iter().zip(self.entries);
        rows.extend(
            entries.map(|(text, count)| (format!("remote IRR on an edge entry: {text}"), count)),
        );
        let rewrites = REWRITES.iter().zip(self.rewrites);
        rows.extend(rewrites.map(|((text, _), count)| (text.to_string(), count)));
        rows
    }
}
