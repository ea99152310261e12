//! What the calls of the plain engine were, and what came of them.

use lent::{irr, settings};
use peer::abi::Call;
use peer::sequence::plain::Step;
use peer::sequence::Kind;

use super::happenings::HAPPENINGS;

/// The paper's numbers that a call can answer.
const NUMBERS: [usize; 7] = [0, 1, 2, 3, 4, 5, 7];
const CALLS: [&str; 8] =
    ["reset", "read", "write", "wire", "end", "advance", "deliver", "unknown kind"];

/// Counts of calls.
pub struct Counts {
    kinds: [u64; Kind::ALL.len()],
    numbers: [u64; 8],
    /// Calls that are not refused with 5, and calls that are.
    taken: [u64; CALLS.len()],
    refused: [u64; CALLS.len()],
    happenings: [u64; HAPPENINGS.len()],
    irr: irr::Counts,
    settings: settings::Counts,
    ticks: u64,
}

impl Counts {
    /// Nothing came yet.
    pub fn new() -> Counts {
        Counts {
            kinds: [0; Kind::ALL.len()],
            numbers: [0; 8],
            taken: [0; CALLS.len()],
            refused: [0; CALLS.len()],
            happenings: [0; HAPPENINGS.len()],
            irr: irr::Counts::new(&CALLS),
            settings: settings::Counts::default(),
            ticks: 0,
        }
    }

    /// Counts a call of a sequence.
    pub fn note(&mut self, kind: Kind, step: &Step) {
        let (call, number) = (place(step.call.asked()), step.reply.number as usize);
        self.kinds[kind as usize] += 1;
        self.numbers[number] += 1;
        let side = if number == 5 { &mut self.refused } else { &mut self.taken };
        side[call] += 1;
        let boards = (&step.before, &step.after);
        self.irr.note(call, step.call.asked(), boards, step.reply.number);
        self.settings.note(step.call.asked(), boards, step.reply.number);
        for (count, (_, happens)) in self.happenings.iter_mut().zip(HAPPENINGS) {
            *count += u64::from(happens(step));
        }
        if let (Some(Call::Advance { ticks }), 0) = (step.call.asked(), number) {
            self.ticks += u64::from(ticks);
        }
    }

    /// What was counted, in words; all of it has to come.
    pub fn rows(&self) -> Vec<(String, u64)> {
        let mut rows: Vec<(String, u64)> = Vec::new();
        rows.extend(Kind::ALL.map(|kind| (kind.text().to_string(), self.kinds[kind as usize])));
        rows.extend(NUMBERS.map(|number| (format!("answered {number}"), self.numbers[number])));
        for (call, name) in CALLS.iter().enumerate() {
            rows.push((format!("{name}, not refused with 5"), self.taken[call]));
            // A reset is never refused.
            if call != 0 {
                rows.push((format!("{name}, refused with 5"), self.refused[call]));
            }
        }
        for ((text, _), &count) in HAPPENINGS.iter().zip(&self.happenings) {
            rows.push((text.to_string(), count));
        }
        rows.extend(self.irr.rows());
        rows.extend(self.settings.rows());
        rows.push(("ticks walked".to_string(), self.ticks));
        rows
    }
}

/// A call's place in the list.
fn place(asked: Option<Call>) -> usize {
    match asked {
        Some(Call::Reset) => 0,
        Some(Call::Read { .. }) => 1,
        Some(Call::Write { .. }) => 2,
        Some(Call::Wire { .. }) => 3,
        Some(Call::End { .. }) => 4,
        Some(Call::Advance { .. }) => 5,
        Some(Call::Deliver) => 6,
        None => 7,
    }
}
