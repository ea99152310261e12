//! What the calls of the mill were, and what they did to its screen.

use lent::{irr, settings};
use peer::abi::mill::{Asked, Mill};
use peer::abi::Call;
use peer::sequence::mill::{broken, Kind, Step};
use peer::sequence::settings::Resetting;

use super::happenings::{happenings, Happening};

/// The paper's numbers that a call of the mill can answer.
const NUMBERS: [usize; 8] = [0, 1, 2, 3, 4, 5, 7, 14];
const WORDS: [&str; 4] = ["running", "asked", "taken", "paused"];
const CALLS: [&str; 10] =
    ["reset", "read", "write", "wire", "end", "advance", "deliver", "tell", "resume", "unknown"];
/// What is counted for each word.
const IN_WORDS: [&str; 5] =
    ["tell done", "tell refused 3", "tell refused 14", "resume done", "reset done"];

/// Counts of calls.
pub struct Counts {
    kinds: [u64; Kind::ALL.len()],
    numbers: [u64; 15],
    /// Calls that are not refused with 5.
    taken: [u64; CALLS.len()],
    /// Calls that are refused with 5 for the screen alone, and for the board.
    screen: [u64; CALLS.len()],
    board: [u64; CALLS.len()],
    words: [[u64; WORDS.len()]; IN_WORDS.len()],
    happenings: [u64; Happening::ALL.len()],
    irr: irr::Counts,
    settings: settings::Counts,
    /// Resets with a settings record.
    with_record: settings::Resets,
    /// Such resets of a well-formed mill, done and refused, by its word.
    reset_words: [[u64; WORDS.len()]; 2],
}

impl Counts {
    /// Nothing came yet.
    pub fn new() -> Counts {
        Counts {
            kinds: [0; Kind::ALL.len()],
            numbers: [0; 15],
            taken: [0; CALLS.len()],
            screen: [0; CALLS.len()],
            board: [0; CALLS.len()],
            words: [[0; WORDS.len()]; IN_WORDS.len()],
            happenings: [0; Happening::ALL.len()],
            irr: irr::Counts::new(&CALLS),
            settings: settings::Counts::default(),
            with_record: settings::Resets::default(),
            reset_words: [[0; WORDS.len()]; 2],
        }
    }

    /// Counts a call of a sequence.
    pub fn note(&mut self, kind: Kind, step: &Step) {
        let (call, number) = (place(step.call.asked()), step.reply.number as usize);
        self.kinds[kind as usize] += 1;
        self.numbers[number] += 1;
        let asked = match step.call.asked() {
            Asked::Board(call) => Some(call),
            _ => None,
        };
        let boards = (&step.before.board, &step.after.board);
        self.irr.note(call, asked, boards, step.reply.number);
        self.settings.note(asked, boards, step.reply.number);
        if number == 5 {
            let whole = step.before.board.is_well_formed();
            let side = if whole { &mut self.screen } else { &mut self.board };
            side[call] += 1;
            return;
        }
        self.taken[call] += 1;
        self.note_word(step, number);
        happenings(step, |happening| self.happenings[happening as usize] += 1);
    }

    /// Counts a reset with a settings record.
    pub fn note_reset(&mut self, call: &Resetting<Mill>) {
        self.with_record.note(call);
        if call.before.is_well_formed() {
            let row = usize::from(call.right().0.number != 0);
            self.reset_words[row][usize::from(call.before.screen.word)] += 1;
        }
    }

    fn note_word(&mut self, step: &Step, number: usize) {
        let row = match (step.call.asked(), number) {
            (Asked::Tell(_), 0) => 0,
            (Asked::Tell(_), 3) => 1,
            (Asked::Tell(_), 14) => 2,
            (Asked::Resume, 0) => 3,
            (Asked::Board(Call::Reset), 0) if broken(&step.before).is_empty() => 4,
            _ => return,
        };
        self.words[row][usize::from(step.before.screen.word)] += 1;
    }

    /// What was counted, in words; all of it has to come.
    pub fn rows(&self) -> Vec<(String, u64)> {
        let mut rows: Vec<(String, u64)> = Vec::new();
        rows.extend(Kind::ALL.map(|kind| (kind.text().to_string(), self.kinds[kind as usize])));
        rows.extend(NUMBERS.map(|n| (format!("answered {n}"), self.numbers[n])));
        for (call, name) in CALLS.iter().enumerate() {
            rows.push((format!("{name}, not refused with 5"), self.taken[call]));
        }
        // A reset is never refused.
        for (call, name) in CALLS.iter().enumerate().skip(1) {
            rows.push((format!("{name}, refused with 5 for the screen"), self.screen[call]));
            rows.push((format!("{name}, refused with 5 for the board"), self.board[call]));
        }
        for (row, what) in IN_WORDS.iter().enumerate() {
            for (word, name) in WORDS.iter().enumerate() {
                rows.push((format!("{what} in {name}"), self.words[row][word]));
            }
        }
        for &happening in Happening::ALL {
            rows.push((happening.text().to_string(), self.happenings[happening as usize]));
        }
        rows.extend(self.irr.rows());
        rows.extend(self.settings.rows());
        rows.extend(self.with_record.rows());
        for (row, what) in ["done", "refused"].iter().enumerate() {
            for (word, name) in WORDS.iter().enumerate() {
                let count = self.reset_words[row][word];
                rows.push((format!("reset with settings {what} in {name}"), count));
            }
        }
        rows
    }
}

/// A call's place in the list.
fn place(asked: Asked) -> usize {
    match asked {
        Asked::Board(Call::Reset) => 0,
        Asked::Board(Call::Read { .. }) => 1,
        Asked::Board(Call::Write { .. }) => 2,
        Asked::Board(Call::Wire { .. }) => 3,
        Asked::Board(Call::End { .. }) => 4,
        Asked::Board(Call::Advance { .. }) => 5,
        Asked::Board(Call::Deliver) => 6,
        Asked::Tell(_) => 7,
        Asked::Resume => 8,
        Asked::Unknown => 9,
    }
}
