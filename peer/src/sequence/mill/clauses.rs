//! The clauses of "well formed" that a mill's screen adds, and how to break each alone.

use crate::abi::mill::{Mill, Screen};
use crate::pin::{LEVEL, REMOTE_IRR};
use crate::random::Random;

/// A clause.
pub struct Clause {
    /// What it says.
    pub name: &'static str,
    holds: fn(&Mill) -> bool,
    break_it: fn(&mut Mill, &mut Random),
}

impl Clause {
    /// Breaks this clause in a well-formed mill and leaves every other one whole.
    pub fn break_alone(&self, mill: &mut Mill, random: &mut Random) {
        (self.break_it)(mill, random);
        assert_eq!(broken(mill), [self.name], "one clause is broken alone");
        assert!(mill.board.is_well_formed(), "the board is whole");
    }
}

/// The names of the clauses that are broken.
pub fn broken(mill: &Mill) -> Vec<&'static str> {
    CLAUSES.iter().filter(|clause| !(clause.holds)(mill)).map(|clause| clause.name).collect()
}

/// All clauses.
pub const CLAUSES: &[Clause] = &[
    Clause {
        name: "told is 0 or 1",
        holds: |mill| mill.screen.told <= 1,
        break_it: |mill, random| mill.screen.told = random.choose(&[2, 3, 0x100, 0x101, 0xFFFF]),
    },
    Clause {
        name: "not told: the pin is 0",
        holds: |mill| mill.screen.told != 0 || mill.screen.pin == 0,
        break_it: |mill, random| {
            let pin = random.choose(&[1, 2, 23, 24, 0x100, 0xFFFF]);
            mill.screen = Screen { pin, ..Screen::UNTOLD };
        },
    },
    Clause {
        name: "not told: the word is running",
        holds: |mill| mill.screen.told != 0 || mill.screen.word == 0,
        break_it: |mill, random| {
            let word = random.choose(&[1, 2, 3, 4, 0x100, 0xFFFF]);
            mill.screen = Screen { word, ..Screen::UNTOLD };
        },
    },
    Clause {
        name: "not told: the vector is 0",
        holds: |mill| mill.screen.told != 0 || mill.screen.vector == 0,
        break_it: |mill, random| {
            let vector = random.choose(&[1, 0x30, 0xFF, 0x100, 0xFFFF]);
            mill.screen = Screen { vector, ..Screen::UNTOLD };
        },
    },
    Clause {
        name: "told: the pin is at most 23",
        holds: |mill| mill.screen.told != 1 || mill.screen.pin <= 23,
        break_it: |mill, random| {
            let pin = random.choose(&[24, 25, 31, 32, 255, 0x100, 0x103, 0x8003, 0xFFFF]);
            mill.screen = Screen { told: 1, pin, ..some_word(random) };
        },
    },
    Clause {
        name: "told: the word is at most 3",
        holds: |mill| mill.screen.told != 1 || mill.screen.word <= 3,
        break_it: |mill, random| {
            let word = random.choose(&[4, 5, 7, 8, 0x100, 0x101, 0x103, 0x8002, 0xFFFF]);
            mill.screen = Screen { told: 1, pin: pin(random), word, vector: 0 };
        },
    },
    Clause {
        name: "told: the vector is at most 255",
        holds: |mill| mill.screen.told != 1 || mill.screen.vector <= 255,
        break_it: |mill, random| {
            let vector = random.choose(&[0x100, 0x130, 0x8031, 0xFFFF]);
            let word = random.choose(&[2, 3]);
            mill.screen = Screen { told: 1, pin: pin(random), word, vector };
        },
    },
    Clause {
        name: "told: a vector in taken and paused alone",
        holds: |mill| {
            let Screen { told, word, vector, .. } = mill.screen;
            told != 1 || word > 1 || vector == 0 || vector > 255
        },
        break_it: |mill, random| {
            let (pin, vector) = (pin(random), random.choose(&[1, 0x30, 0x31, 0x80, 0xFF]));
            let word = u16::from(mill.board.controller.entries.held[usize::from(pin)] == 1);
            mill.screen = Screen { told: 1, pin, word, vector };
        },
    },
    Clause {
        name: "running only if the pin holds no edge",
        holds: |mill| {
            let Screen { told, pin, word, .. } = mill.screen;
            let held = mill.board.controller.entries.held.get(usize::from(pin));
            told != 1 || word != 0 || held != Some(&1)
        },
        break_it: |mill, random| {
            let pin = pin(random);
            mill.board.controller.entries.low[usize::from(pin)] &= !(LEVEL | REMOTE_IRR);
            mill.board.controller.entries.held[usize::from(pin)] = 1;
            mill.screen = Screen { told: 1, pin, word: 0, vector: 0 };
        },
    },
];

fn pin(random: &mut Random) -> u16 {
    random.below(24) as u16
}

/// Any word, with the vector that belongs to it.
fn some_word(random: &mut Random) -> Screen {
    let word = random.below(4) as u16;
    let vector = if word > 1 { 0x30 + random.below(4) as u16 } else { 0 };
    Screen { told: 1, pin: 0, word, vector }
}
