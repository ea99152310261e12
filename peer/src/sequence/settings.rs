//! Random resets with a settings record, of boards and of mills, and random calls of the writer. Neither keeps
//! anything from call to call; what goes on behind a reset is among the other sequences.

use super::clauses::CLAUSES;
use super::memory;
use crate::abi::mill::{Mill, Screen};
use crate::abi::settings::Resettable;
use crate::abi::{Board, Reply};
use crate::board::{self, Refusal};
use crate::generate::{broken_record, flawed_record, random_board, random_settings, Flaw};
use crate::random::Random;
use crate::settings::{Settings, LENGTH};

/// A reset with a record, of any memory.
#[derive(Clone)]
pub struct Resetting<Lent> {
    /// The memory before it.
    pub before: Lent,
    /// The record; any bytes.
    pub record: Vec<u8>,
}

impl<Lent: Resettable> Resetting<Lent> {
    /// What has to come of it.
    pub fn right(&self) -> (Reply, Lent) {
        let mut lent = self.before;
        let reply = lent.reset_settings(&self.record);
        (reply, lent)
    }
}

/// A call of the writer.
#[derive(Clone)]
pub struct Writing {
    /// The settings, in range or not.
    pub settings: Settings,
    /// The lent buffer, with something in it.
    pub buffer: Vec<u8>,
}

impl Writing {
    /// What comes of it by this writer.
    pub fn ask(
        &self,
        write: impl FnOnce(&Settings, &mut [u8]) -> Result<(), Refusal>,
    ) -> (Result<(), Refusal>, Vec<u8>) {
        let mut buffer = self.buffer.clone();
        let answer = write(&self.settings, &mut buffer);
        (answer, buffer)
    }

    /// What has to come of it.
    pub fn right(&self) -> (Result<(), Refusal>, Vec<u8>) {
        self.ask(Settings::write)
    }
}

/// Makes them, round by round; the seed decides them.
pub struct Maker {
    random: Random,
}

impl Maker {
    /// A maker before its first round.
    pub fn new(seed: u64) -> Maker {
        Maker { random: Random::new(seed.rotate_left(24) ^ 0xC3) }
    }

    /// The next round's resets of boards: good and broken records, on whole and on broken boards.
    pub fn boards(&mut self) -> Vec<Resetting<Board>> {
        let records = self.records();
        let resetting = |record| Resetting { before: self.board(), record };
        records.into_iter().map(resetting).collect()
    }

    /// The same of mills, in every word.
    pub fn mills(&mut self) -> Vec<Resetting<Mill>> {
        let records = self.records();
        let resetting = |record| {
            let board = self.board();
            Resetting { before: Mill { board, screen: self.screen() }, record }
        };
        records.into_iter().map(resetting).collect()
    }

    /// The next round's calls of the writer.
    pub fn writings(&mut self) -> Vec<Writing> {
        (0..40).map(|_| self.writing()).collect()
    }

    /// Good records, records with each flaw alone, and records with any flaws.
    fn records(&mut self) -> Vec<Vec<u8>> {
        let random = &mut self.random;
        let mut records: Vec<Vec<u8>> =
            (0..24).map(|_| random_settings(random).record().to_vec()).collect();
        for flaw in Flaw::ALL {
            records.extend((0..3).map(|_| flawed_record(&[flaw], random)));
        }
        records.extend((0..8).map(|_| broken_record(random)));
        // One byte of a good record off: good or not, the model knows.
        for _ in 0..6 {
            let mut record = random_settings(random).record().to_vec();
            record[random.below(LENGTH as u64) as usize] ^= 1 << random.below(8);
            records.push(record);
        }
        records
    }

    fn board(&mut self) -> Board {
        let random = &mut self.random;
        let mut board = Board::from(&random_board(random));
        match random.below(8) {
            0 => board = Board::from(&board::Board::RESET),
            1 => board = Board::from(&board::Board::reset_to(&random_settings(random))),
            2 | 3 => {
                CLAUSES[random.below(CLAUSES.len() as u64) as usize].break_alone(&mut board, random)
            }
            4 => memory::flip_bit(&mut board, random),
            5 => board = memory::random_memory(random),
            _ => {}
        }
        board
    }

    fn screen(&mut self) -> Screen {
        let random = &mut self.random;
        let (pin, vector) = (random.below(24) as u16, 0x30 + random.below(4) as u16);
        match random.below(8) {
            0 => Screen::UNTOLD,
            1 => Screen { told: 1, pin, word: 0, vector: 0 },
            2 => Screen { told: 1, pin, word: 1, vector: 0 },
            3 | 4 => Screen { told: 1, pin, word: 2, vector },
            5 | 6 => Screen { told: 1, pin, word: 3, vector },
            _ => {
                let mut number = || random.any() as u16;
                Screen { told: number(), pin: number(), word: number(), vector: number() }
            }
        }
    }

    fn writing(&mut self) -> Writing {
        let random = &mut self.random;
        let record = if random.percent(35) {
            flawed_record(&[Flaw::Range], random)
        } else {
            random_settings(random).record().to_vec()
        };
        let record: &[u8; LENGTH] = record.first_chunk().expect("its length is a record's");
        let length = match random.below(8) {
            0..3 => LENGTH,
            3 => LENGTH - 1,
            4 => LENGTH + 1,
            5 => random.choose(&[0, 1, 2 * LENGTH, LENGTH + 2, LENGTH + 256]),
            _ => random.below(64) as usize,
        };
        let buffer = (0..length).map(|_| random.any() as u8).collect();
        Writing { settings: Settings::of_body(record), buffer }
    }
}
