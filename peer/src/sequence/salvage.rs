//! Random calls of the salvage's lent entry: damaged logs, with buffers of all lengths around the ones that
//! are needed.

use crate::abi::salvage::{salvage, Salvaged};
use crate::generate::{damaged_log, short_damaged_log, Damage, Sort};
use crate::random::Random;
use crate::salvage::Salvage;

/// How long the two buffers are.
#[derive(Clone, Copy, PartialEq, Eq, Debug)]
pub enum Room {
    /// Both as long as is needed.
    Exact,
    /// Both longer.
    Longer,
    /// As long as the log's length alone says that it is enough: its bytes, and two numbers for every four.
    ForAll,
    /// The records lack one byte, the list is enough.
    RecordsShort,
    /// The records lack some bytes, the list is enough.
    FewRecords,
    /// The records have no room at all, the list is enough.
    NoRecords,
    /// The list lacks one number, the records are enough.
    ListShort,
    /// The list lacks both numbers of its last stretch.
    StretchShort,
    /// The list has a number for each stretch.
    HalfList,
    /// The list has no room at all.
    NoList,
    /// The list is one number longer.
    OddList,
    /// Both lack one.
    BothShort,
    /// Both have no room at all.
    Nothing,
    /// Any lengths.
    Any,
}

impl Room {
    /// All of them, in the order of their numbers.
    pub const ALL: [Room; 14] = [
        Room::Exact,
        Room::Longer,
        Room::ForAll,
        Room::RecordsShort,
        Room::FewRecords,
        Room::NoRecords,
        Room::ListShort,
        Room::StretchShort,
        Room::HalfList,
        Room::NoList,
        Room::OddList,
        Room::BothShort,
        Room::Nothing,
        Room::Any,
    ];

    /// What it is, in words.
    pub fn text(self) -> &'static str {
        match self {
            Room::Exact => "both buffers exactly",
            Room::Longer => "both buffers longer",
            Room::ForAll => "both buffers by the log's length alone",
            Room::RecordsShort => "the records lack one byte",
            Room::FewRecords => "the records lack some bytes",
            Room::NoRecords => "no room for records",
            Room::ListShort => "the list lacks one number",
            Room::StretchShort => "the list lacks a stretch",
            Room::HalfList => "the list has a number for each stretch",
            Room::NoList => "no room for the list",
            Room::OddList => "the list has one number more",
            Room::BothShort => "both lack one",
            Room::Nothing => "no room at all",
            Room::Any => "any lengths",
        }
    }

    /// The lengths of the two buffers, for what is needed of them.
    fn lengths(self, log: usize, bytes: usize, numbers: usize, any: &mut Random) -> (usize, usize) {
        let mut more = |bound: u64| any.below(bound) as usize;
        match self {
            Room::Exact => (bytes, numbers),
            Room::Longer => (bytes + 1 + more(40), numbers + 1 + more(9)),
            Room::ForAll => (log, 2 * log.div_ceil(4)),
            Room::RecordsShort => (bytes.saturating_sub(1), numbers + more(3)),
            Room::FewRecords => (more(bytes as u64 + 1), numbers + more(3)),
            Room::NoRecords => (0, numbers + more(3)),
            Room::ListShort => (bytes + more(3), numbers.saturating_sub(1)),
            Room::StretchShort => (bytes + more(3), numbers.saturating_sub(2)),
            Room::HalfList => (bytes + more(3), numbers / 2),
            Room::NoList => (bytes + more(3), 0),
            Room::OddList => (bytes + more(3), numbers + 1),
            Room::BothShort => (bytes.saturating_sub(1), numbers.saturating_sub(1)),
            Room::Nothing => (0, 0),
            Room::Any => (more(2 * bytes as u64 + 20), more(2 * numbers as u64 + 4)),
        }
    }
}

/// What is lent to a call.
#[derive(Clone)]
pub struct Lending {
    /// What has happened to the log.
    pub damage: Damage,
    /// How long the buffers are.
    pub room: Room,
    /// The log.
    pub log: Vec<u8>,
    /// The buffer for the records, with something in it.
    pub kept: Vec<u8>,
    /// The buffer for the list, with something in it.
    pub list: Vec<u64>,
}

/// What comes of a call.
#[derive(Clone, PartialEq, Eq)]
pub struct Returned {
    /// The answer.
    pub answer: Salvaged,
    /// The buffer for the records.
    pub kept: Vec<u8>,
    /// The buffer for the list.
    pub list: Vec<u64>,
}

impl Lending {
    /// Makes the call by a function.
    pub fn ask(&self, call: impl FnOnce(&[u8], &mut [u8], &mut [u64]) -> Salvaged) -> Returned {
        let (mut kept, mut list) = (self.kept.clone(), self.list.clone());
        let answer = call(&self.log, &mut kept, &mut list);
        Returned { answer, kept, list }
    }

    /// What has to come of it.
    pub fn right(&self) -> Returned {
        self.ask(salvage)
    }
}

/// Makes calls, round by round; the seed decides them.
pub struct Maker {
    random: Random,
    seed: u64,
    round: u64,
}

/// Long logs come in the first round, and then in one of so many.
const LONG_ROUNDS: u64 = 400;

impl Maker {
    /// A maker before its first round.
    pub fn new(seed: u64) -> Maker {
        Maker { random: Random::new(seed ^ 0x5A), seed, round: 0 }
    }

    /// The next round's calls: a log of each sort, each with every room.
    pub fn round(&mut self) -> Vec<Lending> {
        let mut calls = Vec::new();
        for &damage in Damage::ALL {
            let log = short_damaged_log(damage, &mut self.random);
            calls.extend(Room::ALL.map(|room| self.lending(damage, room, log.clone())));
        }
        if self.round.is_multiple_of(LONG_ROUNDS) {
            self.long_logs(&mut calls);
        }
        self.round += 1;
        calls
    }

    /// The longest ones that the program takes, and longer ones, which are nothing special here.
    fn long_logs(&mut self, calls: &mut Vec<Lending>) {
        for turn in 0..3 {
            for (place, &damage) in Damage::ALL.iter().enumerate() {
                let number = turn * Damage::ALL.len() as u64 + place as u64;
                let log = damaged_log(damage, self.seed, number);
                let room = self.random.choose(&[Room::Exact, Room::Longer, Room::ForAll]);
                calls.push(self.lending(damage, room, log));
            }
        }
    }

    fn lending(&mut self, damage: Damage, room: Room, log: Vec<u8>) -> Lending {
        let salvage = Salvage::of(&log);
        let (bytes, numbers) = (salvage.records().len(), salvage.list().len());
        let (kept, list) = room.lengths(log.len(), bytes, numbers, &mut self.random);
        let kept = (0..kept).map(|_| self.random.any() as u8).collect();
        let list = (0..list).map(|_| self.random.any()).collect();
        Lending { damage, room, log, kept, list }
    }
}
