//! What was lent to the calls, and what came of them.

use peer::generate::{Damage, Sort};
use peer::log::LONGEST as LONGEST_REPLAY;
use peer::salvage::{Salvage, LONGEST};
use peer::sequence::salvage::{Lending, Returned, Room};

macro_rules! happenings {
    ($($name:ident: $text:literal;)*) => {
        /// Something that has to come.
        #[derive(Clone, Copy)]
        enum Happening {
            $($name,)*
        }

        const HAPPENINGS: &[&str] = &[$($text,)*];
    };
}

happenings! {
    Done: "answered 0";
    NoRoom: "answered 12";
    RecordsAlone: "12: the records alone don't fit";
    ListAlone: "12: the list alone doesn't fit";
    Both: "12: neither of the two fits";
    RecordsByOne: "12: the records lack one byte";
    ListByOne: "12: the list lacks one number";
    RecordsEmpty: "12: a buffer of length 0";
    ListEmpty: "12: a list of length 0";
    ListOddShort: "12: a list of odd length";
    BothExact: "0: both fit exactly, and neither is empty";
    RecordsRest: "0: the records' buffer is longer";
    ListRest: "0: the list is longer";
    ListOdd: "0: a list of odd length";
    NothingKept: "0: nothing kept, and no room for records";
    NothingSkipped: "0: nothing skipped, and no room for a list";
    Nothing: "0: an empty log, and no room at all";
    BelowLog: "0: the records' buffer is shorter than the log";
    BelowBound: "0: a list shorter than a log of that length may need";
    Several: "0: several stretches";
    AboveReplay: "0: a log of more than 65,536 bytes";
    Longest: "0: a log of 262,144 bytes";
    AboveProgram: "0: a log of more than 262,144 bytes";
    MostStretches: "0: 65,536 stretches";
}

/// Counts of calls.
pub struct Counts {
    damages: Vec<u64>,
    rooms: [u64; Room::ALL.len()],
    happenings: [u64; HAPPENINGS.len()],
}

impl Counts {
    /// Nothing came yet.
    pub fn new() -> Counts {
        Counts {
            damages: vec![0; Damage::ALL.len()],
            rooms: [0; Room::ALL.len()],
            happenings: [0; HAPPENINGS.len()],
        }
    }

    /// Counts a call.
    pub fn note(&mut self, lending: &Lending, right: &Returned) {
        self.damages[lending.damage as usize] += 1;
        self.rooms[lending.room as usize] += 1;
        if right.answer.number == 0 {
            self.note_done(lending, right);
        } else {
            self.note_refused(lending);
        }
    }

    fn note_if(&mut self, condition: bool, happening: Happening) {
        self.happenings[happening as usize] += u64::from(condition);
    }

    fn note_refused(&mut self, lending: &Lending) {
        let salvage = Salvage::of(&lending.log);
        let (bytes, numbers) = (salvage.records().len(), salvage.list().len());
        let (kept, list) = (lending.kept.len(), lending.list.len());
        self.note_if(true, Happening::NoRoom);
        self.note_if(bytes > kept && numbers <= list, Happening::RecordsAlone);
        self.note_if(bytes <= kept && numbers > list, Happening::ListAlone);
        self.note_if(bytes > kept && numbers > list, Happening::Both);
        self.note_if(bytes == kept + 1 && numbers <= list, Happening::RecordsByOne);
        self.note_if(numbers == list + 1 && bytes <= kept, Happening::ListByOne);
        self.note_if(bytes > kept && kept == 0, Happening::RecordsEmpty);
        self.note_if(numbers > list && list == 0, Happening::ListEmpty);
        self.note_if(numbers > list && list % 2 == 1, Happening::ListOddShort);
    }

    fn note_done(&mut self, lending: &Lending, right: &Returned) {
        let answer = right.answer;
        let (bytes, numbers) = (answer.bytes as usize, 2 * answer.stretches as usize);
        let (kept, list, log) = (lending.kept.len(), lending.list.len(), lending.log.len());
        let exact = bytes == kept && numbers == list;
        self.note_if(true, Happening::Done);
        self.note_if(exact && bytes > 0 && numbers > 0, Happening::BothExact);
        self.note_if(bytes < kept, Happening::RecordsRest);
        self.note_if(numbers < list, Happening::ListRest);
        self.note_if(list % 2 == 1, Happening::ListOdd);
        self.note_if(log > 0 && kept == 0, Happening::NothingKept);
        self.note_if(log > 0 && list == 0, Happening::NothingSkipped);
        self.note_if(log == 0 && kept == 0 && list == 0, Happening::Nothing);
        self.note_if(kept < log, Happening::BelowLog);
        self.note_if(list < 2 * log.div_ceil(4), Happening::BelowBound);
        self.note_if(answer.stretches > 1, Happening::Several);
        self.note_if(log > LONGEST_REPLAY, Happening::AboveReplay);
        self.note_if(log == LONGEST, Happening::Longest);
        self.note_if(log > LONGEST, Happening::AboveProgram);
        self.note_if(answer.stretches == LONGEST as u64 / 4, Happening::MostStretches);
    }

    /// What was counted, in words; all of it has to come.
    pub fn rows(&self) -> Vec<(String, u64)> {
        let damages = Damage::ALL.iter().map(|damage| format!("logs: {}", damage.name()));
        let rooms = Room::ALL.iter().map(|room| room.text().to_string());
        let happenings = HAPPENINGS.iter().map(|text| text.to_string());
        let counts = self.damages.iter().chain(&self.rooms).chain(&self.happenings);
        damages.chain(rooms).chain(happenings).zip(counts.copied()).collect()
    }
}
