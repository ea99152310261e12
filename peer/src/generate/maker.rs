//! A log in the making: its records so far, the mill that plays them, and the choices that
//! depend on both.

use super::choices::{self, any_pin, landmark, near, period};
use super::settings::pins_of;
use super::{Pace, MOST_TICKS};
use crate::board::Board;
use crate::controller::{DATA, INDEX};
use crate::log::Record;
use crate::mill::{Mill, MillCalls};
use crate::part::Part;
use crate::random::Random;
use crate::settings::Settings;
use crate::timer::bits;
use crate::timers::TIMERS;

/// Makes one log.
pub(super) struct Maker {
    pub(super) random: Random,
    /// What the board was reset with.
    pub(super) settings: Settings,
    pace: Pace,
    /// So many ticks its advances may still take.
    ticks_left: u64,
    /// Its pause key is the first pin.
    pub(super) mill: Mill,
    pub(super) log: Vec<u8>,
    pub(super) records: u64,
    pub(super) pins: Vec<u8>,
    pub(super) vectors: Vec<u8>,
}

impl Maker {
    pub(super) fn new(pace: Pace, settings: &Settings, seed: u64) -> Maker {
        let mut random = Random::new(seed);
        let pins: Vec<u8> =
            (0..1 + random.below(4)).map(|_| pin_for(settings, &mut random)).collect();
        let vectors = (0..3).map(|_| random.any() as u8).collect();
        let mut mill = Mill { board: Board::reset_to(settings), screen: None };
        mill.tell(pins[0].into()).expect("every entry is an edge entry after a reset");
        let ticks_left = match pace {
            Pace::Any => u64::MAX,
            Pace::Short => MOST_TICKS,
        };
        Maker {
            random,
            settings: *settings,
            pace,
            ticks_left,
            mill,
            log: Vec::new(),
            records: 0,
            pins,
            vectors,
        }
    }

    /// Adds a record; an advance takes at most the ticks that are left.
    pub(super) fn push(&mut self, mut record: Record) {
        if let Record::Advance { ticks } = &mut record {
            *ticks = self.ticks_left.min(u64::from(*ticks)) as u32;
            self.ticks_left -= u64::from(*ticks);
        }
        record.play(&mut self.mill);
        record.append_to(&mut self.log);
        self.records += 1;
    }

    // Records that are done.

    pub(super) fn read_controller(&mut self, offset: u64) {
        self.push(Record::Read { window: 0, width: 4, offset: offset as u16 });
    }

    pub(super) fn write_controller(&mut self, offset: u64, value: u64) {
        self.push(Record::Write { window: 0, width: 4, offset: offset as u16, value });
    }

    pub(super) fn read_part(&mut self, register: u64, part: Part) {
        let (width, offset) = (part.width() as u8, part.offset_in(register) as u16);
        self.push(Record::Read { window: 1, width, offset });
    }

    /// Writes that part of the number.
    pub(super) fn write_part(&mut self, register: u64, part: Part, number: u64) {
        let (width, offset) = (part.width() as u8, part.offset_in(register) as u16);
        self.push(Record::Write { window: 1, width, offset, value: part.of(number) });
    }

    /// Reads a timer register, mostly whole, sometimes in halves.
    pub(super) fn read_timers(&mut self, register: u64) {
        let first = self.half();
        match self.random.below(100) {
            0..86 => self.read_part(register, Part::Whole),
            86..97 => {
                self.read_part(register, first);
                self.read_part(register, first.other());
            }
            _ => self.read_part(register, first),
        }
    }

    /// Writes a timer register, mostly whole, sometimes in halves. The low half alone is enough for
    /// all but the counter and the comparators.
    pub(super) fn write_timers(&mut self, register: u64, number: u64) {
        let first = self.half();
        match self.random.below(100) {
            0..85 => self.write_part(register, Part::Whole, number),
            85..95 => {
                self.write_part(register, first, number);
                self.write_part(register, first.other(), number);
            }
            _ => self.write_part(register, Part::Low, number),
        }
    }

    pub(super) fn read_index(&mut self, index: u64) {
        self.write_controller(INDEX, index);
        self.read_controller(DATA);
    }

    pub(super) fn write_index(&mut self, index: u64, value: u64) {
        self.write_controller(INDEX, index);
        self.write_controller(DATA, value);
    }

    pub(super) fn deliver(&mut self, times: u64) {
        for _ in 0..times {
            self.push(Record::Deliver);
        }
    }

    // Choices.

    pub(super) fn pin(&mut self) -> u8 {
        if self.random.percent(88) {
            self.random.choose(&self.pins)
        } else {
            any_pin(&mut self.random)
        }
    }

    pub(super) fn vector(&mut self) -> u8 {
        if self.random.percent(90) {
            self.random.choose(&self.vectors)
        } else {
            self.random.any() as u8
        }
    }

    pub(super) fn low_word(&mut self) -> u32 {
        let vector = self.vector();
        choices::low_word(&mut self.random, vector)
    }

    pub(super) fn configuration(&mut self, n: usize) -> u64 {
        let route = if self.random.percent(85) {
            u64::from(self.route_pin(n))
        } else {
            self.random.below(32)
        };
        choices::configuration(&mut self.random) | route << bits::ROUTE_SHIFT
    }

    pub(super) fn timer(&mut self) -> usize {
        self.random.below(TIMERS as u64) as usize
    }

    /// One of the halves.
    pub(super) fn half(&mut self) -> Part {
        self.random.choose(&Part::HALVES)
    }

    /// A new configuration for timer n, or the present one with a single thing changed.
    pub(super) fn reconfiguration(&mut self, n: usize) -> u64 {
        let present = self.mill.board.timers.timer[n].read_configuration();
        match self.random.below(100) {
            0..45 => self.configuration(n),
            45..53 => present ^ bits::INTERRUPT,
            53..61 => present ^ bits::LEVEL_TYPE,
            61..67 => present ^ bits::PERIODIC,
            67..74 => present ^ bits::NARROW,
            74..80 => present ^ bits::SET_COMPARATOR,
            80..90 => {
                let route = u64::from(self.route_pin(n));
                present & !(bits::ROUTE_MASK << bits::ROUTE_SHIFT) | route << bits::ROUTE_SHIFT
            }
            90..96 => present,
            _ => present | 0x18 << bits::ROUTE_SHIFT,
        }
    }

    /// A number for the comparator register of timer n: the period, if that is what it sets.
    pub(super) fn due_or_period(&mut self, n: usize) -> u64 {
        let timer = self.mill.board.timers.timer[n];
        if timer.periodic && !timer.set_comparator {
            period(&mut self.random)
        } else {
            near(&mut self.random, self.mill.board.timers.counter)
        }
    }

    /// A number for the counter, from which some timer is due soon.
    pub(super) fn count(&mut self) -> u64 {
        let n = self.timer();
        let comparator = self.mill.board.timers.timer[n].comparator;
        match self.random.below(100) {
            0..60 => comparator.wrapping_sub(self.random.below(4)),
            60..70 => comparator.wrapping_add(self.random.below(3)),
            _ => landmark(&mut self.random),
        }
    }

    pub(super) fn due_in(&mut self) -> u64 {
        let timer = self.timer();
        let due = self.mill.board.timers.timer[timer].due_in(self.mill.board.timers.counter);
        u64::try_from(due).unwrap_or(u64::MAX)
    }

    pub(super) fn ticks(&mut self) -> u32 {
        if self.pace == Pace::Short {
            return self.short_ticks();
        }
        let ticks = match self.random.below(100) {
            0..4 => 0,
            4..28 => 1,
            28..55 => 2 + self.random.below(12),
            55..70 => self.due_in(),
            70..76 => self.due_in() - 1,
            76..80 => self.due_in().saturating_add(1),
            80..88 => self.random.below(5_000),
            88..95 => u64::from(u32::MAX),
            95..98 => self.random.any(),
            _ => 1 << 31,
        };
        if ticks > u64::from(u32::MAX) {
            u32::MAX >> self.random.below(30)
        } else {
            ticks as u32
        }
    }
}

/// A pin of a log: with settings mostly one that some timer can be routed to, often where it is after the reset.
fn pin_for(settings: &Settings, random: &mut Random) -> u8 {
    if *settings != Settings::USUAL && random.percent(70) {
        let mask = random.choose(&settings.masks);
        return if random.percent(30) {
            mask.trailing_zeros() as u8
        } else {
            random.choose(&pins_of(mask))
        };
    }
    if random.percent(25) {
        random.choose(&[0, 23])
    } else {
        any_pin(random)
    }
}
