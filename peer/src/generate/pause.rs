//! The life of a pause key: asked, delivered, ended, and at each stage what is easily taken for
//! one of these.

use super::choices::{any_pin, low_word, sometimes};
use super::maker::Maker;
use crate::log::Record;
use crate::mill::{Screen, Stage};
use crate::pin::{Pin, ACTIVE_LOW, LEVEL, MASK, VECTOR};
use crate::timer::bits;
use crate::timers::{comparator_of, configuration_of, ENABLE};

impl Maker {
    /// The key's entry as an edge entry that is delivered, and sometimes other pins.
    pub(super) fn set_pause_scene(&mut self) {
        self.set_key_entry();
        for _ in 0..self.random.below(3) {
            self.raise_other();
        }
    }

    /// What a key's life goes on with, or what must not be taken for that.
    pub(super) fn pause_move(&mut self) {
        match self.mill.screen {
            Some(Screen { stage: Stage::Asked, .. }) => self.move_while_asked(),
            Some(Screen { stage: Stage::Taken { vector }, .. }) => self.move_while_taken(vector),
            Some(Screen { stage: Stage::Paused { vector }, .. }) => self.move_while_paused(vector),
            _ => self.move_while_running(),
        }
    }

    fn move_while_running(&mut self) {
        match self.random.below(100) {
            0..30 => self.press(),
            30..45 => self.set_key_entry(),
            45..55 => self.raise_other(),
            55..62 => self.rewrite_low(self.key().into()),
            62..70 => self.deliver(1),
            70..78 => self.end_key(),
            78..84 => self.level_delivery(),
            _ => self.other_move(),
        }
    }

    fn move_while_asked(&mut self) {
        match self.random.below(100) {
            0..22 => self.deliver(1),
            22..30 => self.change_key(MASK),
            30..37 => self.change_key_vector(),
            37..44 => self.level_delivery(),
            44..49 => self.change_key(LEVEL),
            49..57 => self.raise_other(),
            57..65 => self.end_key(),
            65..73 => self.press(),
            73..79 => self.rewrite_low(self.key().into()),
            79..86 => self.set_key_entry(),
            _ => self.other_move(),
        }
    }

    fn move_while_taken(&mut self, vector: u8) {
        match self.random.below(100) {
            0..14 => self.push(Record::End { vector }),
            14..26 => self.end_key(),
            26..34 => self.end(),
            34..48 => self.change_key_vector(),
            48..64 => {
                self.press();
                self.deliver(1);
            }
            64..72 => self.level_delivery(),
            72..80 => self.raise_other(),
            80..88 => self.deliver(1),
            _ => self.other_move(),
        }
    }

    /// Nothing but a resume ends a pause, so a whole life goes by unseen.
    fn move_while_paused(&mut self, vector: u8) {
        match self.random.below(100) {
            0..20 => self.push(Record::End { vector }),
            20..70 => {
                self.set_key_entry();
                self.press();
                self.deliver(1);
                self.end_key();
            }
            _ => self.other_move(),
        }
    }

    fn other_move(&mut self) {
        match self.random.below(10) {
            0..4 => self.controller_move(),
            4..7 => self.timer_move(),
            7 => self.bad_move(),
            8 => self.set_level_scene_at(self.key()),
            _ => self.look_at_entries(),
        }
    }

    pub(super) fn key(&self) -> u8 {
        self.pins[0]
    }

    fn key_pin(&self) -> Pin {
        self.mill.board.controller.pins[usize::from(self.key())]
    }

    fn write_key(&mut self, word: u32) {
        self.write_index(0x10 + 2 * u64::from(self.key()), u64::from(word));
    }

    /// An edge entry, mostly one that is delivered.
    fn set_key_entry(&mut self) {
        let vector = self.vector();
        let active_low = sometimes(&mut self.random, 30, ACTIVE_LOW.into()) as u32;
        let mask = sometimes(&mut self.random, 10, MASK.into()) as u32;
        self.write_key(u32::from(vector) | active_low | mask);
    }

    fn change_key(&mut self, bits: u32) {
        let word = self.key_pin().low ^ bits;
        self.write_key(word);
    }

    fn change_key_vector(&mut self) {
        let word = self.key_pin().low & !VECTOR | u32::from(self.vector());
        self.write_key(word);
    }

    /// An end with the vector that the key's entry has at present.
    fn end_key(&mut self) {
        let vector = self.key_pin().vector();
        self.push(Record::End { vector });
    }

    /// The key's wire, or a timer, makes an edge; not on a level or masked entry.
    fn press(&mut self) {
        match self.random.below(100) {
            0..70 => self.press_by_wire(),
            70..85 => self.press_by_pulse(),
            _ => self.set_level_scene_at(self.key()),
        }
    }

    fn press_by_wire(&mut self) {
        let pin = self.key();
        let pressed = u8::from(!self.key_pin().is_active_low());
        if self.key_pin().is_asserted() {
            self.push(Record::Wire { pin, level: 1 - pressed });
        }
        self.push(Record::Wire { pin, level: pressed });
        if self.random.percent(40) {
            self.push(Record::Wire { pin, level: 1 - pressed });
        }
    }

    fn press_by_pulse(&mut self) {
        let n = self.timer_at(self.key());
        self.write_timers(ENABLE, 0);
        self.calm();
        let route = u64::from(self.key()) << bits::ROUTE_SHIFT;
        self.write_timers(configuration_of(n), bits::INTERRUPT | route);
        let due = self.mill.board.timers.counter.wrapping_add(1);
        self.write_timers(comparator_of(n), due);
        self.write_timers(ENABLE, 1);
        let ticks = 1 + self.random.below(3) as u32;
        self.push(Record::Advance { ticks });
    }

    /// The key's entry is written as level and asserted, and a delivery step may take it.
    fn level_delivery(&mut self) {
        let vector = self.vector();
        let wire = if self.key_pin().wire { 0 } else { ACTIVE_LOW };
        self.write_key(LEVEL | wire | u32::from(vector));
        self.deliver(1);
        if self.random.percent(60) {
            self.set_key_entry();
        }
    }

    /// Another pin waits for its delivery, often with the key's vector, or for its end.
    fn raise_other(&mut self) {
        let pin = any_pin(&mut self.random);
        if pin == self.key() {
            return;
        }
        let vector = if self.random.percent(40) { self.key_pin().vector() } else { self.vector() };
        let word = low_word(&mut self.random, vector) & !(MASK | ACTIVE_LOW | 0x700);
        self.push(Record::Wire { pin, level: 0 });
        self.write_index(0x10 + 2 * u64::from(pin), u64::from(word));
        self.push(Record::Wire { pin, level: 1 });
        if self.random.percent(35) {
            self.deliver(1);
        }
    }
}
