//! Calls by short names, each of which has to be done.
#![allow(dead_code, missing_docs)] // each test file uses some of them

pub mod mill;
pub mod records;

use peer::board::{Board, Calls, CONTROLLER, TIMER_BLOCK};
use peer::controller::{DATA, INDEX};
use peer::timer::bits;
use peer::timers::{comparator_of, configuration_of, COUNTER, ENABLE, STATUS};

// a timer's configuration
pub const LEVEL_TYPE: u64 = 1 << 1;
pub const INTERRUPT: u64 = 1 << 2;
pub const PERIODIC: u64 = 1 << 3;
pub const SET: u64 = 1 << 6;
pub const NARROW: u64 = 1 << 8;
/// What a timer's configuration reads after a reset.
pub const FIXED: u64 = 0x00FF_FFFF_0000_0030;

/// An edge entry with vector 0x30, and an active-low one.
pub const EDGE: u64 = 0x30;
pub const EDGE_LOW: u64 = 0x2030;

pub struct Desk(pub Board);

impl Desk {
    pub fn new() -> Desk {
        Desk(Board::RESET)
    }

    pub fn read_index(&mut self, index: u64) -> u64 {
        self.0.write(CONTROLLER, 4, INDEX, index).unwrap();
        self.0.read(CONTROLLER, 4, DATA).unwrap()
    }

    pub fn write_index(&mut self, index: u64, value: u64) {
        self.0.write(CONTROLLER, 4, INDEX, index).unwrap();
        self.0.write(CONTROLLER, 4, DATA, value).unwrap();
    }

    pub fn low(&mut self, pin: u64) -> u64 {
        self.read_index(0x10 + 2 * pin)
    }

    pub fn set_low(&mut self, pin: u64, word: u64) {
        self.write_index(0x10 + 2 * pin, word);
    }

    pub fn set_high(&mut self, pin: u64, word: u64) {
        self.write_index(0x11 + 2 * pin, word);
    }

    pub fn wire(&mut self, pin: u64, level: u64) {
        self.0.wire(pin, level).unwrap();
    }

    pub fn end(&mut self, vector: u8) {
        self.0.end(vector).unwrap();
    }

    /// The delivered pin and vector.
    pub fn deliver(&mut self) -> Option<(u8, u8)> {
        self.0.deliver().unwrap().map(|to| (to.pin, to.vector))
    }

    pub fn get(&mut self, offset: u64) -> u64 {
        self.0.read(TIMER_BLOCK, 8, offset).unwrap()
    }

    pub fn set(&mut self, offset: u64, value: u64) {
        self.0.write(TIMER_BLOCK, 8, offset, value).unwrap();
    }

    /// A 4-byte read.
    pub fn get_half(&mut self, offset: u64) -> u64 {
        self.0.read(TIMER_BLOCK, 4, offset).unwrap()
    }

    /// A 4-byte write.
    pub fn set_half(&mut self, offset: u64, value: u64) {
        self.0.write(TIMER_BLOCK, 4, offset, value).unwrap();
    }

    pub fn enable(&mut self) {
        self.set(ENABLE, 1);
    }

    pub fn disable(&mut self) {
        self.set(ENABLE, 0);
    }

    pub fn set_counter(&mut self, value: u64) {
        self.set(COUNTER, value);
    }

    pub fn counter(&mut self) -> u64 {
        self.get(COUNTER)
    }

    pub fn configure(&mut self, timer: usize, value: u64) {
        self.set(configuration_of(timer), value);
    }

    pub fn configuration(&mut self, timer: usize) -> u64 {
        self.get(configuration_of(timer))
    }

    pub fn set_comparator(&mut self, timer: usize, value: u64) {
        self.set(comparator_of(timer), value);
    }

    pub fn comparator(&mut self, timer: usize) -> u64 {
        self.get(comparator_of(timer))
    }

    pub fn status(&mut self) -> u64 {
        self.get(STATUS)
    }

    pub fn clear(&mut self, bits: u64) {
        self.set(STATUS, bits);
    }

    /// Timer 0 with this configuration, comparator and period; bit 6 as in the configuration.
    pub fn with_numbers(configuration: u64, comparator: u64, period: u64) -> Desk {
        let mut desk = Desk::new();
        desk.configure(0, configuration & bits::NARROW | bits::PERIODIC | bits::SET_COMPARATOR);
        desk.set_comparator(0, comparator);
        desk.set_comparator(0, period);
        desk.configure(0, configuration);
        desk
    }

    /// Comparator, period and bit 6 of timer 0.
    pub fn numbers(&self) -> (u64, u64, bool) {
        let timer = &self.0.timers.timer[0];
        (timer.comparator, timer.period, timer.set_comparator)
    }

    pub fn advance(&mut self, ticks: u32) -> [u32; 3] {
        self.0.advance(ticks).unwrap()
    }

    pub fn route(pin: u64) -> u64 {
        pin << 9
    }
}
