//! Calls of a mill by short names, each of which has to be done.

use super::Desk;
use peer::board::{Board, Calls, CONTROLLER, TIMER_BLOCK};
use peer::controller::{DATA, INDEX};
use peer::mill::{Mill, MillCalls, Screen, Stage};
use peer::timers::{comparator_of, configuration_of, ENABLE};

/// The pause key, and its vector unless a test writes another.
pub const KEY: u64 = 5;
pub const VECTOR: u8 = 0x41;

pub struct Shop(pub Mill);

impl Shop {
    pub fn new() -> Shop {
        Shop(Mill::RESET)
    }

    /// The key is an unmasked edge entry, and told.
    pub fn running() -> Shop {
        let mut shop = Shop::new();
        shop.set_low(KEY, VECTOR.into());
        shop.tell(KEY);
        shop
    }

    /// And pressed.
    pub fn asked() -> Shop {
        let mut shop = Shop::running();
        shop.press(KEY);
        shop
    }

    /// And delivered.
    pub fn taken() -> Shop {
        let mut shop = Shop::asked();
        assert_eq!(shop.deliver(), Some((KEY as u8, VECTOR)));
        shop
    }

    /// And ended.
    pub fn paused() -> Shop {
        let mut shop = Shop::taken();
        shop.end(VECTOR);
        shop
    }

    pub fn in_each_word() -> [Shop; 4] {
        [Shop::running(), Shop::asked(), Shop::taken(), Shop::paused()]
    }

    pub fn word(&self) -> &'static str {
        self.0.word()
    }

    pub fn stage(&self) -> Option<Stage> {
        self.0.screen.map(|Screen { stage, .. }| stage)
    }

    pub fn key(&self) -> Option<u8> {
        self.0.screen.map(|Screen { key, .. }| key)
    }

    pub fn board(&self) -> &Board {
        &self.0.board
    }

    pub fn holds_edge(&self, pin: u64) -> bool {
        self.board().controller.pins[pin as usize].held
    }

    pub fn tell(&mut self, pin: u64) {
        self.0.tell(pin).unwrap();
    }

    pub fn resume(&mut self) {
        self.0.resume().unwrap();
    }

    pub fn reset(&mut self) {
        self.0.reset().unwrap();
    }

    pub fn set_low(&mut self, pin: u64, word: u64) {
        self.0.write(CONTROLLER, 4, INDEX, 0x10 + 2 * pin).unwrap();
        self.0.write(CONTROLLER, 4, DATA, word).unwrap();
    }

    pub fn wire(&mut self, pin: u64, level: u64) {
        self.0.wire(pin, level).unwrap();
    }

    /// The wire of an active-high pin goes up, after it was let go.
    pub fn press(&mut self, pin: u64) {
        self.wire(pin, 0);
        self.wire(pin, 1);
    }

    pub fn set(&mut self, offset: u64, value: u64) {
        self.0.write(TIMER_BLOCK, 8, offset, value).unwrap();
    }

    /// Timer 0 fires at the next tick, on the key's wire.
    pub fn arm(&mut self, configuration: u64) {
        self.set(configuration_of(0), configuration | Desk::route(KEY));
        self.set(comparator_of(0), 1);
        self.set(ENABLE, 1);
    }

    pub fn advance(&mut self, ticks: u32) -> [u32; 3] {
        self.0.advance(ticks).unwrap()
    }

    /// The delivered pin and vector.
    pub fn deliver(&mut self) -> Option<(u8, u8)> {
        self.0.deliver().unwrap().map(|to| (to.pin, to.vector))
    }

    pub fn end(&mut self, vector: u8) {
        self.0.end(vector).unwrap();
    }
}
