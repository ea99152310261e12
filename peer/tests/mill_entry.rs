//! The mill's lent entry: its bytes, its kinds and numbers, and what isn't well formed.
#![allow(missing_docs)]

mod common;
use common::mill::{Shop, KEY, VECTOR};
use peer::abi::mill::{kind, Asked, Mill, MillCall, Screen};
use peer::abi::{Call, Reply};
use peer::mill;
use peer::sequence::mill::{broken, Kind, Maker};

fn lent(shop: &Shop) -> Mill {
    Mill::from(&shop.0)
}

fn call(mill: &mut Mill, kind: u64, a: u64) -> Reply {
    MillCall { kind, numbers: [a, 7, 7, 7] }.answer(mill)
}

fn number(number: u32) -> Reply {
    Reply { number, ..Reply::default() }
}

#[test]
fn the_screen_as_numbers() {
    let untold = Screen { told: 0, pin: 0, word: 0, vector: 0 };
    assert_eq!(lent(&Shop::new()).screen, untold);
    let screens = Shop::in_each_word().map(|shop| lent(&shop).screen);
    let wanted = [(0, 0), (1, 0), (2, 0x41), (3, 0x41)];
    for (screen, (word, vector)) in screens.iter().zip(wanted) {
        assert_eq!(*screen, Screen { told: 1, pin: 5, word, vector });
    }
}

#[test]
fn the_screen_lies_behind_the_board_without_padding() {
    assert_eq!(std::mem::offset_of!(Mill, screen), 304);
    let offsets = [
        std::mem::offset_of!(Screen, told),
        std::mem::offset_of!(Screen, pin),
        std::mem::offset_of!(Screen, word),
        std::mem::offset_of!(Screen, vector),
    ];
    assert_eq!(offsets, [0, 2, 4, 6]);
    assert_eq!((size_of::<Mill>(), align_of::<Mill>()), (312, 8));
}

#[test]
fn every_lent_mill_has_its_state() {
    for shop in Shop::in_each_word().iter().chain([&Shop::new()]) {
        assert_eq!(lent(shop).model(), Some(shop.0));
    }
}

#[test]
fn the_kinds_by_their_numbers() {
    let mut mill = Mill::from(&mill::Mill::RESET);
    let mut numbers = |kind, numbers| MillCall { kind, numbers }.answer(&mut mill);
    let done = Reply::default();
    // Entry 5's low word through index and data window, then the telling.
    assert_eq!(numbers(2, [0, 4, 0x00, 0x1A]), done);
    assert_eq!(numbers(2, [0, 4, 0x10, 0x41]), done);
    assert_eq!(numbers(8, [5, 9, 9, 9]), done);
    assert_eq!(numbers(3, [5, 1, 9, 9]), done);
    // Bit 12 reads 1: the pin is eligible.
    assert_eq!(numbers(1, [0, 4, 0x10, 9]), Reply { value: 0x1041, ..done });
    let delivery = Reply { delivered: 1, pin: 5, vector: 0x41, ..done };
    assert_eq!(numbers(6, [9, 9, 9, 9]), delivery);
    assert_eq!(numbers(4, [0x41, 9, 9, 9]), done);
    assert_eq!(numbers(9, [9, 9, 9, 9]), done);
    assert_eq!(numbers(5, [3, 9, 9, 9]), done);
    assert_eq!(mill.screen, Screen { told: 1, pin: 5, word: 0, vector: 0 });
    assert_eq!(call(&mut mill, 7, 9), done);
    assert_eq!(mill, Mill::from(&mill::Mill::RESET));
}

#[test]
fn an_end_takes_the_low_eight_bits() {
    for high in [0x100, 0x8000_0000, 1 << 32, u64::MAX << 8] {
        let mut mill = lent(&Shop::taken());
        assert_eq!(call(&mut mill, kind::END, high | 0x42), Reply::default());
        assert_eq!(mill.screen.word, 2, "0x42 isn't the vector");
        assert_eq!(call(&mut mill, kind::END, high | u64::from(VECTOR)), Reply::default());
        assert_eq!(mill.screen.word, 3);
    }
}

#[test]
fn an_advance_takes_the_low_32_bits() {
    let mut shop = Shop::running();
    shop.arm(common::INTERRUPT);
    let mut mill = lent(&shop);
    // No tick at all, then one, in which timer 0 fires.
    assert_eq!(call(&mut mill, kind::ADVANCE, 1 << 32), Reply::default());
    assert_eq!((mill.board.timers.counter, mill.screen.word), (0, 0));
    let fired = Reply { fired: [1, 0, 0], ..Reply::default() };
    assert_eq!(call(&mut mill, kind::ADVANCE, 5 << 32 | 1), fired);
    assert_eq!((mill.board.timers.counter, mill.screen.word), (1, 1));
}

#[test]
fn a_told_pin_is_cut_by_nothing() {
    let mut mill = lent(&Shop::paused());
    let before = mill;
    for pin in [24, 0x105, 0x1_0005, 1 << 32 | 5, 1 << 63 | 5, u64::MAX] {
        assert_eq!(call(&mut mill, kind::TELL, pin), number(3), "{pin:#x}");
        assert_eq!(mill, before);
    }
}

#[test]
fn an_entry_that_is_level_is_14() {
    let mut shop = Shop::paused();
    shop.set_low(8, 0x8050);
    let mut mill = lent(&shop);
    let before = mill;
    assert_eq!(call(&mut mill, kind::TELL, 8), number(14));
    assert_eq!(mill, before);
}

#[test]
fn an_unknown_kind_is_7_and_changes_nothing() {
    for shop in Shop::in_each_word() {
        let mut mill = lent(&shop);
        let before = mill;
        for kind in [0, 10, 11, 0x101, 0x107, 1 << 32 | 7, 1 << 63 | 8, u64::MAX] {
            assert_eq!(call(&mut mill, kind, KEY), number(7), "{kind:#x}");
            assert_eq!(mill, before);
        }
    }
}

#[test]
fn a_screen_that_is_not_well_formed_is_5_until_a_reset() {
    // Pin 5 holds an edge; told, pin, word and vector as below.
    let base = lent(&Shop::asked());
    let screens = [
        (2, 5, 1, 0),
        (0xFFFF, 5, 1, 0),
        (0, 5, 0, 0),
        (0, 0, 1, 0),
        (0, 0, 0, 1),
        (1, 24, 1, 0),
        (1, 0x105, 1, 0),
        (1, 5, 4, 0),
        (1, 5, 0x101, 0),
        (1, 5, 2, 0x100),
        (1, 5, 3, 0xFFFF),
        (1, 5, 1, 0x41),
        (1, 4, 0, 0x41),
        (1, 5, 0, 0),
    ];
    for (told, pin, word, vector) in screens {
        let ill = Mill { screen: Screen { told, pin, word, vector }, ..base };
        assert!(!ill.is_well_formed(), "{:?}", ill.screen);
        for kind in (0..=10).filter(|&kind| kind != kind::RESET) {
            let mut mill = ill;
            assert_eq!(call(&mut mill, kind, 24), number(5), "kind {kind}, {:?}", ill.screen);
            assert_eq!(mill, ill);
        }
        let mut mill = ill;
        assert_eq!(call(&mut mill, kind::RESET, 24), Reply::default());
        assert_eq!(mill, Mill::from(&mill::Mill::RESET));
    }
    // Well formed beside them: asked with its edge or without one, any vector in taken and paused.
    for (pin, word, vector) in [(5, 1, 0), (4, 1, 0), (4, 0, 0), (5, 2, 0), (23, 3, 0xFF)] {
        let mill = Mill { screen: Screen { told: 1, pin, word, vector }, ..base };
        assert!(mill.is_well_formed(), "{:?}", mill.screen);
    }
}

#[test]
fn a_clause_list_and_the_model_agree() {
    let mut maker = Maker::new(9);
    for sequence in (0..20).flat_map(|_| maker.round()) {
        let by_clauses =
            sequence.start.board.is_well_formed() && broken(&sequence.start).is_empty();
        assert_eq!(sequence.start.is_well_formed(), by_clauses, "{:?}", sequence.start.screen);
        let ill = matches!(sequence.kind, Kind::Board | Kind::Screen | Kind::Memory);
        assert!(!ill || !sequence.start.is_well_formed());
    }
}

#[test]
fn a_call_and_its_numbers_are_the_same() {
    let asked = [
        Asked::Board(Call::Read { window: 1, width: 2, offset: 3 }),
        Asked::Board(Call::Write { window: 1, width: 2, offset: 3, value: 4 }),
        Asked::Board(Call::Wire { pin: 1, level: 2 }),
        Asked::Board(Call::End { vector: 255 }),
        Asked::Board(Call::Advance { ticks: u32::MAX }),
        Asked::Board(Call::Deliver),
        Asked::Board(Call::Reset),
        Asked::Tell(u64::MAX),
        Asked::Resume,
        Asked::Unknown,
    ];
    for asked in asked {
        assert_eq!(MillCall::new(asked).asked(), asked);
    }
}
