//! Wrong salvages differ from the right one by their mistake alone.
#![allow(missing_docs)]

use peer::abi::salvage::Salvaged;
use peer::fuzz::FIXED_SEED;
use peer::generate::{short_damaged_log, Damage, Sort};
use peer::random::Random;
use peer::salvage::salvage;
use peer::sequence::salvage::{Lending, Maker, Returned};
use peer::wrong::salvage::{answer, output, SalvageMistake};

fn logs() -> Vec<Vec<u8>> {
    let mut random = Random::new(2);
    (0..300).map(|number| short_damaged_log(Damage::in_turn(number), &mut random)).collect()
}

fn calls() -> Vec<Lending> {
    let mut maker = Maker::new(FIXED_SEED);
    (0..4).flat_map(|_| maker.round()).filter(|lending| lending.log.len() < 60_000).collect()
}

fn wrong(lending: &Lending, mistake: SalvageMistake) -> Returned {
    lending.ask(|log, kept, list| answer(log, kept, list, mistake))
}

#[test]
fn what_shows_in_calls_alone_prints_the_right_text() {
    for log in logs() {
        let right = salvage(&log);
        for &mistake in SalvageMistake::ALL.iter().filter(|mistake| !mistake.shows_in_logs()) {
            assert_eq!(output(&log, mistake), right, "{mistake:?}");
        }
    }
}

#[test]
fn what_shows_in_logs_alone_gives_the_right_answers() {
    for lending in calls() {
        let right = lending.right();
        for &mistake in SalvageMistake::ALL.iter().filter(|mistake| !mistake.shows_in_calls()) {
            assert!(wrong(&lending, mistake) == right, "{mistake:?}");
        }
    }
}

#[test]
fn mistakes_at_one_length_show_there_alone() {
    // Short logs are neither above a limit nor so long that an offset needs more bits.
    let of_length = [
        SalvageMistake::LimitOfReplay,
        SalvageMistake::LimitTooLow,
        SalvageMistake::LimitTooHigh,
        SalvageMistake::OffsetSixteenBits,
        SalvageMistake::LengthSixteenBits,
    ];
    for log in logs() {
        for mistake in of_length {
            assert_eq!(output(&log, mistake), salvage(&log), "{mistake:?}");
        }
    }
}

#[test]
fn mistakes_about_what_is_refused_show_in_refused_calls_alone() {
    use SalvageMistake::*;
    let of_refused = [
        RoomIsShort,
        RecordsPartly,
        BytesPartly,
        ListPartly,
        RecordsWritten,
        ListWritten,
        RecordsCleared,
        ListCleared,
        RecordsCounted,
        BytesCounted,
        StretchesCounted,
    ];
    let refused = Salvaged { number: 12, ..Salvaged::default() };
    for lending in calls() {
        let right = lending.right();
        for mistake in of_refused {
            assert!(right.answer == refused || wrong(&lending, mistake) == right, "{mistake:?}");
        }
    }
}
