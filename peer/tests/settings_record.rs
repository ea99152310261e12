//! The settings record (K6): what the reader takes, what it refuses and in which order, and what the writer does.
#![allow(missing_docs)]

use peer::board::Refusal;
use peer::generate::{broken_record, flawed_record, random_settings, Flaw};
use peer::random::Random;
use peer::settings::Settings;

/// Document 01's settings as a record: mark, form, then vendor, period, three masks and id, little-endian.
const USUAL: [u8; 22] = [
    0x5A, 0xC3, 1, 0x86, 0x80, 0x00, 0xE1, 0xF5, 0x05, 0xFF, 0xFF, 0xFF, 0x00, 0xFF, 0xFF, 0xFF,
    0x00, 0xFF, 0xFF, 0xFF, 0x00, 0,
];

/// Others: vendor 0x1022, period 69,841,279, pins 2, 8 and 20 to 23, id 9.
const OTHER: [u8; 22] = [
    0x5A, 0xC3, 1, 0x22, 0x10, 0x7F, 0xB1, 0x29, 0x04, 0x04, 0x00, 0x00, 0x00, 0x00, 0x01, 0x00,
    0x00, 0x00, 0x00, 0xF0, 0x00, 9,
];

fn other() -> Settings {
    Settings { vendor: 0x1022, period: 69_841_279, masks: [1 << 2, 1 << 8, 0xF0_0000], id: 9 }
}

fn with(record: [u8; 22], place: usize, bytes: &[u8]) -> Vec<u8> {
    let mut record = record.to_vec();
    record[place..place + bytes.len()].copy_from_slice(bytes);
    record
}

/// The reader's answer; refused it gives document 01's settings.
fn read(record: &[u8]) -> Result<Settings, Refusal> {
    match Settings::read(record) {
        (Ok(()), settings) => Ok(settings),
        (Err(refusal), settings) => {
            assert_eq!(settings, Settings::USUAL, "the reader then gives 01's settings");
            Err(refusal)
        }
    }
}

fn write(settings: &Settings, length: usize) -> (Result<(), Refusal>, Vec<u8>) {
    let mut buffer = vec![0xEE; length];
    (settings.write(&mut buffer), buffer)
}

#[test]
fn the_fields_by_their_places() {
    assert_eq!(read(&USUAL), Ok(Settings::USUAL));
    assert_eq!(read(&OTHER), Ok(other()));
    assert_eq!(Settings::USUAL.record(), USUAL);
    assert_eq!(other().record(), OTHER);
}

#[test]
fn documents_01s_settings() {
    let usual = Settings { vendor: 0x8086, period: 100_000_000, masks: [0x00FF_FFFF; 3], id: 0 };
    assert_eq!(Settings::USUAL, usual);
    assert!(usual.are_in_range());
}

#[test]
fn eight_for_any_length_but_22() {
    let long = [OTHER, OTHER].concat();
    for length in (0..=44).filter(|&length| length != 22) {
        assert_eq!(read(&long[..length]), Err(Refusal::Short), "{length} bytes");
    }
    let mut huge = OTHER.to_vec();
    for length in [22 + 256, 22 + 65_536] {
        huge.resize(length, 0);
        assert_eq!(read(&huge), Err(Refusal::Short), "{length} bytes");
    }
}

#[test]
fn six_for_the_mark() {
    for mark in [[0x5A, 0xC2], [0x5B, 0xC3], [0xC3, 0x5A], [0x7E, 0xB5], [0, 0], [0x5A, 0x5A]] {
        assert_eq!(read(&with(OTHER, 0, &mark)), Err(Refusal::Mark), "{mark:02X?}");
    }
}

#[test]
fn nine_for_an_unknown_form() {
    for form in (0..=255).filter(|&form| form != 1) {
        assert_eq!(read(&with(OTHER, 2, &[form])), Err(Refusal::Form), "form {form}");
    }
}

#[test]
fn ten_for_a_period_out_of_range() {
    for (period, is_good) in [
        (0, false),
        (1, true),
        (2, true),
        (100_000_000, true),
        (100_000_001, false),
        (1 << 27, false),
        (u32::MAX, false),
    ] {
        let answer = read(&with(OTHER, 5, &u32::to_le_bytes(period)));
        assert_eq!(
            answer,
            if is_good { Ok(Settings { period, ..other() }) } else { Err(Refusal::Range) }
        );
    }
}

#[test]
fn ten_for_a_mask_of_0_or_2_to_the_24_and_more() {
    for n in 0..3 {
        let read = |mask: u32| read(&with(OTHER, 9 + 4 * n, &mask.to_le_bytes()));
        for mask in [0, 1 << 24, 0x0100_0001, 1 << 31, u32::MAX] {
            assert_eq!(read(mask), Err(Refusal::Range), "mask {n} of {mask:#x}");
        }
        for mask in [1, 1 << 23, 0x00FF_FFFF, 0x0080_0001] {
            assert_eq!(read(mask).map(|settings| settings.masks[n]), Ok(mask));
        }
    }
}

#[test]
fn ten_for_an_id_above_15() {
    for id in 0..=255 {
        let answer = read(&with(OTHER, 21, &[id]));
        assert_eq!(
            answer,
            if id <= 15 { Ok(Settings { id, ..other() }) } else { Err(Refusal::Range) }
        );
    }
}

#[test]
fn every_vendor_is_taken() {
    for vendor in [0, 1, 0x8086, 0xFFFF] {
        let answer = read(&with(OTHER, 3, &u16::to_le_bytes(vendor)));
        assert_eq!(answer, Ok(Settings { vendor, ..other() }));
    }
}

#[test]
fn the_refusals_in_order() {
    // Length, mark, form and range: each with every choice of the later ones.
    let mut random = Random::new(31);
    let numbers = [Refusal::Short, Refusal::Mark, Refusal::Form, Refusal::Range];
    for flaws in 1..16u32 {
        let has = |flaw: &Flaw| flaws >> *flaw as u32 & 1 != 0;
        let chosen: Vec<Flaw> = Flaw::ALL.into_iter().filter(has).collect();
        for _ in 0..100 {
            let record = flawed_record(&chosen, &mut random);
            let wanted = numbers[flaws.trailing_zeros() as usize];
            assert_eq!(read(&record), Err(wanted), "{chosen:?}: {record:02X?}");
        }
    }
}

#[test]
fn by_hand_a_record_with_everything_wrong() {
    let mut record = with(OTHER, 0, &[0x5A, 0xC2, 2]);
    record[21] = 16;
    assert_eq!(read(&record[..21]), Err(Refusal::Short));
    assert_eq!(read(&record), Err(Refusal::Mark));
    record[1] = 0xC3;
    assert_eq!(read(&record), Err(Refusal::Form));
    record[2] = 1;
    assert_eq!(read(&record), Err(Refusal::Range));
    record[21] = 15;
    assert_eq!(read(&record), Ok(Settings { id: 15, ..other() }));
}

#[test]
fn reading_what_was_written_gives_the_same_settings() {
    let mut random = Random::new(32);
    for _ in 0..5_000 {
        let settings = random_settings(&mut random);
        assert!(settings.are_in_range());
        let (answer, buffer) = write(&settings, 22);
        assert_eq!((answer, read(&buffer)), (Ok(()), Ok(settings)));
    }
}

#[test]
fn every_accepted_record_is_written_back_byte_for_byte() {
    let mut random = Random::new(33);
    let mut accepted = 0;
    for number in 0..20_000 {
        let mut record = if number % 4 == 0 {
            broken_record(&mut random)
        } else {
            random_settings(&mut random).record().to_vec()
        };
        if let Some(byte) = record.get_mut(random.below(22) as usize) {
            *byte ^= 1 << random.below(8);
        }
        if let Ok(settings) = read(&record) {
            accepted += 1;
            assert_eq!(write(&settings, 22), (Ok(()), record));
        }
    }
    assert!(accepted > 3_000, "{accepted} accepted");
}

#[test]
fn writing_tests_10_then_8_and_leaves_the_buffer() {
    let ill = [
        Settings { period: 0, ..other() },
        Settings { period: 100_000_001, ..other() },
        Settings { masks: [1, 0, 1], ..other() },
        Settings { masks: [1, 1, 1 << 24], ..other() },
        Settings { id: 16, ..other() },
    ];
    for length in [0, 1, 21, 22, 23, 24, 44, 278] {
        let untouched = vec![0xEE; length];
        for settings in ill {
            assert_eq!(write(&settings, length), (Err(Refusal::Range), untouched.clone()));
        }
        if length != 22 {
            assert_eq!(write(&other(), length), (Err(Refusal::Short), untouched));
        }
    }
    assert_eq!(write(&other(), 22), (Ok(()), OTHER.to_vec()));
}
