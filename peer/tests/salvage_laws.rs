//! What K12 says of every salvage, on random damaged logs.
#![allow(missing_docs)]

use std::ops::Range;

use peer::generate::{damaged_log, short_damaged_log, Damage, Sort};
use peer::log::{records_of, replay_from_reset, whole_record};
use peer::random::Random;
use peer::salvage::Salvage;
use peer::shrink::shrink_bytes;

/// Many short logs of each sort, and a few long ones.
fn logs() -> impl Iterator<Item = (Damage, Vec<u8>)> {
    let mut random = Random::new(12);
    let long = (0..18).map(|number| (Damage::in_turn(number), number));
    let long = long.map(|(damage, number)| (damage, damaged_log(damage, 12, number)));
    let short = (0..6_000).map(Damage::in_turn);
    short.map(move |damage| (damage, short_damaged_log(damage, &mut random))).chain(long)
}

/// The sentence, word for word: "from the left, where a whole record with a good mark, known kind and full body
/// stands, keep it and go on after it; otherwise skip one byte".
fn by_the_sentence(log: &[u8]) -> (Vec<Range<usize>>, Vec<usize>) {
    let (mut kept, mut skipped) = (Vec::new(), Vec::new());
    let mut place = 0;
    while place < log.len() {
        let body = match log[place..] {
            [0x7E, 0xB5, 1 | 5, ..] => Some(4),
            [0x7E, 0xB5, 2, ..] => Some(12),
            [0x7E, 0xB5, 3, ..] => Some(2),
            [0x7E, 0xB5, 4, ..] => Some(1),
            [0x7E, 0xB5, 6, ..] => Some(0),
            _ => None,
        };
        match body {
            Some(body) if place + 3 + body <= log.len() => {
                kept.push(place..place + 3 + body);
                place += 3 + body;
            }
            _ => {
                skipped.push(place);
                place += 1;
            }
        }
    }
    (kept, skipped)
}

#[test]
fn a_salvage_is_what_the_sentence_says() {
    for (damage, log) in logs() {
        let salvage = Salvage::of(&log);
        let (kept, skipped) = by_the_sentence(&log);
        assert_eq!(salvage.kept, kept, "{damage:?} {log:02X?}");
        let bytes: Vec<usize> = salvage.skipped.iter().cloned().flatten().collect();
        assert_eq!(bytes, skipped, "{damage:?} {log:02X?}");
    }
}

#[test]
fn kept_and_skipped_cover_the_log_each_byte_in_one_of_them() {
    for (_, log) in logs() {
        let salvage = Salvage::of(&log);
        let mut spans = [&salvage.kept[..], &salvage.skipped].concat();
        spans.sort_by_key(|span| span.start);
        let mut end = 0;
        for span in spans {
            assert_eq!(span.start, end);
            assert!(!span.is_empty());
            end = span.end;
        }
        assert_eq!(end, log.len());
    }
}

#[test]
fn a_sound_log_comes_out_unchanged_with_an_empty_list() {
    let mut sound = 0;
    for (damage, log) in logs() {
        let (records, stop) = records_of(&log);
        assert!(stop.is_none() || damage != Damage::Sound);
        let salvage = Salvage::of(&log);
        assert_eq!(stop.is_none(), salvage.skipped.is_empty(), "and only a sound one");
        if stop.is_none() {
            sound += 1;
            assert_eq!((salvage.records(), salvage.list()), (log.clone(), Vec::new()));
            assert_eq!(salvage.kept.len(), records.len());
        }
    }
    assert!(sound > 1_000);
}

#[test]
fn the_kept_bytes_are_a_sound_log_and_salvaged_again_the_same() {
    for (_, log) in logs() {
        let salvage = Salvage::of(&log);
        let kept = salvage.records();
        let (records, stop) = records_of(&kept);
        assert_eq!((records.len(), stop), (salvage.kept.len(), None));
        let again = Salvage::of(&kept);
        assert_eq!((again.records(), again.list()), (kept, Vec::new()));
    }
}

#[test]
fn the_kept_bytes_replay_to_their_end() {
    for (_, log) in logs().take(600) {
        let salvage = Salvage::of(&log);
        let text = replay_from_reset(&salvage.records());
        assert_eq!(text.lines().last(), Some(&format!("end {}", salvage.kept.len())[..]));
    }
}

#[test]
fn no_skipped_place_has_a_whole_record_and_no_stretches_touch() {
    for (_, log) in logs() {
        let salvage = Salvage::of(&log);
        for place in salvage.skipped.iter().cloned().flatten() {
            assert_eq!(whole_record(&log[place..]), None, "at {place} of {log:02X?}");
        }
        let touch = |pair: &[Range<usize>]| pair[0].end >= pair[1].start;
        assert!(!salvage.skipped.windows(2).any(touch));
    }
}

#[test]
fn a_log_has_at_most_one_stretch_for_every_four_bytes_begun() {
    for (_, log) in logs() {
        let stretches = Salvage::of(&log).skipped.len();
        assert!(stretches <= log.len().div_ceil(4), "{log:02X?}");
    }
}

#[test]
fn the_seed_and_the_number_decide_a_damaged_log() {
    for &damage in Damage::ALL {
        assert_eq!(damaged_log(damage, 3, 50), damaged_log(damage, 3, 50));
        assert_ne!(damaged_log(damage, 3, 50), damaged_log(damage, 4, 50));
        assert_ne!(damaged_log(damage, 3, 50), damaged_log(damage, 3, 51));
    }
}

#[test]
fn a_difference_is_shrunk_to_the_bytes_that_it_needs() {
    let differs = |log: &[u8]| log.windows(2).any(|pair| pair == [0xB5, 7]);
    let log = [&[3; 500][..], &[0x7E, 0xB5, 7, 0x7E], &[5; 300]].concat();
    assert_eq!(shrink_bytes(&log, 8_000_000, differs), [0xB5, 7]);
    assert_eq!(shrink_bytes(&[3; 9], 8_000_000, |log| log.len() > 3), [0; 4]);
    assert_eq!(shrink_bytes(&log, 0, differs), log, "with no effort");
}
