//! The salvage of a damaged log: what is kept and listed, and when it is refused.
use nataqvoju::{salvage, Refusal, Salvaged};

const DELIVER: [u8; 3] = [0x7E, 0xB5, 6];
/// A stray byte, a record that has the bytes of another in its body, one whose torn end takes the first byte of a
/// damaged one, and a last one.
const LOG: [u8; 18] = [0xFF, 0x7E, 0xB5, 5, 0x7E, 0xB5, 6, 0, 0x7E, 0xB5, 3, 14, 0x7E, 0xB4, 6, 0x7E, 0xB5, 6];
const KEPT: [u8; 15] = [0x7E, 0xB5, 5, 0x7E, 0xB5, 6, 0, 0x7E, 0xB5, 3, 14, 0x7E, 0x7E, 0xB5, 6];
const LIST: [u64; 4] = [0, 1, 13, 2];

fn done(records: u64, bytes: u64, stretches: u64) -> Salvaged {
    Salvaged { number: 0, records, bytes, stretches }
}

const REFUSED: Salvaged = Salvaged { number: 12, records: 0, bytes: 0, stretches: 0 };

#[test]
fn every_room() {
    for kept_length in 0..=KEPT.len() + 2 {
        for list_length in 0..=LIST.len() + 3 {
            let (mut kept, mut list) = ([0x5A; 20], [0x5A5A; 10]);
            let salvaged = salvage(&LOG, &mut kept[1..1 + kept_length], &mut list[1..1 + list_length]);
            let (mut kept_wanted, mut list_wanted) = ([0x5A; 20], [0x5A5A; 10]);
            if kept_length < KEPT.len() || list_length < LIST.len() {
                assert_eq!(salvaged, REFUSED);
                assert_eq!(salvaged.done(), Err(Refusal::Room));
            } else {
                assert_eq!(salvaged, done(3, 15, 2));
                assert_eq!(salvaged.done(), Ok(salvaged));
                kept_wanted[1..16].copy_from_slice(&KEPT);
                list_wanted[1..5].copy_from_slice(&LIST);
            }
            assert_eq!((kept, list), (kept_wanted, list_wanted), "room for {kept_length} and {list_length}");
        }
    }
}

#[test]
fn an_empty_log_needs_no_room() {
    assert_eq!(salvage(&[], &mut [], &mut []), done(0, 0, 0));
    let (mut kept, mut list) = ([1; 3], [1; 3]);
    assert_eq!(salvage(&[], &mut kept, &mut list), done(0, 0, 0));
    assert_eq!((kept, list), ([1; 3], [1; 3]));
}

#[test]
fn a_sound_log_needs_no_list() {
    let log = DELIVER.repeat(5);
    let mut kept = [0; 15];
    assert_eq!(salvage(&log, &mut kept, &mut []), done(5, 15, 0));
    assert_eq!(kept[..], log[..]);
    assert_eq!(salvage(&log, &mut kept[..14], &mut []), REFUSED);
}

#[test]
fn nothing_but_damage_needs_no_room_for_records() {
    let mut list = [1; 3];
    assert_eq!(salvage(&[0x7E; 9], &mut [], &mut list[..1]), REFUSED);
    assert_eq!(list, [1; 3]);
    assert_eq!(salvage(&[0x7E; 9], &mut [], &mut list), done(0, 0, 1));
    assert_eq!(list, [0, 9, 1]);
}

#[test]
fn the_most_that_a_log_can_need() {
    let mut log = vec![0];
    for n in 1..=4 {
        log.extend(DELIVER);
        log.push(0);
        let (mut kept, mut list) = (vec![0; log.len()], vec![0; 2 * ((log.len() + 3) / 4)]);
        assert_eq!(salvage(&log, &mut kept, &mut list), done(n, 3 * n, n + 1));
        assert_eq!(list, (0..=n).flat_map(|at| [4 * at, 1]).collect::<Vec<_>>());
    }
}

#[test]
fn a_refusal_has_its_number_and_its_words() {
    assert_eq!(Refusal::Room.number(), 12);
    assert_eq!(Refusal::Room.to_string(), "the records or the list don't fit");
}
