//! Wrong settings differ from the right ones by their mistake alone, and the random records and numbers are what they
//! are said to be.
#![allow(missing_docs)]

use peer::abi::settings::Resettable;
use peer::board::Board;
use peer::fuzz::{Case, Replay, Screen, SettingsFile, Subject, Twin, FIXED_SEED};
use peer::generate::{given_record, made_of, random_settings, refused_record, shown_record};
use peer::generate::{Given, Profile, Sort};
use peer::log::chosen_settings;
use peer::random::Random;
use peer::sequence::settings::Maker;
use peer::sequence::{self, broken, SETTINGS_CLAUSES};
use peer::settings::Settings;
use peer::settings_file::number_of;
use peer::wrong::settings::{make, reset_board, reset_mill, show, write, SettingsMistake};

fn cases(count: u64) -> impl Iterator<Item = Case> {
    (0..count).map(|number| SettingsFile::case(Given::in_turn(number), FIXED_SEED, number))
}

fn without(place: char) -> impl Iterator<Item = SettingsMistake> {
    let all = SettingsMistake::ALL.iter().copied();
    all.filter(move |mistake| !mistake.places().contains(place))
}

/// It is a mistake of the reader or of the record, which every place may show, if rarely.
fn is_of_record(mistake: SettingsMistake) -> bool {
    mistake.places().contains(['s', 'l']) && mistake.places().contains('b')
}

#[test]
fn what_shows_elsewhere_prints_the_right_text() {
    for case in cases(150) {
        match &case.numbers {
            None => {
                for mistake in without('s') {
                    assert_eq!(
                        show(&case.log, mistake),
                        SettingsFile::output(&case),
                        "{mistake:?}"
                    );
                }
            }
            Some(words) => {
                for mistake in without('m').filter(|&mistake| !is_of_record(mistake)) {
                    let output = make(words, mistake);
                    assert_eq!(output.text, SettingsFile::output(&case), "{mistake:?}");
                    assert_eq!(output.made, SettingsFile::made(&case), "{mistake:?}");
                }
            }
        }
    }
}

#[test]
fn what_shows_elsewhere_gives_the_right_replies() {
    let mut maker = Maker::new(5);
    for _ in 0..4 {
        for call in maker.boards() {
            for mistake in without('b') {
                let mut lent = call.before;
                let reply = reset_board(&mut lent, &call.record, mistake);
                assert_eq!((reply, lent), call.right(), "{mistake:?}");
            }
        }
        for call in maker.mills() {
            for mistake in without('k') {
                let mut lent = call.before;
                let reply = reset_mill(&mut lent, &call.record, mistake);
                assert_eq!((reply, lent), call.right(), "{mistake:?}");
            }
        }
        for call in maker.writings() {
            for mistake in without('w').filter(|&mistake| !is_of_record(mistake)) {
                let given = call.ask(|settings, buffer| write(settings, buffer, mistake));
                assert_eq!(given, call.right(), "{mistake:?}");
            }
        }
    }
}

#[test]
fn the_given_records_and_numbers_are_what_they_are_said_to_be() {
    let mut good = 0;
    for number in 0..600 {
        good += u64::from(Settings::of_record(&shown_record(3, number)).is_ok());
        assert!(Settings::of_record(&refused_record(3, number)).is_err());
        assert!(made_of(3, number).iter().all(|word| number_of(word).is_some()));
    }
    assert!((500..600).contains(&good), "{good} of 600 are good");
    assert_ne!(shown_record(3, 500), shown_record(4, 500));
    assert_ne!(made_of(3, 500), made_of(4, 500));
}

#[test]
fn random_settings_are_in_range_and_at_the_ends_of_it() {
    let mut random = Random::new(61);
    let all: Vec<Settings> = (0..2_000).map(|_| random_settings(&mut random)).collect();
    assert!(all.iter().all(Settings::are_in_range));
    let often = |is_it: fn(&Settings) -> bool| all.iter().filter(|it| is_it(it)).count() > 100;
    assert!(often(|it| it.period == 1) && often(|it| it.period == 100_000_000));
    assert!(often(|it| it.id == 15) && often(|it| it.id == 0));
    assert!(often(|it| it.masks.iter().any(|mask| mask.is_power_of_two())));
    assert!(often(|it| it.masks.contains(&(1 << 23))));
    assert!(often(|it| it.masks.iter().all(|mask| mask & 1 == 0)));
    assert!(often(|it| it.masks[0] & it.masks[1] == 0));
}

#[test]
fn two_in_five_logs_have_a_record_and_some_of_these_are_broken() {
    type Make = fn(Profile, u64, u64) -> Case;
    for make in [Replay::case as Make, Twin::case, Screen::case] {
        let case = |number| make(Profile::in_turn(number), FIXED_SEED, number).settings;
        let records: Vec<Vec<u8>> = (0..600).filter_map(case).collect();
        let broken = records.iter().filter(|it| Settings::of_record(it).is_err()).count();
        assert!((200..280).contains(&records.len()), "{} of 600", records.len());
        assert!((10..50).contains(&broken), "{broken} of {}", records.len());
    }
    let mut random = Random::new(62);
    assert_eq!(given_record(0, &mut random), None);
    assert!(given_record(100, &mut random).is_some());
}

#[test]
fn a_log_is_made_for_its_settings() {
    // On the board that it was made for, most written routes are inside the masks; a log for other settings has many
    // that aren't, and the text shows it.
    let mut differ = 0;
    for number in 0..120 {
        let case = Replay::case(Profile::in_turn(number), 7, number);
        let usual = Case { settings: None, ..case.clone() };
        let good = chosen_settings(case.settings.as_deref());
        let has_settings = good.is_ok_and(|settings| settings != Settings::USUAL);
        differ += u64::from(has_settings && Replay::output(&case) != Replay::output(&usual));
    }
    assert!(differ > 30, "{differ} of 120 logs show their settings");
}

#[test]
fn the_sequences_have_boards_with_settings_and_break_each_clause_of_theirs() {
    let mut maker = sequence::Maker::new(FIXED_SEED);
    let mut counts = [0; SETTINGS_CLAUSES.len()];
    let mut with_settings = 0;
    for sequence in (0..20).flat_map(|_| maker.round()) {
        if let [name] = broken(&sequence.start)[..] {
            let clauses = SETTINGS_CLAUSES.iter().zip(&mut counts);
            clauses.for_each(|(clause, count)| *count += u64::from(*clause == name));
        }
        if sequence.kind == sequence::Kind::Settings {
            with_settings += 1;
            let model = sequence.start.model().expect("a reset board");
            let Settings { vendor, period, masks, .. } = settings_of(&model);
            let id = sequence.start.controller.id as u8;
            let reset = peer::abi::Board::reset_to(&Settings { vendor, period, masks, id });
            assert_eq!(sequence.start, reset);
        }
    }
    assert!(with_settings >= 40 && counts.iter().all(|&count| count >= 20), "{counts:?}");
}

fn settings_of(board: &Board) -> Settings {
    Settings {
        vendor: board.timers.vendor,
        period: board.timers.tick_period,
        masks: board.timers.timer.map(|timer| timer.mask),
        id: board.controller.id as u8,
    }
}
