//! What can happen to a pause screen in a log, and around it in the program.

use super::list::events;
use super::screen_watch::ScreenWatcher;
use super::Counts;
use crate::board::{Board, Refusal};
use crate::generate::Profile;
use crate::log::{records_of, LONGEST};
use crate::mill::{Mill, MillCalls};
use crate::screen::pin_of;
use crate::settings::Settings;

events! {
    ScreenEvent, Profile;
    AskedByWire: "running becomes asked by an outside wire", "vacp";
    AskedByAdvance: "running becomes asked by an advance", "vatp";
    AskedByRegister: "running becomes asked by a timer register write", "vtp";
    TakenByEdge: "asked becomes taken by an edge delivery", "vatcp";
    TakenByLevel: "asked becomes taken by a level delivery", "vcp";
    PausedByEnd: "taken becomes paused", "vcp";
    PausedRewritten: "taken becomes paused: the entry has another vector", "cp";
    PausedFreed: "taken becomes paused: an edge write cleared remote IRR before", "p";
    PausedAfterSecond: "taken becomes paused: delivered again meanwhile", "p";
    RunningMasked: "running: a press on the masked key", "vtcp";
    RunningLevel: "running: the key is delivered as a level pin", "cp";
    RunningOther: "running: another pin holds an edge", "vatcp";
    RunningOtherDelivered: "running: another pin is delivered", "vatcp";
    RunningEnd: "running: an end with the key's vector", "vcp";
    AskedDropped: "asked: a level write drops the held edge", "cp";
    AskedDroppedEdge: "asked: an edge entry again, with no edge held", "cp";
    AskedMasked: "asked: the key is masked and keeps its edge", "vcp";
    AskedUnmasked: "asked: the key is unmasked with its edge", "cp";
    AskedPassed: "asked: a delivery step passes the masked key", "cp";
    AskedMode: "asked: the key has another delivery mode", "vcp";
    AskedNone: "asked: a delivery step gives none", "vcp";
    AskedOther: "asked: another pin is delivered", "vcp";
    AskedOtherVector: "asked: another pin is delivered with the key's vector", "p";
    AskedEnd: "asked: an end with the key's vector", "cp";
    AskedPress: "asked: a second press", "vcp";
    AskedVector: "asked: the key's vector is rewritten", "vcp";
    TakenAgain: "taken: the key is delivered again", "cp";
    TakenAgainVector: "taken: the key is delivered with another vector", "p";
    TakenAgainLevel: "taken: the key is delivered as a level pin", "p";
    TakenOther: "taken: another pin is delivered", "vcp";
    TakenEndOther: "taken: an end with another vector", "vcp";
    TakenEndPresent: "taken: an end with the entry's vector, another by now", "p";
    TakenEndSecond: "taken: an end with a later delivery's vector", "p";
    TakenPress: "taken: a press", "vcp";
    TakenVector: "taken: the key's vector is rewritten", "vcp";
    TakenFreed: "taken: an edge write clears the key's remote IRR", "cp";
    TakenToLevel: "taken: the key's entry is written level", "vcp";
    PausedPress: "paused: a press", "vcp";
    PausedDelivery: "paused: the key is delivered", "vcp";
    PausedEnd: "paused: an end with the remembered vector", "cp";
    PausedToLevel: "paused: the key's entry is written level", "vcp";
    RefusedAsked: "asked: a refused access", "ap";
    RefusedTaken: "taken: a refused access", "ap";
    EndsRunning: "the log ends in running", "vatcp";
    EndsAsked: "the log ends in asked", "vatcp";
    EndsTaken: "the log ends in taken", "vacp";
    EndsPaused: "the log ends in paused", "vcp";
    StopsAsked: "the log stops in asked", "x";
    StopsTaken: "the log stops in taken", "x";
    StopsPaused: "the log stops in paused", "x";
    SettingsPaused: "a log with settings comes to paused", "vcp";
    SettingsByTimer: "settings: asked by a timer at its reset route", "vatp";
    Settings8: "settings refused 8", "vatc";
    Settings6: "settings refused 6", "vatc";
    Settings9: "settings refused 9", "vatc";
    Settings10: "settings refused 10", "vatc";
    SettingsPin: "settings refused and a pin above 23", "va";
    SettingsTooLong: "settings refused and a log that is too long", "x";
    PinZeros: "a pin with leading zeros", "vatcp";
    PinTwentyFour: "pin 24", "vatc";
    PinAbove: "a pin above 24", "vatc";
    PinCut: "a pin above 23 that would be a pin with fewer bits", "vatc";
    PinLong: "a pin above 23 of more than 20 digits", "vatc";
    PinZerosAbove: "a pin above 23 with leading zeros", "vatc";
    PinTooLong: "a pin above 23 and a log that is too long", "x";
    TooLong: "too long", "x";
    Longest: "a log of 65,536 bytes", "x";
    EmptyLog: "an empty log", "x";
}

impl Counts<ScreenEvent> {
    /// Plays a log on a mill with this pause key, and with a settings record if there is one, and counts what happens;
    /// answers the number of its records.
    pub fn watch(&mut self, record: Option<&[u8]>, pin: &str, log: &[u8]) -> usize {
        let number = pin_of(pin).expect("every case has a number for its pin");
        let settings = match record.map_or(Ok(Settings::USUAL), Settings::of_record) {
            Ok(settings) => settings,
            Err(refusal) => {
                self.note(refused_record(refusal));
                self.note_if(number > 23, ScreenEvent::SettingsPin);
                self.note_if(log.len() > LONGEST, ScreenEvent::SettingsTooLong);
                return 0;
            }
        };
        let mut mill = Mill { board: Board::reset_to(&settings), screen: None };
        let zeros = pin.len() > 1 && pin.starts_with('0');
        if mill.tell(number).is_err() {
            self.watch_refused_pin(pin, number);
            self.note_if(zeros, ScreenEvent::PinZerosAbove);
            self.note_if(log.len() > LONGEST, ScreenEvent::PinTooLong);
            return 0;
        }
        self.note_if(zeros, ScreenEvent::PinZeros);
        if log.len() > LONGEST {
            self.note(ScreenEvent::TooLong);
            return 0;
        }
        self.note_if(log.is_empty(), ScreenEvent::EmptyLog);
        self.note_if(log.len() == LONGEST, ScreenEvent::Longest);
        let (records, stop) = records_of(log);
        let mut watcher = ScreenWatcher::new(self, mill, number as u8);
        for record in &records {
            watcher.watch(record);
        }
        watcher.finish(stop.is_some(), record.is_some());
        records.len()
    }

    fn watch_refused_pin(&mut self, pin: &str, number: u64) {
        self.note(if number == 24 { ScreenEvent::PinTwentyFour } else { ScreenEvent::PinAbove });
        self.note_if(pin.trim_start_matches('0').len() > 20, ScreenEvent::PinLong);
        let cut = [8, 16, 32].iter().any(|&bits| number & ((1 << bits) - 1) < 24);
        self.note_if(cut && number != u64::MAX, ScreenEvent::PinCut);
    }
}

fn refused_record(refusal: Refusal) -> ScreenEvent {
    match refusal {
        Refusal::Short => ScreenEvent::Settings8,
        Refusal::Mark => ScreenEvent::Settings6,
        Refusal::Form => ScreenEvent::Settings9,
        _ => ScreenEvent::Settings10,
    }
}
