//! What a salvage can meet in a damaged log.

use std::ops::Range;

use super::list::events;
use super::Counts;
use crate::board::Board;
use crate::generate::Damage;
use crate::log::{kind, records_of, whole_record, LONGEST as LONGEST_REPLAY, MARK};
use crate::salvage::{Salvage, LONGEST};
use SalvageEvent::*;

events! {
    SalvageEvent, Damage;
    Empty: "an empty log", "s";
    NothingSkipped: "nothing skipped", "scf";
    NothingKept: "nothing kept", "cfn";
    AtStart: "a stretch at the start", "cfipn";
    AtEnd: "a stretch at the end", "cfipn";
    Between: "a stretch between two kept records", "cfipn";
    Several: "several stretches", "cfipn";
    OneByte: "a stretch of one byte", "cfipn";
    LongStretch: "a stretch longer than any record", "cfipn";
    Island: "a record kept between two stretches", "cfipn";
    KeptRead: "kind 1 kept", "scfip";
    KeptWrite: "kind 2 kept", "scfip";
    KeptWire: "kind 3 kept", "scfipn";
    KeptEnd: "kind 4 kept", "scfipn";
    KeptAdvance: "kind 5 kept", "scfipn";
    KeptDeliver: "kind 6 kept", "scfipn";
    Refused1: "kept: a record that a replay refuses with 1", "scfip";
    Refused2: "kept: a record that a replay refuses with 2", "scfip";
    Refused3: "kept: a record that a replay refuses with 3", "scfipn";
    Refused4: "kept: a record that a replay refuses with 4", "scfip";
    Hides: "kept: a record with a whole record in its body", "pn";
    HidesOver: "kept: a record that starts in its body ends behind it", "pn";
    KindZero: "skipped: a mark with kind 0", "fin";
    KindSeven: "skipped: a mark with kind 7", "fin";
    KindLast: "skipped: a mark with kind 255", "fi";
    KindOther: "skipped: a mark with another unknown kind", "cfin";
    SpanUnknown: "a record kept right behind a mark with an unknown kind", "fi";
    FirstWrong: "skipped: a whole record but for its first byte", "cfipn";
    SecondWrong: "skipped: a whole record but for its second byte", "cfpn";
    SpanFirst: "a record kept in the bytes of one with a wrong first byte", "pn";
    SpanSecond: "a record kept in the bytes of one with a wrong second byte", "cpn";
    FalseMark: "7E 7E B5: the second 7E is a kept record's", "cin";
    MarkMark: "7E B5 7E B5: the second mark is a kept record's", "cin";
    StrayMark: "at the end: a mark without a kind", "cin";
    StrayHalf: "at the end: the first byte of a mark", "cin";
    CutRead: "at the end: kind 1 cut short", "cin";
    CutWrite: "at the end: kind 2 cut short", "cin";
    CutWire: "at the end: kind 3 cut short", "cin";
    CutEnd: "at the end: kind 4 cut short", "cn";
    CutAdvance: "at the end: kind 5 cut short", "cin";
    OneShort: "at the end: a body that lacks its last byte", "cin";
    KeptInCut: "at the end: a record kept in a body that is cut short", "p";
    AboveReplay: "more bytes than a replay takes", "scin";
    Longest: "262,144 bytes", "scin";
    LongestSound: "262,144 bytes, all kept", "s";
    LongestSkipped: "262,144 bytes, all skipped", "n";
    MostStretches: "65,536 stretches, as many as there can be", "i";
    TooLongByOne: "262,145 bytes", "sin";
    TooLong: "more", "n";
}

impl Counts<SalvageEvent> {
    /// Counts what a salvage meets in a log; answers the number of kept records.
    pub fn watch(&mut self, log: &[u8]) -> usize {
        if log.len() > LONGEST {
            self.note(if log.len() == LONGEST + 1 { TooLongByOne } else { TooLong });
            return 0;
        }
        let salvage = Salvage::of(log);
        self.watch_whole(log, &salvage);
        for span in &salvage.kept {
            self.watch_kept(log, span);
        }
        for span in &salvage.skipped {
            self.watch_skipped(log, span);
        }
        salvage.kept.len()
    }

    fn watch_whole(&mut self, log: &[u8], salvage: &Salvage) {
        let Salvage { kept, skipped, .. } = salvage;
        let longest = log.len() == LONGEST;
        self.note_if(log.is_empty(), Empty);
        self.note_if(!log.is_empty() && skipped.is_empty(), NothingSkipped);
        self.note_if(!log.is_empty() && kept.is_empty(), NothingKept);
        self.note_if(skipped.len() > 1, Several);
        self.note_if(log.len() > LONGEST_REPLAY, AboveReplay);
        self.note_if(longest, Longest);
        self.note_if(longest && skipped.is_empty(), LongestSound);
        self.note_if(longest && kept.is_empty(), LongestSkipped);
        self.note_if(skipped.len() == LONGEST / 4, MostStretches);
        let island = |span: &Range<usize>| {
            skipped.binary_search_by_key(&span.start, |gap| gap.end).is_ok()
                && skipped.binary_search_by_key(&span.end, |gap| gap.start).is_ok()
        };
        self.note_if(kept.iter().any(island), Island);
    }

    fn watch_kept(&mut self, log: &[u8], span: &Range<usize>) {
        self.note(match log[span.start + 2] {
            kind::READ => KeptRead,
            kind::WRITE => KeptWrite,
            kind::WIRE => KeptWire,
            kind::END => KeptEnd,
            kind::ADVANCE => KeptAdvance,
            _ => KeptDeliver,
        });
        // Refusals 1 to 4 are the same in every well-formed state.
        let record = records_of(&log[span.clone()]).0[0];
        match record.play(&mut Board::RESET.clone()).as_str() {
            "refused 1" => self.note(Refused1),
            "refused 2" => self.note(Refused2),
            "refused 3" => self.note(Refused3),
            "refused 4" => self.note(Refused4),
            _ => {}
        }
        let inner = |at: usize| Some(at + whole_record(&log[at..])?);
        let mut ends = (span.start + 1..span.end).filter_map(inner);
        self.note_if(ends.clone().any(|end| end <= span.end), Hides);
        self.note_if(ends.any(|end| end > span.end), HidesOver);
    }

    fn watch_skipped(&mut self, log: &[u8], span: &Range<usize>) {
        let (at_end, behind) = (span.end == log.len(), &log[span.end..]);
        self.note_if(span.start == 0, AtStart);
        self.note_if(at_end, AtEnd);
        self.note_if(span.start > 0 && !at_end, Between);
        self.note_if(span.len() == 1, OneByte);
        self.note_if(span.len() > 15, LongStretch);
        let stretch = &log[span.clone()];
        self.note_if(stretch.ends_with(&MARK[..1]) && behind.starts_with(&MARK), FalseMark);
        self.note_if(stretch.ends_with(&MARK) && behind.starts_with(&MARK), MarkMark);
        self.note_if(at_end && stretch.ends_with(&MARK), StrayMark);
        self.note_if(at_end && stretch.ends_with(&MARK[..1]), StrayHalf);
        for place in span.clone() {
            match log[place..] {
                [first, second, kind, ..] if [first, second] == MARK => {
                    self.watch_mark(log, place, kind, span.end);
                }
                [first, second, ..] => self.watch_no_mark(log, place, [first, second], span.end),
                _ => {}
            }
        }
    }

    /// A mark and a kind in a stretch: the kind is unknown, or the body is cut.
    fn watch_mark(&mut self, log: &[u8], place: usize, kind: u8, end: usize) {
        let left = log.len() - place - 3;
        self.note_if(left > 0 && end == place + 3 && !is_known(kind), SpanUnknown);
        let (cut, body) = match kind {
            0 => return self.note(KindZero),
            7 => return self.note(KindSeven),
            0xFF => return self.note(KindLast),
            kind::READ => (CutRead, 4),
            kind::WRITE => (CutWrite, 12),
            kind::WIRE => (CutWire, 2),
            kind::END => (CutEnd, 1),
            kind::ADVANCE => (CutAdvance, 4),
            _ => return self.note(KindOther),
        };
        self.note(cut);
        self.note_if(left + 1 == body, OneShort);
        self.note_if(end < log.len(), KeptInCut);
    }

    /// Two bytes in a stretch that are no mark, but may be half of one.
    fn watch_no_mark(&mut self, log: &[u8], place: usize, halves: [u8; 2], end: usize) {
        let mut mended = log[place..log.len().min(place + 15)].to_vec();
        mended[..2].copy_from_slice(&MARK);
        let Some(length) = whole_record(&mended) else { return };
        let overtaken = end < place + length;
        if halves[1] == MARK[1] {
            self.note(FirstWrong);
            self.note_if(overtaken, SpanFirst);
        } else if halves[0] == MARK[0] {
            self.note(SecondWrong);
            self.note_if(overtaken, SpanSecond);
        }
    }
}

fn is_known(kind: u8) -> bool {
    (kind::READ..=kind::DELIVER).contains(&kind)
}
