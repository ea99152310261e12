//! Makes a log that shows a difference short: drops records, then simplifies numbers; or drops bytes, where
//! records aren't what the difference is about.

use crate::log::{records_of, Record};

/// What a trial costs beside the bytes of its log.
const TRIAL: usize = 500;

/// Shrinks a log as long as `differs` says that the difference is still there. The effort is
/// the number of bytes that may be tried.
pub fn shrink(log: &[u8], effort: usize, differs: impl FnMut(&[u8]) -> bool) -> Vec<u8> {
    let (records, stop) = records_of(log);
    let tail = stop.map_or(Vec::new(), |(_, place)| log[place..].to_vec());
    let mut shrinker = Shrinker { records, tail, effort, differs };
    if shrinker.is_still_different(&shrinker.records.clone(), &shrinker.tail.clone()) {
        shrinker.drop_tail();
        shrinker.drop_records();
        shrinker.simplify();
        shrinker.drop_records();
    } else {
        return log.to_vec();
    }
    join(&shrinker.records, &shrinker.tail)
}

/// The same by bytes: drops runs of them, long ones first, then makes as many as can be 0.
pub fn shrink_bytes(
    log: &[u8],
    mut effort: usize,
    mut differs: impl FnMut(&[u8]) -> bool,
) -> Vec<u8> {
    let mut is_still_different = |log: &[u8]| {
        let left = effort.checked_sub(log.len() + TRIAL);
        left.is_some_and(|left| {
            effort = left;
            differs(log)
        })
    };
    let mut short = log.to_vec();
    let mut run = short.len();
    while run > 0 {
        let mut start = 0;
        while start < short.len() {
            let end = (start + run).min(short.len());
            let fewer = [&short[..start], &short[end..]].concat();
            if is_still_different(&fewer) {
                short = fewer;
            } else {
                start += run;
            }
        }
        run /= 2;
    }
    for place in 0..short.len() {
        let old = std::mem::take(&mut short[place]);
        if old != 0 && !is_still_different(&short) {
            short[place] = old;
        }
    }
    short
}

struct Shrinker<Differs> {
    records: Vec<Record>,
    /// Bytes that are no record.
    tail: Vec<u8>,
    effort: usize,
    differs: Differs,
}

impl<Differs: FnMut(&[u8]) -> bool> Shrinker<Differs> {
    fn is_still_different(&mut self, records: &[Record], tail: &[u8]) -> bool {
        let log = join(records, tail);
        let Some(left) = self.effort.checked_sub(log.len() + TRIAL) else { return false };
        self.effort = left;
        (self.differs)(&log)
    }

    fn drop_tail(&mut self) {
        let records = self.records.clone();
        for length in [0, 1, 3] {
            if length >= self.tail.len() {
                return;
            }
            let tail = self.tail[..length].to_vec();
            if self.is_still_different(&records, &tail) {
                self.tail = tail;
                return;
            }
        }
    }

    /// Drops runs of records, long ones first.
    fn drop_records(&mut self) {
        let mut run = self.records.len();
        while run > 0 {
            let mut start = 0;
            while start < self.records.len() {
                let mut fewer = self.records.clone();
                fewer.drain(start..(start + run).min(fewer.len()));
                if self.is_still_different(&fewer, &self.tail.clone()) {
                    self.records = fewer;
                } else {
                    start += run;
                }
            }
            run /= 2;
        }
    }

    fn simplify(&mut self) {
        for place in 0..self.records.len() {
            while let Some(simpler) = self.simpler_at(place) {
                self.records[place] = simpler;
            }
        }
    }

    fn simpler_at(&mut self, place: usize) -> Option<Record> {
        simpler(self.records[place]).into_iter().find(|&record| {
            let mut records = self.records.clone();
            records[place] = record;
            self.is_still_different(&records, &self.tail.clone())
        })
    }
}

/// Records with a smaller number, the smallest first.
fn simpler(record: Record) -> Vec<Record> {
    match record {
        Record::Write { window, width, offset, value } => {
            smaller(value).map(|value| Record::Write { window, width, offset, value }).collect()
        }
        Record::Advance { ticks } => {
            smaller(u64::from(ticks)).map(|ticks| Record::Advance { ticks: ticks as u32 }).collect()
        }
        Record::End { vector } => {
            smaller(u64::from(vector)).map(|vector| Record::End { vector: vector as u8 }).collect()
        }
        _ => Vec::new(),
    }
}

/// Smaller numbers: nought, fewer high bits, single bits off, one less.
fn smaller(number: u64) -> impl Iterator<Item = u64> {
    let masks = [0, 0xFF, 0xFFFF, 0xFFFF_FFFF].into_iter().map(move |mask| number & mask);
    let single = (0..64).rev().map(move |bit| number & !(1 << bit));
    let candidates = masks.chain(single).chain([number / 2, number.saturating_sub(1)]);
    candidates.filter(move |&candidate| candidate < number)
}

fn join(records: &[Record], tail: &[u8]) -> Vec<u8> {
    let mut log = Vec::new();
    for record in records {
        record.append_to(&mut log);
    }
    log.extend(tail);
    log
}
