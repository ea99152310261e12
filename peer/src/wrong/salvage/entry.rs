//! A wrong salvage behind its lent entry.

use super::{Found, Mistake};
use crate::abi::salvage::Salvaged;
use crate::log::LONGEST as LONGEST_REPLAY;
use crate::salvage::LONGEST;

/// Makes the call as an entry with a mistake answers it.
pub fn answer(log: &[u8], kept: &mut [u8], list: &mut [u64], mistake: Mistake) -> Salvaged {
    let found = Found::new(log, mistake);
    let numbers: Vec<u64> = found.stretches.iter().flatten().copied().collect();
    let rooms = (has_room(log, &found, kept, mistake), has_list(log, &numbers, list, mistake));
    let done = match mistake {
        Mistake::EitherFits => rooms.0 || rooms.1,
        Mistake::ReplayLimit => rooms == (true, true) && log.len() <= LONGEST_REPLAY,
        Mistake::ProgramLimit => rooms == (true, true) && log.len() <= LONGEST,
        _ => rooms == (true, true),
    };
    let mut answer = Salvaged {
        number: 0,
        records: found.records.len() as u64,
        bytes: found.bytes.len() as u64,
        stretches: found.stretches.len() as u64,
    };
    if !done {
        refuse(&found, &numbers, kept, list, mistake);
        return refused(answer, mistake);
    }
    fill(kept, &found.bytes);
    fill(list, &numbers);
    damage_rest(kept, list, &found, &numbers, mistake);
    match mistake {
        Mistake::RecordsAreBytes => answer.records = answer.bytes,
        Mistake::BytesAreRecords => answer.bytes = answer.records,
        Mistake::BytesAreLog => answer.bytes = log.len() as u64,
        Mistake::StretchesAreNumbers => answer.stretches *= 2,
        Mistake::StretchesAreBytes => answer.stretches = found.skipped_bytes(),
        _ => {}
    }
    answer
}

/// What there is room for, from the start.
fn fill<T: Copy>(buffer: &mut [T], content: &[T]) {
    let length = buffer.len().min(content.len());
    buffer[..length].copy_from_slice(&content[..length]);
}

fn has_room(log: &[u8], found: &Found, kept: &[u8], mistake: Mistake) -> bool {
    let (needed, room) = (found.bytes.len(), kept.len());
    match mistake {
        Mistake::RecordsUntested => true,
        Mistake::RecordsAtFit => needed < room,
        Mistake::RecordsByLog => log.len() <= room,
        Mistake::NoRecords => needed <= room && room > 0,
        _ => needed <= room,
    }
}

fn has_list(log: &[u8], numbers: &[u64], list: &[u64], mistake: Mistake) -> bool {
    let (needed, room) = (numbers.len(), list.len());
    match mistake {
        Mistake::ListUntested => true,
        Mistake::ListAtFit => needed < room,
        // As many stretches as a log of that length can have.
        Mistake::ListByLog => 2 * log.len().div_ceil(4) <= room,
        Mistake::ListInStretches => needed / 2 <= room,
        Mistake::ListInBytes => 8 * needed <= room,
        Mistake::OddList => needed <= room && room.is_multiple_of(2),
        Mistake::NoList => needed <= room && room > 0,
        _ => needed <= room,
    }
}

/// What is done to the buffers though the call is refused.
fn refuse(found: &Found, numbers: &[u64], kept: &mut [u8], list: &mut [u64], mistake: Mistake) {
    match mistake {
        Mistake::RecordsPartly => {
            let ends = found.records.iter().scan(0, |end, span| {
                *end += span.len();
                Some(*end)
            });
            let fits = ends.take_while(|&end| end <= kept.len()).last().unwrap_or(0);
            fill(kept, &found.bytes[..fits]);
        }
        Mistake::BytesPartly => fill(kept, &found.bytes),
        Mistake::ListPartly => fill(list, numbers),
        Mistake::RecordsWritten if found.bytes.len() <= kept.len() => fill(kept, &found.bytes),
        Mistake::ListWritten if numbers.len() <= list.len() => fill(list, numbers),
        Mistake::RecordsCleared => kept.fill(0),
        Mistake::ListCleared => list.fill(0),
        _ => {}
    }
}

fn refused(right: Salvaged, mistake: Mistake) -> Salvaged {
    let mut answer = Salvaged { number: 12, ..Salvaged::default() };
    match mistake {
        Mistake::RoomIsShort => answer.number = 8,
        Mistake::RecordsCounted => answer.records = right.records,
        Mistake::BytesCounted => answer.bytes = right.bytes,
        Mistake::StretchesCounted => answer.stretches = right.stretches,
        _ => {}
    }
    answer
}

/// What is done to the rest of longer buffers.
fn damage_rest(
    kept: &mut [u8],
    list: &mut [u64],
    found: &Found,
    numbers: &[u64],
    mistake: Mistake,
) {
    match mistake {
        Mistake::RecordsRest => kept[found.bytes.len()..].fill(0),
        Mistake::ListRest => list[numbers.len()..].fill(0),
        Mistake::RecordsAtEnd => {
            let start = kept.len() - found.bytes.len();
            fill(&mut kept[start..], &found.bytes);
        }
        Mistake::ListEnded => fill(&mut list[numbers.len()..], &[0]),
        _ => {}
    }
}
