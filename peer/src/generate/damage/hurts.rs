//! What happens to a log, one thing at a time.

use super::{some_records, Damage};
use crate::log::{kind, whole_record, Record, MARK};
use crate::random::Random;

/// Kinds that aren't known, or no longer what they were.
const KINDS: [u8; 12] = [0, 7, 8, 0x7E, 0xB5, 0xFF, 1, 2, 3, 4, 5, 6];
/// The kinds that have a body.
const BODIES: [u8; 5] = [kind::READ, kind::WRITE, kind::WIRE, kind::END, kind::ADVANCE];

/// Does one thing of a sort to a log.
pub(super) fn hurt(log: &mut Vec<u8>, damage: Damage, random: &mut Random) {
    match damage {
        Damage::Sound | Damage::Noise => {}
        Damage::Cut => cut(log, random),
        Damage::Flipped => flip(log, random),
        Damage::Inserted => insert(log, random),
        Damage::Spliced => splice(log, random),
    }
}

/// Any place, the end included.
fn place(log: &[u8], random: &mut Random) -> usize {
    random.below(log.len() as u64 + 1) as usize
}

/// A place where a mark stands, if there is one.
fn mark(log: &[u8], random: &mut Random) -> Option<usize> {
    let is_mark = |&at: &usize| log[at..].starts_with(&MARK);
    let marks: Vec<usize> = (0..log.len()).filter(is_mark).collect();
    (!marks.is_empty()).then(|| random.choose(&marks))
}

/// Mostly a mark's place, or the log's end.
fn seam(log: &[u8], random: &mut Random) -> usize {
    match random.below(10) {
        0..4 => mark(log, random).unwrap_or(log.len()),
        4 | 5 => log.len(),
        6 => 0,
        _ => place(log, random),
    }
}

fn few(random: &mut Random) -> usize {
    let most = random.choose(&[1, 3, 8, 30]);
    1 + random.below(most) as usize
}

fn bytes(random: &mut Random) -> Vec<u8> {
    (0..few(random)).map(|_| random.any() as u8).collect()
}

fn cut(log: &mut Vec<u8>, random: &mut Random) {
    let length = few(random);
    match random.below(10) {
        0..5 => {
            let start = seam(log, random) + random.below(4) as usize;
            let end = (start + length).min(log.len());
            log.drain(start.min(end)..end);
        }
        5 | 6 => drop(log.drain(..length.min(log.len()))),
        7 | 8 => log.truncate(log.len().saturating_sub(length)),
        // The last record that was to be written, or all from some record on.
        _ => {
            let some = mark(log, random).unwrap_or(0);
            let last = random.choose(&[log.len(), some]);
            let piece = cut_record(random);
            log.splice(last.., piece);
        }
    }
}

fn flip(log: &mut [u8], random: &mut Random) {
    let (place, mark) = (place(log, random), mark(log, random));
    let (at, byte) = match (random.below(10), mark) {
        (0..3, _) | (_, None) => {
            (place, log.get(place).map_or(0, |byte| byte ^ 1 << random.below(8)))
        }
        (3, _) => (place, random.any() as u8),
        // One of the mark's bytes, also to the other one.
        (4, Some(mark)) => (mark, random.choose(&[0x7F, 0x00, 0xB5, 0x7C])),
        (5, Some(mark)) => (mark + 1, random.choose(&[0xB4, 0x00, 0x7E, 0xFF])),
        (6..9, Some(mark)) => (mark + 2, random.choose(&KINDS)),
        (_, Some(mark)) => (mark + random.below(15) as usize, random.choose(&MARK)),
    };
    if let Some(old) = log.get_mut(at) {
        *old = byte;
    }
}

fn insert(log: &mut Vec<u8>, random: &mut Random) {
    let piece = match random.below(10) {
        0..3 => bytes(random),
        3 => vec![MARK[0]],
        4 => MARK.to_vec(),
        5 => vec![MARK[0], MARK[0], MARK[1]],
        6 | 7 => [&MARK[..], &[random.choose(&KINDS)]].concat(),
        _ => cut_record(random),
    };
    let at = seam(log, random);
    log.splice(at..at, piece);
}

fn splice(log: &mut Vec<u8>, random: &mut Random) {
    if random.percent(50) {
        return nest(log, random);
    }
    let other = some_records(random);
    let from = place(&other, random);
    let to = (from + 3 * few(random)).min(other.len());
    let at = place(log, random);
    let over = if random.percent(50) { few(random).min(log.len() - at) } else { 0 };
    log.splice(at..at + over, other[from..to].iter().copied());
}

/// The bytes of a record inside another one's body, whole or over its end; the outer one's own mark or kind
/// is sometimes damaged.
fn nest(log: &mut Vec<u8>, random: &mut Random) {
    let mut both = record(random.choose(&BODIES), random);
    let inner = record(random.choose(&[1, 2, 3, 4, 5, 6]), random);
    both.truncate(3 + random.below(both.len() as u64 - 3) as usize);
    both.extend(inner);
    if random.percent(40) {
        let hurt = random.below(3) as usize;
        both[hurt] = random.any() as u8;
    }
    // What the inner one leaves of the body.
    if random.percent(50) && whole_record(&both).is_none() {
        both.extend(bytes(random));
    }
    let at = if random.percent(40) { log.len() } else { seam(log, random) };
    log.splice(at..at, both);
}

/// A record without the end of its body.
fn cut_record(random: &mut Random) -> Vec<u8> {
    let mut piece = record(random.choose(&BODIES), random);
    piece.truncate(3 + random.below(piece.len() as u64 - 3) as usize);
    piece
}

/// A record of that kind, its body of any bytes.
fn record(kind: u8, random: &mut Random) -> Vec<u8> {
    let number = random.any();
    let (a, b, offset) = (number as u8, (number >> 8) as u8, (number >> 16) as u16);
    let record = match kind {
        kind::READ => Record::Read { window: a, width: b, offset },
        kind::WRITE => Record::Write { window: a, width: b, offset, value: random.any() },
        kind::WIRE => Record::Wire { pin: a, level: b },
        kind::END => Record::End { vector: a },
        kind::ADVANCE => Record::Advance { ticks: number as u32 },
        _ => Record::Deliver,
    };
    let mut bytes = Vec::new();
    record.append_to(&mut bytes);
    bytes
}

/// Bytes that were never a log: any, or such that marks and kinds are thick in them.
pub(super) fn noise(random: &mut Random) -> Vec<u8> {
    let length = few(random) + few(random) + few(random);
    if random.percent(30) {
        return (0..length).map(|_| random.any() as u8).collect();
    }
    let mut noise = Vec::new();
    while noise.len() < length {
        match random.below(10) {
            0 | 1 => noise.push(MARK[0]),
            2 => noise.push(MARK[1]),
            3 | 4 => noise.extend(MARK),
            5 | 6 => noise.extend([MARK[0], MARK[1], random.below(8) as u8]),
            7 | 8 => noise.push(random.below(8) as u8),
            _ => noise.push(random.any() as u8),
        }
    }
    noise
}
