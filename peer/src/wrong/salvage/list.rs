//! The list of a wrong salvage.

use std::ops::Range;

use super::{Mistake, Spans};
use crate::log::MARK;

/// What lies before, between and behind records.
pub(super) fn gaps(kept: &[Range<usize>], end: usize) -> Spans {
    let mut gaps = Vec::new();
    let mut start = 0;
    for span in kept {
        gaps.push(start..span.start);
        start = span.end;
    }
    gaps.push(start..end);
    gaps.retain(|gap| !gap.is_empty());
    gaps
}

/// Two numbers for each stretch.
pub(super) fn of(log: &[u8], skipped: Spans, mistake: Mistake) -> Vec<[u64; 2]> {
    let stretches = wrong_stretches(log, skipped, mistake);
    let numbers = |span: &Range<usize>| wrong_numbers(span, mistake);
    let mut list: Vec<[u64; 2]> = stretches.iter().map(numbers).collect();
    match mistake {
        Mistake::LastFirst => list.reverse(),
        Mistake::OffsetInOutput => {
            let mut gone = 0;
            for [offset, length] in &mut list {
                *offset -= gone;
                gone += *length;
            }
        }
        Mistake::FirstAtStart if !list.is_empty() => list[0][0] = 0,
        Mistake::OneStretch if !list.is_empty() => {
            let bytes = list.iter().map(|[_, length]| length).sum();
            list = vec![[list[0][0], bytes]];
        }
        _ => {}
    }
    list
}

fn wrong_stretches(log: &[u8], mut skipped: Spans, mistake: Mistake) -> Spans {
    let starts_mark = |place: usize| log[place..].starts_with(&MARK);
    match mistake {
        Mistake::LinePerByte => cut(skipped, |_, _| true),
        Mistake::CutAtMark => cut(skipped, |_, place| starts_mark(place)),
        Mistake::CutBehindMark => cut(skipped, |_, place| place >= 3 && starts_mark(place - 3)),
        Mistake::CutBehindByte => cut(skipped, |_, place| log[place - 1] == MARK[0]),
        Mistake::CutAtByte => cut(skipped, |start, place| (place - start).is_multiple_of(255)),
        Mistake::OneByteUnlisted => {
            skipped.retain(|span| span.len() > 1);
            skipped
        }
        Mistake::FirstUnlisted => {
            skipped.retain(|span| span.start > 0);
            skipped
        }
        Mistake::LastUnlisted => {
            skipped.retain(|span| span.end < log.len());
            skipped
        }
        _ => skipped,
    }
}

/// Cuts stretches in front of places; a stretch's own start is told beside a place.
fn cut(skipped: Spans, is_cut: impl Fn(usize, usize) -> bool) -> Spans {
    let mut pieces = Vec::new();
    for span in skipped {
        let mut start = span.start;
        for place in span.start + 1..span.end {
            if is_cut(span.start, place) {
                pieces.push(start..place);
                start = place;
            }
        }
        pieces.push(start..span.end);
    }
    pieces
}

fn wrong_numbers(span: &Range<usize>, mistake: Mistake) -> [u64; 2] {
    let (offset, length) = (span.start as u64, span.len() as u64);
    match mistake {
        Mistake::OffsetFromOne => [offset + 1, length],
        Mistake::OffsetOfEnd => [offset + length, length],
        Mistake::EndForLength => [offset, offset + length],
        Mistake::LengthFirst => [length, offset],
        Mistake::OffsetSixteenBits => [offset & 0xFFFF, length],
        Mistake::LengthSixteenBits => [offset, length & 0xFFFF],
        _ => [offset, length],
    }
}
