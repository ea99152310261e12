//! What a call did to the screen, or could be thought to do.

use peer::abi::mill::{kind, Asked, Mill};
use peer::abi::Call;
use peer::sequence::mill::{broken, Step};

macro_rules! happenings {
    ($($name:ident: $text:literal;)*) => {
        /// Something that has to come.
        #[derive(Clone, Copy)]
        pub enum Happening {
            $($name,)*
        }

        impl Happening {
            pub const ALL: &'static [Happening] = &[$(Happening::$name,)*];

            pub fn text(self) -> &'static str {
                match self { $(Happening::$name => $text,)* }
            }
        }
    };
}

happenings! {
    TellHeld: "tell: the key holds an edge";
    TellHeldMasked: "tell: the key holds an edge and is masked";
    TellMasked: "tell: a masked key without an edge";
    TellFirst: "tell: no pin before";
    TellOther: "tell: another pin than before";
    TellCut: "tell: a pin above 23 with the low bits of a pin";
    ResumeHeld: "resume in paused: the key holds an edge";
    ResumeHeldMasked: "resume in paused: the key holds an edge and is masked";
    ResumeNone: "resume in paused: the key holds no edge";
    ResumeUntold: "resume: no pin";
    ResetUntold: "reset: no pin";
    ResetBoard: "reset: an ill-formed board";
    ResetScreen: "reset: an ill-formed screen, a well-formed board";
    AskedWire: "running becomes asked by a wire";
    AskedAdvance: "running becomes asked by an advance";
    AskedWrite: "running becomes asked by a timer register write";
    TakenEdge: "asked becomes taken by an edge delivery";
    TakenLevel: "asked becomes taken by a level delivery";
    Paused: "taken becomes paused";
    PausedWide: "taken becomes paused by a number above 255";
    RunningLevel: "running: a level delivery of the key";
    AskedOther: "asked: another pin is delivered";
    AskedDropped: "asked: a low-word write drops the edge";
    AskedEnd: "asked: an end with the key's vector";
    TakenAgain: "taken: the key is delivered with another vector";
    TakenEnd: "taken: an end with another vector";
    TakenPresent: "taken: an end with the entry's vector, another by now";
    TakenPress: "taken: the key holds an edge again";
    TakenFreed: "taken: an edge write clears the key's remote IRR";
    PausedPress: "paused: the key holds an edge again";
    PausedDelivery: "paused: the key is delivered";
    WideEnd: "end: a number above 255";
    WideAdvance: "advance: a number above 2^32 - 1";
    KindZero: "unknown kind 0";
    KindTen: "unknown kind 10";
    KindLast: "unknown kind 2^64 - 1";
    KindCut: "unknown kind with the low eight bits of a known one";
}

/// The pin's low word, and whether it holds an edge.
fn entry(mill: &Mill, pin: u64) -> (u32, bool) {
    let entries = &mill.board.controller.entries;
    (entries.low[pin as usize], entries.held[pin as usize] == 1)
}

fn is_level(low: u32) -> bool {
    low & 1 << 15 != 0
}

fn has_irr(low: u32) -> bool {
    low & 1 << 14 != 0
}

fn is_masked(low: u32) -> bool {
    low & 1 << 16 != 0
}

/// Hands out what happened in a call that wasn't refused with 5.
pub fn happenings(step: &Step, mut note: impl FnMut(Happening)) {
    let mut note_if = |condition: bool, happening: Happening| {
        if condition {
            note(happening);
        }
    };
    let (before, done) = (&step.before.screen, step.reply.number == 0);
    match step.call.asked() {
        Asked::Tell(pin) if done => {
            let (low, held) = entry(&step.before, pin);
            note_if(held, Happening::TellHeld);
            note_if(held && is_masked(low), Happening::TellHeldMasked);
            note_if(!held && is_masked(low), Happening::TellMasked);
            note_if(before.told == 0, Happening::TellFirst);
            note_if(before.told == 1 && u64::from(before.pin) != pin, Happening::TellOther);
        }
        Asked::Tell(pin) => note_if(pin > 23 && pin & 0xFF <= 23, Happening::TellCut),
        Asked::Resume if before.told == 0 => note_if(true, Happening::ResumeUntold),
        Asked::Resume if before.word == 3 => {
            let (low, held) = entry(&step.before, before.pin.into());
            note_if(held, Happening::ResumeHeld);
            note_if(held && is_masked(low), Happening::ResumeHeldMasked);
            note_if(!held, Happening::ResumeNone);
        }
        Asked::Resume => {}
        Asked::Unknown => {
            note_if(step.call.kind == 0, Happening::KindZero);
            note_if(step.call.kind == 10, Happening::KindTen);
            note_if(step.call.kind == u64::MAX, Happening::KindLast);
            note_if(matches!(step.call.kind as u8, 1..=9), Happening::KindCut);
        }
        Asked::Board(Call::Reset) => {
            let (board, screen) = (step.before.board.is_well_formed(), broken(&step.before));
            note_if(board && before.told == 0, Happening::ResetUntold);
            note_if(!board, Happening::ResetBoard);
            note_if(board && !screen.is_empty(), Happening::ResetScreen);
        }
        Asked::Board(call) if done && before.told == 1 => of_the_board(step, call, &mut note_if),
        Asked::Board(_) => {}
    }
    let number = step.call.numbers[0];
    note_if(step.call.kind == kind::END && number > 0xFF, Happening::WideEnd);
    let wide = number > u64::from(u32::MAX);
    note_if(step.call.kind == kind::ADVANCE && wide, Happening::WideAdvance);
}

/// A done call of the board, with a told pin.
fn of_the_board(step: &Step, call: Call, note_if: &mut impl FnMut(bool, Happening)) {
    let screen = &step.before.screen;
    let (low, held) = entry(&step.before, screen.pin.into());
    let (new, holds) = entry(&step.after, screen.pin.into());
    let (gives, press) = (step.reply.delivered == 1, !held && holds);
    let gives_key = gives && u16::from(step.reply.pin) == screen.pin;
    let ends =
        |vector: u32| matches!(call, Call::End { vector: ended } if u32::from(ended) == vector);
    let is_end = matches!(call, Call::End { .. });
    let same = ends(screen.vector.into());
    match screen.word {
        0 => {
            note_if(press && matches!(call, Call::Wire { .. }), Happening::AskedWire);
            note_if(press && matches!(call, Call::Advance { .. }), Happening::AskedAdvance);
            note_if(press && matches!(call, Call::Write { .. }), Happening::AskedWrite);
            note_if(gives_key, Happening::RunningLevel);
        }
        1 => {
            note_if(gives_key && !is_level(low), Happening::TakenEdge);
            note_if(gives_key && is_level(low), Happening::TakenLevel);
            note_if(gives && !gives_key, Happening::AskedOther);
            let write = matches!(call, Call::Write { .. });
            note_if(write && held && !holds, Happening::AskedDropped);
            note_if(ends(low & 0xFF), Happening::AskedEnd);
        }
        2 => {
            note_if(same, Happening::Paused);
            note_if(same && step.call.numbers[0] > 0xFF, Happening::PausedWide);
            let other = u16::from(step.reply.vector) != screen.vector;
            note_if(gives_key && other, Happening::TakenAgain);
            note_if(is_end && !same, Happening::TakenEnd);
            note_if(ends(low & 0xFF) && !same, Happening::TakenPresent);
            note_if(press, Happening::TakenPress);
            note_if(has_irr(low) && !is_level(new), Happening::TakenFreed);
        }
        _ => {
            note_if(press, Happening::PausedPress);
            note_if(gives_key, Happening::PausedDelivery);
        }
    }
}
