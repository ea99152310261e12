//! A monitor in Rust that shows whether the machine is paused. It lends a mill, which is a board with its pause screen:
//! the same story as `monitor/examples/pause_screen.c`, and the same lines, which stand in
//! `monitor/examples/pause_screen.out`.
use nataqvoju::{Interrupt, Mill, Refusal, Window, Word, DATA, ENTRY, INDEX};

const DRIVE: u64 = 9;
const PAUSE: u64 = 14;
const DRIVE_VECTOR: u8 = 0x29;
const PAUSE_VECTOR: u8 = 0x2E;
const OTHER_VECTOR: u8 = 0x3E;
const LEVEL: u64 = 0x8000;

// ---- what is shown

fn show(word: Word) {
    println!("                                        screen: {word}");
}

fn send(interrupt: Interrupt) {
    println!("  to the processor: pin {}, vector {:#04x}", interrupt.pin, interrupt.vector);
}

fn call(what: &str, answer: Result<(), Refusal>) {
    match answer {
        Ok(()) => println!("{what}: ok"),
        Err(refusal) => println!("{what}: refused {}", refusal.number()),
    }
}

// ---- what comes from outside

fn put_low(mill: &mut Mill, pin: u64, word: u64) -> Result<(), Refusal> {
    mill.write(Window::CONTROLLER, 4, INDEX, ENTRY + 2 * pin)?;
    mill.write(Window::CONTROLLER, 4, DATA, word)
}

/// The calls of one step of the story; false when it is over.
fn serve(mill: &mut Mill, step: u32) -> bool {
    match step {
        0 => {
            println!("-- the motion program sets up its entries");
            call("pin 9, level, vector 0x29", put_low(mill, DRIVE, LEVEL | u64::from(DRIVE_VECTOR)));
            call("pin 14, edge, vector 0x2e", put_low(mill, PAUSE, PAUSE_VECTOR.into()));
        }
        1 => {
            println!("-- the pause key is pressed, and the drive asks, before anything is delivered");
            call("wire 14 high", mill.wire(PAUSE, 1));
            call("wire 9 high", mill.wire(DRIVE, 1));
        }
        2 => {
            println!("-- both are with the processor; it ends the drive's interrupt first");
            call("wire 9 low", mill.wire(DRIVE, 0));
            call("end of interrupt 0x29", mill.end(DRIVE_VECTOR));
        }
        3 => {
            println!("-- it moves the key to vector 0x3e: what counts is the vector that was delivered");
            call("pin 14, edge, vector 0x3e", put_low(mill, PAUSE, OTHER_VECTOR.into()));
            call("end of interrupt 0x3e", mill.end(OTHER_VECTOR));
        }
        4 => call("end of interrupt 0x2e", mill.end(PAUSE_VECTOR)),
        5 => {
            println!("-- pressed again while paused, and served");
            call("wire 14 low", mill.wire(PAUSE, 0));
            call("wire 14 high", mill.wire(PAUSE, 1));
        }
        6 => call("end of interrupt 0x3e", mill.end(OTHER_VECTOR)),
        7 => {
            println!("-- the work goes on; a second resume changes nothing");
            call("resume", mill.resume());
        }
        8 => call("resume", mill.resume()),
        9 => {
            println!("-- refused, and as it was");
            call("tell 24", mill.tell(24));
            call("tell 9", mill.tell(DRIVE));
        }
        10 => {
            println!("-- a reset, with the key still down");
            mill.reset();
            call("reset", Ok(()));
            println!("told: {}", mill.screen.told);
            call("tell 14", mill.tell(PAUSE));
        }
        _ => return false,
    }
    true
}

// ---- the monitor's loop

fn run(mill: &mut Mill, pause: u64) -> Result<(), Refusal> {
    let mut shown = None;
    let mut step = 0;
    mill.reset();
    mill.tell(pause)?;
    loop {
        if shown != Some(mill.screen.word) {
            show(mill.screen.word);
            shown = Some(mill.screen.word);
        }
        if let Some(interrupt) = mill.deliver()? {
            send(interrupt);
        } else if serve(mill, step) {
            step += 1;
        } else {
            return Ok(());
        }
    }
}

// ---- bytes

fn bytes(mill: &Mill) {
    println!("-- saved, damaged and mended");
    let saved = mill.to_bytes();
    println!("bytes: {}", saved.len());
    let mut copy = Mill::from_bytes(saved);
    copy.screen.told = 0; // with a pin kept
    call("resume", copy.resume());
    copy.screen.told = 1;
    call("resume", copy.resume());
    println!("the copy, and the mill: {}", if copy == *mill { "same bytes" } else { "OTHER BYTES" });
}

fn main() -> Result<(), Refusal> {
    let mut mill = Mill::new();
    run(&mut mill, PAUSE)?;
    bytes(&mill);
    Ok(())
}
