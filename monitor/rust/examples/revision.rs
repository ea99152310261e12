//! A monitor in Rust that resets its board with the settings of one revision. It prints what the one in C prints:
//! monitor/examples/revision.out, worked out by hand for revision B's record. Another record may be named as a file.
use nataqvoju::{Board, Refusal, Window, CAPABILITIES, DATA, INDEX, SETTINGS_LENGTH, TIMER, TIMER_STEP};

const REVISION_B: [u8; SETTINGS_LENGTH] = [
    0x5A, 0xC3, 1, // the mark, and form 1
    0x86, 0x80, // vendor 0x8086
    0x7F, 0xB1, 0x29, 0x04, // 69,841,279 femtoseconds: 14.31818 MHz
    0x00, 0x00, 0xF0, 0x00, // each timer can be routed to pins 20 to 23
    0x00, 0x00, 0xF0, 0x00, //
    0x00, 0x00, 0xF0, 0x00, //
    2,    // the controller's id
];

fn done<Answer>(what: &str, answer: Result<Answer, Refusal>) {
    match answer {
        Ok(_) => println!("{what}: ok"),
        Err(refusal) => println!("{what}: refused {}", refusal.number()),
    }
}

fn show(board: &mut Board) -> Result<(), Refusal> {
    let capabilities = board.read(Window::TIMERS, 8, CAPABILITIES)?;
    println!("capabilities: {capabilities:#018x}");
    println!("a tick: {} femtoseconds", capabilities >> 32);
    println!("vendor: {:#06x}", capabilities >> 16 & 0xFFFF);
    for (m, timer) in board.timers.timer.iter().enumerate() {
        let configuration = board.read(Window::TIMERS, 8, TIMER + TIMER_STEP * m as u64)?;
        println!("timer {m}: {configuration:#018x}, pin {}", timer.route);
    }
    board.write(Window::CONTROLLER, 4, INDEX, 0)?;
    println!("id: {:#010x}", board.read(Window::CONTROLLER, 4, DATA)?);
    Ok(())
}

fn route(board: &mut Board, pin: u64) -> Result<(), Refusal> {
    board.write(Window::TIMERS, 8, TIMER, pin << 9 | 0x04)?;
    println!("timer 0 to pin {pin}, interrupt on: {:#018x}", board.read(Window::TIMERS, 8, TIMER)?);
    Ok(())
}

fn main() -> Result<(), Box<dyn std::error::Error>> {
    let mut record = match std::env::args_os().nth(1) {
        Some(path) => std::fs::read(path)?,
        None => REVISION_B.to_vec(),
    };
    println!("-- a record of {} bytes, and memory that was never a board", record.len());
    let mut board = Board::from_bytes([0; Board::SIZE]);
    done("a delivery step", board.deliver());
    let answer = board.reset_settings(&record);
    done("reset with settings", answer);
    // refused, nothing is reset: there is no board to go on with
    answer?;
    show(&mut board)?;

    println!("-- routes: 4 isn't in the mask, 22 is");
    route(&mut board, 4)?;
    route(&mut board, 22)?;

    println!("-- another id: the register alone");
    board.write(Window::CONTROLLER, 4, DATA, 9 << 24)?;
    println!("id: {:#010x}", board.read(Window::CONTROLLER, 4, DATA)?);

    println!("-- records that are refused");
    let saved = board;
    done("a byte short", board.reset_settings(&record[..SETTINGS_LENGTH - 1]));
    record[0] = 0x7E;
    done("another mark", board.reset_settings(&record));
    record[0] = 0x5A;
    record[2] = 2;
    done("form 2", board.reset_settings(&record));
    record[2] = 1;
    record[21] = 16;
    done("id 16", board.reset_settings(&record));
    println!("the board: {}", if board == saved { "same bytes" } else { "OTHER BYTES" });

    println!("-- a reset without settings");
    board.reset();
    done("reset", Ok(()));
    show(&mut board)?;
    Ok(())
}
