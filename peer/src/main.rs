//! The command line of the second program.

use std::fs::{self, File};
use std::io::{Read, Write};
use std::path::PathBuf;
use std::process::ExitCode;
use std::time::SystemTime;

use peer::fuzz::{self, Subject, FIXED_SEED};
use peer::log::replay_from;
use peer::mutants;
use peer::salvage::salvage;
use peer::screen::{pin_of, screen_from};
use peer::settings_file;

const HELP: &str = "\
The second, independent model of the board.

  peer replay [--settings FILE] [FILE]
      Replays a log from FILE, or from standard input, on a board that is reset with the settings of
      a record, or with document 01's.

  peer screen [--settings FILE] PIN [FILE]
      The same on a mill whose pause key is told to be PIN, a decimal number, with the words of its
      pause screen.

  peer salvage FILE OUT
      Copies the whole records of a damaged log from FILE, or from standard input if FILE is -, to the
      new file OUT, and lists what was skipped. A file that is there already isn't touched.

  peer settings show [FILE]
      Prints the settings record in FILE, or in standard input, or why it is refused.

  peer settings make VENDOR PERIOD MASK0 MASK1 MASK2 ID OUT
      Makes the new file OUT with a settings record, and prints it. The numbers are decimal, or
      hexadecimal behind 0x. If one is out of its range, that is printed, and no file is made.

  peer fuzz --replay PATH [--seed N] [--logs N] [--profile NAME] [--long]
  peer fuzz --twin PATH [--seed N] [--logs N] [--profile NAME] [--long]
  peer fuzz --screen PATH [--seed N] [--logs N] [--profile NAME] [--long]
  peer fuzz --salvage PATH [--seed N] [--logs N] [--profile NAME] [--long]
  peer fuzz --settings PATH [--seed N] [--logs N] [--profile NAME] [--long]
      Makes random logs, runs the program at PATH on each and compares its output with this
      program's, byte for byte; --twin has fewer logs, with short advances, since the program walks
      every tick; --screen gives it a pin before the log, and of --salvage the file that it makes is
      compared too. Two in five logs of the first three come with a settings record, as --settings
      FILE. For --settings there are no logs: the program shows records and makes them. What is
      written on standard error is a difference. The first difference is shrunk and shown. Profiles:
      valid, adversarial, timers, controller, pause, torn; of --salvage sound, cut, flipped,
      inserted, spliced, noise; of --settings records, broken, numbers;
      all in turn without --profile. A profile of which enough logs were made has to reach every event
      that it is meant to reach; of --twin the profiles may do it together. --long takes a fresh seed
      and many logs.

  peer mutants [--seed N] [--logs N]
      Compares wrong models with the right one; every mistake has to be found.

  peer help
      This text.

Exit status: 0 nothing failed, 1 something failed, 2 wrong use.
";

fn main() -> ExitCode {
    let arguments: Vec<String> = std::env::args().skip(1).collect();
    let words: Vec<&str> = arguments.iter().map(String::as_str).collect();
    let result = match words.as_slice() {
        [] | ["help" | "--help" | "-h", ..] | [_, "--help" | "-h"] => {
            print!("{HELP}");
            Ok(true)
        }
        ["replay", words @ ..] => replay_command(words),
        ["screen", words @ ..] => screen_command(words),
        ["settings", "show"] => show_command(None),
        ["settings", "show", file] => show_command(Some(file)),
        ["settings", "make", words @ .., out] => make_command(words, out),
        ["salvage", file, out] => salvage_command(file, out),
        ["fuzz", options @ ..] => fuzz_command(options),
        ["mutants", options @ ..] => mutants_command(options),
        _ => Err(format!("this isn't a command: {}\n\n{HELP}", words.join(" "))),
    };
    match result {
        Ok(true) => ExitCode::SUCCESS,
        Ok(false) => ExitCode::FAILURE,
        Err(message) => {
            eprintln!("peer: {message}");
            ExitCode::from(2)
        }
    }
}

fn replay_command(words: &[&str]) -> Result<bool, String> {
    let (record, words) = settings_option(words)?;
    let file = match words {
        [] => None,
        [file] => Some(*file),
        _ => return Err("replay wants at most one log; see peer help".to_string()),
    };
    print_all(&replay_from(record.as_deref(), &log_from(file)?))
}

fn screen_command(words: &[&str]) -> Result<bool, String> {
    let (record, words) = settings_option(words)?;
    let (pin, file) = match words {
        [pin] => (pin, None),
        [pin, file] => (pin, Some(*file)),
        _ => return Err("screen wants a pin and at most one log; see peer help".to_string()),
    };
    let pin = pin_of(pin).ok_or_else(|| format!("the pin is a decimal number, not {pin}"))?;
    print_all(&screen_from(record.as_deref(), pin, &log_from(file)?))
}

/// The settings record that the first words name, if they do, and the other words.
fn settings_option<'words>(
    words: &'words [&'words str],
) -> Result<(Option<Vec<u8>>, &'words [&'words str]), String> {
    match words {
        ["--settings", file, words @ ..] => Ok((Some(log_from(Some(file))?), words)),
        ["--settings"] => Err("--settings wants a file".to_string()),
        _ => Ok((None, words)),
    }
}

fn show_command(file: Option<&str>) -> Result<bool, String> {
    print_all(&settings_file::show(&log_from(file)?))
}

fn make_command(words: &[&str], out: &str) -> Result<bool, String> {
    let usage = "settings make wants six numbers and the name of a new file; see peer help";
    let numbers: &[&str; settings_file::NUMBERS] = words.try_into().map_err(|_| usage)?;
    let output = settings_file::make(numbers).ok_or(usage)?;
    if out.is_empty() || out.starts_with('-') {
        return Err(usage.to_string());
    }
    if let Some(made) = output.made {
        make(out, &made)?;
    }
    print_all(&output.text)
}

fn salvage_command(file: &str, out: &str) -> Result<bool, String> {
    let is_option = |word: &str| word.len() > 1 && word.starts_with('-');
    if out.is_empty() || out == "-" || is_option(out) || is_option(file) {
        return Err("salvage wants a file and the name of a new one; see peer help".to_string());
    }
    let output = salvage(&log_from(Some(file).filter(|&file| file != "-"))?);
    if let Some(made) = output.made {
        make(out, &made)?;
    }
    print_all(&output.text)
}

/// Makes a new file; one that can't be written whole is removed again.
fn make(out: &str, bytes: &[u8]) -> Result<(), String> {
    let new = File::create_new(out);
    let mut file = new.map_err(|error| format!("can't make {out}: {error}"))?;
    file.write_all(bytes).map_err(|error| match fs::remove_file(out) {
        Ok(()) => format!("can't write {out}: {error}"),
        Err(left) => format!("can't write {out}: {error}; it can't be removed either: {left}"),
    })
}

fn log_from(file: Option<&str>) -> Result<Vec<u8>, String> {
    match file {
        Some(file) => std::fs::read(file).map_err(|error| format!("can't read {file}: {error}")),
        None => read_input().map_err(|error| format!("can't read standard input: {error}")),
    }
}

fn print_all(output: &str) -> Result<bool, String> {
    std::io::stdout()
        .write_all(output.as_bytes())
        .map_err(|error| format!("can't write the output: {error}"))?;
    Ok(true)
}

fn read_input() -> std::io::Result<Vec<u8>> {
    let mut log = Vec::new();
    std::io::stdin().read_to_end(&mut log)?;
    Ok(log)
}

fn fuzz_command(words: &[&str]) -> Result<bool, String> {
    let mut program = None;
    let mut choices = Choices::default();
    let mut words = words.iter();
    while let Some(&word) = words.next() {
        match word {
            "--replay" | "--twin" | "--screen" | "--salvage" | "--settings"
                if program.is_none() =>
            {
                program = Some((word, PathBuf::from(value_of(word, words.next())?)));
            }
            "--seed" => choices.seed = Some(number_of(word, words.next())?),
            "--logs" => choices.logs = Some(number_of(word, words.next())?),
            "--profile" => choices.profile = Some(value_of(word, words.next())?.to_string()),
            "--long" => choices.long = true,
            _ => return Err(unknown_option(word)),
        }
    }
    let (which, program) = program.ok_or(
        "which program? Say --replay PATH, --twin PATH, --screen PATH, --salvage PATH or --settings PATH",
    )?;
    match which {
        "--replay" => choices.run::<fuzz::Replay>(program),
        "--twin" => choices.run::<fuzz::Twin>(program),
        "--screen" => choices.run::<fuzz::Screen>(program),
        "--settings" => choices.run::<fuzz::SettingsFile>(program),
        _ => choices.run::<fuzz::Salvage>(program),
    }
}

/// What the command line says of a comparison, whichever program it is with.
#[derive(Default)]
struct Choices {
    seed: Option<u64>,
    logs: Option<u64>,
    profile: Option<String>,
    long: bool,
}

impl Choices {
    fn run<S: Subject>(self, program: PathBuf) -> Result<bool, String> {
        let (usual_seed, usual_logs) =
            if self.long { (fresh_seed(), S::LONG_LOGS) } else { (FIXED_SEED, S::GATE_LOGS) };
        fuzz::run::<S>(&fuzz::Options {
            program,
            seed: self.seed.unwrap_or(usual_seed),
            logs: self.logs.unwrap_or(usual_logs),
            profile: self.profile,
        })
    }
}

fn mutants_command(words: &[&str]) -> Result<bool, String> {
    let (mut seed, mut logs) = (FIXED_SEED, mutants::LOGS);
    let mut words = words.iter();
    while let Some(&word) = words.next() {
        match word {
            "--seed" => seed = number_of(word, words.next())?,
            "--logs" => logs = number_of(word, words.next())?,
            _ => return Err(unknown_option(word)),
        }
    }
    Ok(mutants::run(seed, logs))
}

fn unknown_option(word: &str) -> String {
    format!("unknown option {word}; see peer help")
}

fn value_of<'word>(option: &str, word: Option<&&'word str>) -> Result<&'word str, String> {
    word.copied().ok_or_else(|| format!("{option} wants a value"))
}

fn number_of(option: &str, word: Option<&&str>) -> Result<u64, String> {
    let word = value_of(option, word)?;
    let parsed = match word.strip_prefix("0x") {
        Some(digits) => u64::from_str_radix(digits, 16),
        None => word.parse(),
    };
    parsed.map_err(|_| format!("{option} wants a number, not {word}"))
}

fn fresh_seed() -> u64 {
    let now = SystemTime::now().duration_since(SystemTime::UNIX_EPOCH);
    now.map_or(1, |time| time.as_nanos() as u64)
}
