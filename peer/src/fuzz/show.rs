//! How a difference is shown.

use std::fs;
use std::path::Path;

use super::other::{hex, Outcome};
use super::Case;
use crate::log::records_of;

/// Longer bytes go to a file instead.
const BYTES: usize = 2_000;
/// Of longer texts only what is around the first difference is shown.
const LINES: usize = 60;

/// Prints a case, and what comes of it here and there.
pub(super) fn difference(
    case: &Case,
    own: &Outcome,
    other: &Outcome,
    program: &Path,
) -> Result<(), String> {
    let records = records_of(&case.log).0.len();
    println!("shrunk to {records} records, {} bytes:", case.log.len());
    bytes(&case.log, "log")?;
    case.pin.iter().for_each(|pin| println!("pin {pin}"));
    case.settings.iter().for_each(|record| println!("settings {}", hex(record)));
    case.numbers.iter().for_each(|numbers| println!("make {}", numbers.join(" ")));
    let (own_text, text) =
        (String::from_utf8_lossy(&own.text), String::from_utf8_lossy(&other.text));
    let same = own_text.lines().zip(text.lines()).take_while(|(a, b)| a == b).count();
    println!("--- peer");
    part_of(&own_text, same);
    println!("--- {}", program.display());
    part_of(&text, same);
    println!("---");
    if !other.errors.is_empty() {
        println!("--- it wrote on standard error");
        println!("{}", String::from_utf8_lossy(&other.errors).trim_end());
        println!("---");
    }
    if own.made != other.made {
        println!("--- the file that peer makes");
        file(own.made.as_deref(), "own-file")?;
        println!("--- the file that {} makes", program.display());
        file(other.made.as_deref(), "other-file")?;
        println!("---");
    }
    Ok(())
}

fn part_of(text: &str, same: usize) {
    let lines: Vec<&str> = text.split_inclusive('\n').collect();
    if lines.len() <= LINES {
        print!("{text}");
        return;
    }
    let start = same.saturating_sub(3);
    println!("({} lines; from line {} on)", lines.len(), start + 1);
    lines[start.min(lines.len())..].iter().take(LINES / 4).for_each(|line| print!("{line}"));
}

fn file(made: Option<&[u8]>, name: &str) -> Result<(), String> {
    match made {
        None => println!("none"),
        Some(made) => {
            println!("{} bytes:", made.len());
            bytes(made, name)?;
        }
    }
    Ok(())
}

fn bytes(bytes: &[u8], name: &str) -> Result<(), String> {
    if bytes.len() <= BYTES {
        println!("{}", hex(bytes));
        return Ok(());
    }
    let path = std::env::temp_dir().join(format!("peer-difference-{}-{name}", std::process::id()));
    fs::write(&path, bytes).map_err(|error| format!("can't write {}: {error}", path.display()))?;
    println!("in {}", path.display());
    Ok(())
}
