//! The settings on the command line, run: `peer settings show` and `make`, and `--settings` of `replay` and `screen`.
#![allow(missing_docs)]

use std::fs::{self, File};
use std::path::PathBuf;
use std::process::{Command, Output, Stdio};

use peer::log::LONGEST;
use peer::settings::Settings;
use peer::settings_file::{make, number_of, show};

const OTHER: Settings =
    Settings { vendor: 0x1022, period: 69_841_279, masks: [1 << 2, 1 << 8, 0xF0_0000], id: 9 };

const USUAL_TEXT: &str = "form 1\nvendor 0x8086\nperiod 100000000\nmask 0 0x00ffffff\n\
    mask 1 0x00ffffff\nmask 2 0x00ffffff\nid 0\n";
const OTHER_TEXT: &str = "form 1\nvendor 0x1022\nperiod 69841279\nmask 0 0x00000004\n\
    mask 1 0x00000100\nmask 2 0x00f00000\nid 9\n";

/// An empty folder that goes with the test.
struct Folder(PathBuf);

impl Folder {
    fn new(name: &str) -> Folder {
        let folder = std::env::temp_dir().join(format!("peer-{name}-{}", std::process::id()));
        fs::create_dir_all(&folder).unwrap();
        Folder(folder)
    }

    fn write(&self, name: &str, bytes: &[u8]) {
        fs::write(self.0.join(name), bytes).unwrap();
    }

    fn run(&self, words: &str, input: Stdio) -> Output {
        let mut command = Command::new(env!("CARGO_BIN_EXE_peer"));
        command.args(words.split_whitespace()).current_dir(&self.0).stdin(input);
        command.output().unwrap()
    }

    fn says(&self, words: &str, text: &str) {
        let output = self.run(words, Stdio::null());
        assert_eq!(String::from_utf8_lossy(&output.stdout), text, "{words}");
        assert_eq!((output.status.code(), output.stderr.len()), (Some(0), 0), "{words}");
    }
}

impl Drop for Folder {
    fn drop(&mut self) {
        let _ = fs::remove_dir_all(&self.0);
    }
}

#[test]
fn show_prints_the_record() {
    let folder = Folder::new("settings-show");
    folder.write("usual", &Settings::USUAL.record());
    folder.write("other", &OTHER.record());
    folder.says("settings show usual", USUAL_TEXT);
    folder.says("settings show other", OTHER_TEXT);
    let file = File::open(folder.0.join("other")).unwrap();
    assert_eq!(folder.run("settings show", file.into()).stdout, OTHER_TEXT.as_bytes());
}

#[test]
fn show_prints_only_the_refusal() {
    let folder = Folder::new("settings-refused");
    let good = OTHER.record();
    folder.write("empty", &[]);
    folder.write("short", &good[..21]);
    folder.write("long", &[&good[..], &[0]].concat());
    folder.write("mark", &[&[0x5A, 0xC2], &good[2..]].concat());
    folder.write("form", &[&good[..2], &[2], &good[3..]].concat());
    folder.write("range", &[&good[..21], &[16]].concat());
    for (file, number) in
        [("empty", 8), ("short", 8), ("long", 8), ("mark", 6), ("form", 9), ("range", 10)]
    {
        folder.says(&format!("settings show {file}"), &format!("refused {number}\n"));
        folder.says(
            &format!("replay --settings {file} empty"),
            &format!("settings refused {number}\n"),
        );
    }
}

#[test]
fn make_writes_22_bytes_and_prints_what_show_says() {
    let folder = Folder::new("settings-make");
    folder.says("settings make 0x1022 69841279 4 0x100 0xf00000 9 made", OTHER_TEXT);
    assert_eq!(fs::read(folder.0.join("made")).unwrap(), OTHER.record());
    folder.says("settings show made", OTHER_TEXT);
    folder.says("settings make 32902 100000000 0xFFFFFF 0x00ffffff 16777215 0x0 usual", USUAL_TEXT);
    assert_eq!(fs::read(folder.0.join("usual")).unwrap(), Settings::USUAL.record());
}

#[test]
fn make_refuses_what_is_out_of_range_or_too_large_and_makes_no_file() {
    let folder = Folder::new("settings-range");
    let good = ["0x1022", "69841279", "4", "0x100", "0xf00000", "9"];
    let bad: [(usize, &[&str]); 4] = [
        (0, &["65536", "0x10000", "0x100001022", "4294967296", "99999999999999999999999"]),
        (1, &["0", "100000001", "4294967297", "0x10000000000000001"]),
        (3, &["0", "0x1000000", "16777216", "0x100000001", "0x10000000000000000000004"]),
        (5, &["16", "256", "265", "0x100000009", "18446744073709551625"]),
    ];
    for (place, numbers) in bad {
        for number in numbers {
            let mut words = good;
            words[place] = number;
            folder.says(&format!("settings make {} none", words.join(" ")), "refused 10\n");
        }
    }
    assert_eq!(fs::read_dir(&folder.0).unwrap().count(), 0);
}

#[test]
fn make_does_not_touch_a_file_that_is_there() {
    let folder = Folder::new("settings-there");
    folder.write("mine", b"mine");
    let output = folder.run("settings make 1 1 1 1 1 1 mine", Stdio::null());
    assert_eq!((output.stdout.len(), output.status.success()), (0, false));
    assert_eq!(fs::read(folder.0.join("mine")).unwrap(), b"mine");
    for words in [
        "make 1 1 1 1 1 out",
        "make 1 1 1 1 1 1",
        "make 1 1 1 1 1 x out",
        "make 1 1 1 1 1 -1 out",
        "",
        "show a b",
    ] {
        let output = folder.run(&format!("settings {words}"), Stdio::null());
        assert_eq!((output.stdout.len(), output.status.code()), (0, Some(2)), "{words}");
    }
    assert_eq!(fs::read_dir(&folder.0).unwrap().count(), 1);
}

#[test]
fn numbers_are_decimal_or_hexadecimal() {
    for (word, number) in [
        ("0", Some(0)),
        ("007", Some(7)),
        ("0x0", Some(0)),
        ("0x00aB", Some(0xAB)),
        ("18446744073709551615", Some(u64::MAX)),
        ("18446744073709551616", Some(u64::MAX)),
        ("", None),
        ("0x", None),
        ("+1", None),
        ("-1", None),
        ("1f", None),
        ("0xg", None),
        (" 1", None),
    ] {
        assert_eq!(number_of(word), number, "{word:?}");
    }
    assert_eq!(make(&["1", "1", "1", "1", "1", "0x"]), None);
    assert_eq!(show(&[]), "refused 8\n");
}

#[test]
fn replay_and_screen_start_from_the_settings() {
    let folder = Folder::new("settings-replay");
    folder.write("other", &OTHER.record());
    // The capability register, timer 1's configuration, and the id behind index 0.
    let log = [
        [0x7E, 0xB5, 1, 1, 8, 0x00, 0x00],
        [0x7E, 0xB5, 1, 1, 8, 0x20, 0x01],
        [0x7E, 0xB5, 1, 0, 4, 0x10, 0x00],
    ];
    folder.write("log", &log.concat());
    let lines =
        "0 read 0x0429b17f10222201\n1 read 0x0000010000001030\n2 read 0x0000000009000000\nend 3\n";
    folder.says("replay --settings other log", lines);
    folder.says("screen --settings other 5 log", &format!("screen running\n{lines}"));
    let usual =
        "0 read 0x05f5e10080862201\n1 read 0x00ffffff00000030\n2 read 0x0000000000000000\nend 3\n";
    folder.says("replay log", usual);
}

#[test]
fn a_refused_record_is_printed_before_everything_else() {
    let folder = Folder::new("settings-first");
    folder.write("short", &[0x5A]);
    folder.write("good", &OTHER.record());
    folder.write("long", &vec![0; LONGEST + 1]);
    folder.says("replay --settings short long", "settings refused 8\n");
    folder.says("screen --settings short 24 long", "settings refused 8\n");
    folder.says("screen --settings good 24 long", "refused 3\n");
    folder.says("screen --settings good 23 long", "too long\n");
    folder.says("replay --settings good long", "too long\n");
    for words in ["replay --settings", "replay --settings none long", "screen --settings good"] {
        assert_eq!(folder.run(words, Stdio::null()).status.code(), Some(2), "{words}");
    }
}
