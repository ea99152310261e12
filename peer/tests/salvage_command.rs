//! `peer salvage FILE OUT`, run.
#![allow(missing_docs)]

use std::fs::{self, File};
use std::path::PathBuf;
use std::process::{Command, Output, Stdio};

/// A damaged log, what is printed of it, and what is made of it.
const LOG: [u8; 5] = [0, 0x7E, 0xB5, 6, 0];
const TEXT: &str = "kept records may include damage\nskipped 1 at 0\nskipped 1 at 4\nkept 1\n";
const MADE: [u8; 3] = [0x7E, 0xB5, 6];

/// An empty folder that goes with the test.
struct Folder(PathBuf);

impl Folder {
    fn new(name: &str) -> Folder {
        let folder = std::env::temp_dir().join(format!("peer-{name}-{}", std::process::id()));
        fs::create_dir_all(&folder).unwrap();
        Folder(folder)
    }

    fn path(&self, name: &str) -> PathBuf {
        self.0.join(name)
    }

    fn write(&self, name: &str, bytes: &[u8]) {
        fs::write(self.path(name), bytes).unwrap();
    }

    fn salvage(&self, words: &[&str], input: Stdio) -> Output {
        let mut command = Command::new(env!("CARGO_BIN_EXE_peer"));
        command.arg("salvage").args(words).current_dir(&self.0).stdin(input);
        command.output().unwrap()
    }
}

impl Drop for Folder {
    fn drop(&mut self) {
        let _ = fs::remove_dir_all(&self.0);
    }
}

fn text(output: &Output) -> &str {
    std::str::from_utf8(&output.stdout).unwrap()
}

#[test]
fn a_file_and_standard_input() {
    let folder = Folder::new("salvage-file");
    folder.write("log", &LOG);
    let output = folder.salvage(&["log", "out"], Stdio::null());
    assert_eq!((text(&output), output.status.code()), (TEXT, Some(0)));
    assert_eq!(fs::read(folder.path("out")).unwrap(), MADE);
    let log = File::open(folder.path("log")).unwrap();
    let output = folder.salvage(&["-", "second"], log.into());
    assert_eq!((text(&output), output.status.code()), (TEXT, Some(0)));
    assert_eq!(fs::read(folder.path("second")).unwrap(), MADE);
}

#[test]
fn a_file_that_is_there_is_not_touched() {
    let folder = Folder::new("salvage-there");
    folder.write("log", &LOG);
    folder.write("out", b"mine");
    for out in ["out", "log"] {
        let output = folder.salvage(&["log", out], Stdio::null());
        assert_eq!((text(&output), output.status.success()), ("", false));
    }
    assert_eq!(fs::read(folder.path("out")).unwrap(), b"mine");
    assert_eq!(fs::read(folder.path("log")).unwrap(), LOG);
}

#[test]
fn too_long_makes_nothing() {
    let folder = Folder::new("salvage-long");
    folder.write("log", &vec![0; 262_145]);
    let output = folder.salvage(&["log", "out"], Stdio::null());
    assert_eq!((text(&output), output.status.code()), ("too long\n", Some(0)));
    assert!(!folder.path("out").exists());
}

#[test]
fn wrong_uses_make_nothing() {
    let folder = Folder::new("salvage-wrong");
    folder.write("log", &LOG);
    let uses: [&[&str]; 7] = [
        &["log"],
        &["log", "-"],
        &["log", ""],
        &["log", "-x"],
        &["-x", "out"],
        &["none", "out"],
        &[],
    ];
    for words in uses {
        let output = folder.salvage(words, Stdio::null());
        assert_eq!((text(&output), output.status.code()), ("", Some(2)), "{words:?}");
    }
    assert_eq!(fs::read_dir(&folder.0).unwrap().count(), 1);
}
