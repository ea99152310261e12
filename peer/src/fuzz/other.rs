//! The other program, run on a case.

use std::fs;
use std::io::{self, ErrorKind, Read, Write};
use std::path::{Path, PathBuf};
use std::process::{Child, Command, Stdio};
use std::sync::mpsc::{self, Receiver};
use std::thread;
use std::time::Duration;

use super::{Case, Files, Subject};

/// A run that takes longer is taken for one that doesn't end.
const PATIENCE: Duration = Duration::from_secs(60);

pub(super) fn hex(bytes: &[u8]) -> String {
    let words: Vec<String> = bytes.iter().map(|byte| format!("{byte:02X}")).collect();
    words.join(" ")
}

/// The bytes, or how many there are.
fn brief(log: &[u8]) -> String {
    if log.len() <= 2_000 {
        hex(log)
    } else {
        format!("a log of {} bytes", log.len())
    }
}

/// What a program prints, and what the file has that it makes, if it makes one. On standard error it prints nothing.
#[derive(PartialEq, Eq)]
pub(super) struct Outcome {
    pub(super) text: Vec<u8>,
    pub(super) errors: Vec<u8>,
    pub(super) made: Option<Vec<u8>>,
}

impl Outcome {
    /// This program's own.
    pub(super) fn own<S: Subject>(case: &Case) -> Outcome {
        Outcome { text: S::output(case).into_bytes(), errors: Vec::new(), made: S::made(case) }
    }
}

/// How a log is handed to the other program.
#[derive(Clone, Copy, Debug)]
pub(super) enum Way {
    Argument,
    StandardInput,
    Pipe,
}

/// The other program, with a folder for its logs.
pub(super) struct Other {
    program: PathBuf,
    folder: PathBuf,
}

impl Other {
    pub(super) fn new(program: &Path) -> Result<Other, String> {
        let folder = std::env::temp_dir().join(format!("peer-fuzz-{}", std::process::id()));
        fs::create_dir_all(&folder)
            .map_err(|error| format!("can't make {}: {error}", folder.display()))?;
        Ok(Other { program: program.to_path_buf(), folder })
    }

    /// What comes of a case. A program that can't be started, or doesn't end, is an error.
    pub(super) fn run<S: Subject>(&self, case: &Case, way: Way) -> Result<Outcome, String> {
        let program = self.program.display();
        let child =
            self.start::<S>(case, way).map_err(|error| format!("can't run {program}: {error}"))?;
        let (text, errors) = collect(child)
            .ok_or_else(|| format!("{program} doesn't end on {}", brief(&case.log)))?;
        let made = match fs::read(self.out()) {
            Ok(bytes) => Some(bytes),
            Err(error) if error.kind() == ErrorKind::NotFound => None,
            Err(error) => return Err(format!("can't read what {program} made: {error}")),
        };
        Ok(Outcome { text, errors, made })
    }

    /// The file that it may make.
    fn out(&self) -> PathBuf {
        self.folder.join("out")
    }

    fn start<S: Subject>(&self, case: &Case, way: Way) -> std::io::Result<Child> {
        let (file, out) = (self.folder.join("log"), self.out());
        match fs::remove_file(&out) {
            Err(error) if error.kind() != ErrorKind::NotFound => return Err(error),
            _ => {}
        }
        let settings = self.folder.join("settings");
        if let Some(record) = &case.settings {
            fs::write(&settings, record)?;
        }
        let log = matches!(way, Way::Argument).then_some(file.as_path());
        let mut command = Command::new(&self.program);
        command.args(S::arguments(case, &Files { log, settings: &settings, out: &out }));
        command.stdout(Stdio::piped()).stderr(Stdio::piped());
        match way {
            Way::Argument => {
                fs::write(&file, &case.log)?;
                command.stdin(Stdio::null()).spawn()
            }
            Way::StandardInput => {
                fs::write(&file, &case.log)?;
                command.stdin(fs::File::open(&file)?).spawn()
            }
            Way::Pipe => {
                let mut child = command.stdin(Stdio::piped()).spawn()?;
                let mut input = child.stdin.take().expect("the input is a pipe");
                let log = case.log.clone();
                // A program that stops reading early closes the pipe; its output shows that.
                thread::spawn(move || input.write_all(&log));
                Ok(child)
            }
        }
    }
}

impl Drop for Other {
    fn drop(&mut self) {
        // Only a leftover in the temporary folder if it fails.
        let _ = fs::remove_dir_all(&self.folder);
    }
}

/// Waits for what a program prints, also on standard error, but not for ever.
fn collect(mut child: Child) -> Option<(Vec<u8>, Vec<u8>)> {
    let text = read_beside(child.stdout.take().expect("the output is a pipe"));
    let errors = read_beside(child.stderr.take().expect("standard error is a pipe"));
    let answer = text.recv_timeout(PATIENCE).and_then(|text| {
        let errors = errors.recv_timeout(PATIENCE)?;
        Ok((text, errors))
    });
    if answer.is_err() {
        let _ = child.kill();
    }
    let _ = child.wait();
    let (text, errors) = answer.ok()?;
    Some((text.ok()?, errors.ok()?))
}

/// Reads to the end, beside what goes on here.
fn read_beside(mut output: impl Read + Send + 'static) -> Receiver<io::Result<Vec<u8>>> {
    let (sender, receiver) = mpsc::channel();
    thread::spawn(move || {
        let mut bytes = Vec::new();
        let read = output.read_to_end(&mut bytes);
        let _ = sender.send(read.map(|_| bytes));
    });
    receiver
}
