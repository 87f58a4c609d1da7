//! The programs print_plate and desk_session, run as programs: bytes on standard input, a text on
//! standard output. This is the only file that starts a process.

use std::env;
use std::fmt::{self, Display, Formatter};
use std::io::{ErrorKind, Write};
use std::path::{Path, PathBuf};
use std::process::{ChildStdin, Command, Output, Stdio};
use std::thread;
use std::time::Duration;

#[derive(Clone, Copy)]
pub enum Program {
    PrintPlate,
    DeskSession,
}

impl Display for Program {
    fn fmt(&self, f: &mut Formatter) -> fmt::Result {
        f.write_str(match self {
            Program::PrintPlate => "print_plate",
            Program::DeskSession => "desk_session",
        })
    }
}

/// How long the next piece of an input waits: long enough for a program to start and to read what
/// is there.
const PAUSE: Duration = Duration::from_millis(2);

/// Fails unless all programs are there.
pub fn all_there() -> Result<(), String> {
    for program in [Program::PrintPlate, Program::DeskSession] {
        path_of(program)?;
    }
    Ok(())
}

/// Runs a program on an input that comes in these pieces. Gives what it printed, if it ended with
/// status 0 and an empty standard error.
pub fn run(program: Program, pieces: &[&[u8]]) -> Result<Vec<u8>, String> {
    let ended = ended(&path_of(program)?, pieces).map_err(|error| format!("{program}: {error}"))?;
    let said = String::from_utf8_lossy(&ended.stderr);
    if !said.is_empty() {
        return Err(format!("{program} wrote to standard error: {said:?}"));
    }
    match ended.status.code() {
        Some(0) => Ok(ended.stdout),
        _ => Err(format!("{program} ended with {}", ended.status)),
    }
}

/// Runs a program to its end. A thread feeds it while its output is read, so that neither waits
/// for the other for ever.
fn ended(path: &Path, pieces: &[&[u8]]) -> std::io::Result<Output> {
    let mut child = Command::new(path)
        .stdin(Stdio::piped())
        .stdout(Stdio::piped())
        .stderr(Stdio::piped())
        .spawn()?;
    let stdin = child.stdin.take();
    thread::scope(|scope| {
        let feeding = scope.spawn(move || stdin.map_or(Ok(()), |stdin| feed(stdin, pieces)));
        let output = child.wait_with_output()?;
        feeding.join().expect("feeding doesn't panic")?;
        Ok(output)
    })
}

/// Writes the pieces and closes the input. A program may stop reading before their end.
fn feed(mut stdin: ChildStdin, pieces: &[&[u8]]) -> std::io::Result<()> {
    for (place, piece) in pieces.iter().enumerate() {
        if place > 0 {
            thread::sleep(PAUSE);
        }
        match stdin.write_all(piece) {
            Err(error) if error.kind() == ErrorKind::BrokenPipe => return Ok(()),
            written => written?,
        }
    }
    Ok(())
}

/// Where a program is: in the folder that PLATE_BIN_DIR names, else in its crate's out/.
fn path_of(program: Program) -> Result<PathBuf, String> {
    let folder = match env::var_os("PLATE_BIN_DIR").filter(|name| !name.is_empty()) {
        Some(name) => PathBuf::from(name),
        None => Path::new(env!("CARGO_MANIFEST_DIR")).join(format!("../crates/{program}/out")),
    };
    if folder.is_relative() {
        let folder = folder.display();
        return Err(format!(
            "PLATE_BIN_DIR is {folder}, and must be an absolute path"
        ));
    }
    let path = folder.join(program.to_string());
    match path.is_file() {
        true => Ok(path),
        false => Err(format!(
            "{} isn't there. `rt run <stdin` in the repository's crates/{program} writes it to its out/; \
             PLATE_BIN_DIR names another folder that has it",
            path.display()
        )),
    }
}
