//! The program that the tables are held against. It reads a flight from standard input and writes its answers.

use std::io::{self, Write};
use std::process::Command;
use std::thread;

use crate::pipes;

pub struct Program {
    path: String,
}

impl Program {
    pub fn new(path: &str) -> Self {
        Program { path: path.to_string() }
    }

    /// All that the program writes for a flight. It has to end with status 0.
    pub fn fly(&self, flight: &[u8]) -> Result<Vec<u8>, String> {
        let message = |error: &dyn ToString| format!("{}: {}", self.path, error.to_string());
        let mut command = Command::new(&self.path);
        let started = pipes::start(&mut command);
        let (mut child, mut stdin, mut stdout) = started.map_err(|error| message(&error))?;
        let mut answers = Vec::new();
        let (written, read) = thread::scope(|scope| {
            let writer = scope.spawn(move || stdin.write_all(flight));
            let read = io::copy(&mut stdout, &mut answers);
            (writer.join().expect("the writer ended"), read)
        });
        // It may end before all of its input is read: after refusal 5 or 6.
        let failure = written.err().filter(|error| error.kind() != io::ErrorKind::BrokenPipe);
        if let Some(error) = read.err().or(failure) {
            return Err(message(&error));
        }
        let status = child.wait().map_err(|error| message(&error))?;
        let ended = || message(&format!("it ended with {status}{}", pipes::said()));
        if status.success() { Ok(answers) } else { Err(ended()) }
    }
}
